"""What the host answers: its functions that have an answer, without one of its own."""

def glob(include):
    return ["glob:" + pattern for pattern in include]
