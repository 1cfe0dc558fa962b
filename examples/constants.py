"""A host's constants, in a prelude of its own. With embed/python on the PYTHONPATH it prints `"I am v2"`."""
import starload

def constants(values):
    return "".join(f"{name} = {literal(value)}\n" for name, value in values.items())

def literal(value):
    if value is None or isinstance(value, bool):
        return str(value)
    if isinstance(value, int):
        return "(-9223372036854775807 - 1)" if value == -(2**63) else str(value)
    if isinstance(value, str):
        return '"' + "".join("\\" + c if c in '\\"' else f"\\x{ord(c):02x}" if ord(c) < 32 else c for c in value) + '"'
    if isinstance(value, dict):
        return "{" + ", ".join(f"{literal(k)}: {literal(v)}" for k, v in value.items()) + "}"
    if isinstance(value, (list, tuple)):
        return "[" + ", ".join(map(literal, value)) + "]"
    raise TypeError(f"not a constant: {value!r}")

files = {"//:a.star": 'greeting = "I am " + VERSION\n'}
files["//host:constants.star"] = constants({"VERSION": "v2", "PORTS": [80, 443]})
report = starload.load(files, ["//:a.star"], prelude="//host:constants.star")
print(report["//:a.star"].globals["greeting"])
