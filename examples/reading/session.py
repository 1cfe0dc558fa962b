"""A client of a session: the global `ports` of //app:main.star, asked for in a process that stays."""
import json, subprocess

class Loader:
    def __init__(self, *words):
        self.run = subprocess.Popen(["starload", "--requests", *words], stdin=subprocess.PIPE, stdout=subprocess.PIPE)

    def ask(self, roots, **more):
        self.run.stdin.write(json.dumps({"roots": roots, **more}).encode() + b"\n")
        self.run.stdin.flush()
        answer = json.loads(self.run.stdout.readline())
        if "refused" in answer:
            raise ValueError(answer["refused"])
        return {module["label"]: module for module in answer["report"]["modules"]}

loader = Loader("--repo", ".", "--with", "values")
loader.ask(["//app:main.star"])
print(loader.ask(["//app:main.star"], changed=["app/main.star"])["//app:main.star"]["values"]["ports"])
