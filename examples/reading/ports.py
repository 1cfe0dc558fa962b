"""The global `ports` of //app:main.star, in Python."""
import json, subprocess

run = subprocess.run(["starload", "--with", "values", "--dir", ".", "//app:main.star"], capture_output=True)
if run.returncode == 2:
    raise SystemExit(run.stderr.decode())
modules = {m["label"]: m for m in json.loads(run.stdout)["modules"]}
main = modules["//app:main.star"]
if main["status"] != "ok":
    raise SystemExit(f"{main['label']}:{main['line']}: {main['status']}")
print(main["values"]["ports"])
