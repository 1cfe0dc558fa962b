"""Prints each target of a report, with what it depends on."""
import json
import sys

for module in json.load(sys.stdin)["modules"]:
    for call in module["calls"]:
        print(call["name"], module["label"], call["kwargs"]["name"], *call["kwargs"].get("deps", []))
