"""Prints the steps of each pipeline."""
import json
import sys

for line in sys.stdin:
    for step in json.loads(line)["kwargs"]["steps"]:
        print(step["name"], step["image"], *step["commands"], sep=": ")
