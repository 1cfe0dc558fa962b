"""Prints each object, as `kubectl apply -f -` reads it."""
import json
import sys

for line in sys.stdin:
    print("---")
    print(json.dumps(json.loads(line)["args"][0]))
