#!/usr/bin/env python3
"""Holds the report of each case of tests/cases to docs/SCHEMA.json, by the words of JSON Schema that it uses.

    check.py [STDOUT..]        the last line is 'N reports, M against the schema'; the status is 0 where M is 0
"""
import glob
import json
import os
import sys

TOP = os.path.dirname(os.path.dirname(os.path.dirname(os.path.abspath(__file__))))
SCHEMA = json.load(open(f"{TOP}/docs/SCHEMA.json", encoding="utf-8"))
TYPES = {"object": dict, "array": list, "string": str, "integer": int}
WORDS = {
    "$schema", "$defs", "$ref", "title", "description", "type", "required", "properties", "additionalProperties", "items", "oneOf", "const", "enum",
    "minimum", "maxItems",
}


def fits(it, schema):
    """Whether a value is one of the schema."""
    if set(schema) - WORDS:
        raise ValueError(f"words that are not read here: {set(schema) - WORDS}")
    if "$ref" in schema and not fits(it, SCHEMA["$defs"][schema["$ref"].removeprefix("#/$defs/")]):
        return False
    if "type" in schema and (not isinstance(it, TYPES[schema["type"]]) or isinstance(it, bool)):
        return False
    if "const" in schema and it != schema["const"] or "enum" in schema and it not in schema["enum"]:
        return False
    if "minimum" in schema and it < schema["minimum"] or len(it if "maxItems" in schema else []) > schema.get("maxItems", 0):
        return False
    if "oneOf" in schema and sum(fits(it, one) for one in schema["oneOf"]) != 1:
        return False
    if isinstance(it, list):
        return all(fits(one, schema.get("items", {})) for one in it)
    if not isinstance(it, dict):
        return True
    known, others = schema.get("properties", {}), schema.get("additionalProperties", True)
    for key, one in it.items():
        if key not in known and others is False or not fits(one, known.get(key, others if isinstance(others, dict) else {})):
            return False
    return set(schema.get("required", [])) <= set(it)


def is_report(path):
    """Whether a case writes a report: not the globals of its roots, nor the graph of loads."""
    args = f"{os.path.dirname(path)}/args"
    words = open(args, encoding="utf-8").read().split("\n") if os.path.exists(args) else []
    return not {"--get", "--graph"} & set(words)


def main():
    sys.setrecursionlimit(10000)
    reports = wrong = 0
    for path in sys.argv[1:] or sorted(glob.glob(f"{TOP}/tests/cases/*/stdout")):
        text = open(path, encoding="utf-8").read()
        if not text or not is_report(path):
            continue
        reports += 1
        if not fits(json.loads(text), SCHEMA):
            wrong += 1
            print(f"against the schema: {path}")
    print(f"{reports} reports, {wrong} against the schema")
    return min(wrong, 1)


sys.exit(main())
