#!/usr/bin/env python3
"""Holds logs in SARIF against the public schema of SARIF 2.1.0, as far as Debian has it.

Usage: bench/sarif-schema.py LOG..    (apt-get install golang-github-haya14busa-go-sarif-dev python3-jsonschema)

The schema itself is in no package. `sarif.go` of that package was generated from it: each struct is an object of the schema with the names, types and
values of its members, and `omitempty` stands at those that aren't required. A JSON schema is made of that again, to which no member may be added that
isn't there, as in the public one, and each log is held against it. What the file doesn't tell, the bounds of numbers and the forms of URIs and ids,
`bin/check_sarif.py` has from the standard's text. Ends with 1 where a log is none.
"""
import json
import re
import sys

import jsonschema

SOURCE = "/usr/share/gocode/src/github.com/haya14busa/go-sarif/sarif/sarif.go"
STRUCT = re.compile(r"^type (\w+) struct \{\n(.*?)^\}", re.M | re.S)
MEMBER = re.compile(r'^\s+\w+\s+(\S+)\s+`json:"([^",]+)(,omitempty)?"`', re.M)
VALUE = re.compile(r'^\s+\w+ (\w+) = "([^"]*)"', re.M)
SIMPLE = {"string": "string", "int64": "integer", "float64": "number", "bool": "boolean"}


def form_of(kind):
    """The schema of a type of Go."""
    if kind.startswith("*"):
        return form_of(kind[1:])
    if kind.startswith("[]"):
        return {"type": "array", "items": form_of(kind[2:])}
    if kind.startswith("map[string]"):
        return {"type": "object", "additionalProperties": form_of(kind[len("map[string]"):])}
    if kind in SIMPLE:
        return {"type": SIMPLE[kind]}
    return {"$ref": "#/definitions/" + kind}


def schema_of(text):
    """The schema that the structs were generated from, but for bounds and forms."""
    definitions = {}
    for name, body in STRUCT.findall(text):
        members = MEMBER.findall(body)
        definitions[name] = {
            "type": "object",
            "properties": {member: form_of(kind) for kind, member, _ in members},
            "required": [member for _, member, optional in members if not optional],
            # a property bag may have members of any name
            "additionalProperties": name == "PropertyBag",
        }
    for name, value in VALUE.findall(text):
        definitions.setdefault(name, {"enum": []})["enum"].append(value)
    return {"$ref": "#/definitions/Sarif", "definitions": definitions}


def main(logs):
    with open(SOURCE, encoding="utf-8") as source:
        schema = schema_of(source.read())
    validator = jsonschema.Draft7Validator(schema)
    bad = 0
    for log in logs:
        with open(log, encoding="utf-8") as file:
            faults = list(validator.iter_errors(json.load(file)))
        for fault in faults:
            print(f"{log}: {'/'.join(map(str, fault.absolute_path))}: {fault.message}")
        bad += len(faults) > 0
    print(f"{len(schema['definitions'])} definitions, {len(logs)} logs, {bad} of them none of the schema")
    return 1 if bad else 0


if __name__ == "__main__":
    if len(sys.argv) < 2:
        print(__doc__, file=sys.stderr)
        sys.exit(64)
    sys.exit(main(sys.argv[1:]))
