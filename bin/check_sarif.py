#!/usr/bin/env python3
"""Holds logs in SARIF against what the standard asks of them (SARIF 2.1.0, OASIS, 27 March 2020; the sections stand beside each object).

`bin/check_sarif.py LOG..` prints each member that is missing, unknown or of another form, and ends with 1 where there is one. Only the objects and members
that the reporter `sarif` writes are known here.
"""
import json
import re
import sys

URI = re.compile(r"^([A-Za-z0-9\-._~!$&'()*+,;=:@/?#]|%[0-9A-Fa-f]{2})*$")


def text(value):
    return isinstance(value, str)


def uri(value):
    """3.10.1, RFC 3986."""
    return text(value) and URI.match(value) is not None


def from_one(value):
    """3.30.5 to 3.30.8."""
    return isinstance(value, int) and not isinstance(value, bool) and value >= 1


def not_negative(value):
    """3.28.2."""
    return isinstance(value, int) and not isinstance(value, bool) and value >= 0


def one_of(*values):
    return lambda value: value in values


def texts(value):
    """3.27.17, 3.5.4."""
    return isinstance(value, dict) and all(text(v) for v in value.values())


# each object: its members, the required first
OBJECTS = {
    # 3.13
    "sarifLog": ({"version": one_of("2.1.0"), "runs": ["run"]}, {"$schema": uri}),
    # 3.14
    "run": ({"tool": "tool"}, {"results": ["result"], "columnKind": one_of("utf16CodeUnits", "unicodeCodePoints")}),
    # 3.18
    "tool": ({"driver": "toolComponent"}, {}),
    # 3.19
    "toolComponent": ({"name": text}, {"rules": ["reportingDescriptor"]}),
    # 3.49
    "reportingDescriptor": (
        {"id": text},
        {"shortDescription": "multiformatMessageString", "fullDescription": "multiformatMessageString", "help": "multiformatMessageString"},
    ),
    # 3.12
    "multiformatMessageString": ({"text": text}, {}),
    # 3.27
    "result": (
        {"message": "message"},
        {
            "ruleId": text,
            "level": one_of("none", "note", "warning", "error"),
            "locations": ["location"],
            "relatedLocations": ["location"],
            "partialFingerprints": texts,
            "properties": "propertyBag",
        },
    ),
    # 3.8: what the reporter says beside the standard
    "propertyBag": ({}, {"moreNotes": from_one}),
    # 3.11
    "message": ({"text": text}, {}),
    # 3.28
    "location": ({}, {"id": not_negative, "physicalLocation": "physicalLocation", "message": "message"}),
    # 3.29
    "physicalLocation": ({"artifactLocation": "artifactLocation"}, {"region": "region"}),
    # 3.4
    "artifactLocation": ({"uri": uri}, {}),
    # 3.30
    "region": ({"startLine": from_one}, {"startColumn": from_one, "endLine": from_one, "endColumn": from_one}),
}


def faults_of(form, value, path):
    """What is wrong with a value of this form: an object's name, a list of one, or a test."""
    if callable(form):
        return [] if form(value) else [f"{path}: {value!r}"]
    if isinstance(form, list):
        if not isinstance(value, list):
            return [f"{path}: no array"]
        # 3.7.3: unique elements are asked for of all arrays but that of runs
        found = [] if len({json.dumps(v, sort_keys=True) for v in value}) == len(value) or form == ["run"] else [f"{path}: an element twice"]
        return found + [fault for i, v in enumerate(value) for fault in faults_of(form[0], v, f"{path}[{i}]")]
    if not isinstance(value, dict):
        return [f"{path}: no object"]
    required, optional = OBJECTS[form]
    found = [f"{path}.{name}: missing" for name in required if name not in value]
    for name, part in value.items():
        form_of_part = required.get(name, optional.get(name))
        if form_of_part is None:
            found.append(f"{path}.{name}: unknown")
        else:
            found += faults_of(form_of_part, part, f"{path}.{name}")
    return found


def faults_between(log):
    """What objects say of one another: 3.19.23 (ids of rules), 3.27.5 (a result's rule), 3.28.2 (ids of locations), 3.30.7 and 3.30.8 (ends of regions)."""
    found = []
    for run in log["runs"]:
        rules = [rule["id"] for rule in run["tool"]["driver"].get("rules", [])]
        if len(set(rules)) != len(rules):
            found.append("rules: an id twice")
        for i, result in enumerate(run.get("results", [])):
            if result.get("ruleId") not in rules:
                found.append(f"results[{i}]: no rule {result.get('ruleId')}")
            places = result.get("locations", []) + result.get("relatedLocations", [])
            ids = [place["id"] for place in places if "id" in place]
            if len(set(ids)) != len(ids):
                found.append(f"results[{i}]: an id of a location twice")
            regions = [place["physicalLocation"]["region"] for place in places]
            if any("endLine" in region and (region["endLine"], region["endColumn"]) < (region["startLine"], region["startColumn"]) for region in regions):
                found.append(f"results[{i}]: a region ends before it begins")
    return found


def main():
    wrong = 0
    for name in sys.argv[1:]:
        with open(name, encoding="utf-8") as file:
            log = json.load(file)
        found = faults_of("sarifLog", log, "log") or faults_between(log)
        for fault in found:
            print(f"{name}: {fault}")
        wrong += len(found)
    sys.exit(1 if wrong else 0)


if __name__ == "__main__":
    main()
