"""Whether a log keeps the rules of the schema of SARIF 2.1.0, as sarif_rules.json restates them. Where Python has `jsonschema` (Debian:
python3-jsonschema) that judges too; the validator here knows just what the restated rules use, and needs nothing."""
import json
import re
from pathlib import Path

RULES = json.loads((Path(__file__).parent / "sarif_rules.json").read_text(encoding="utf-8"))
TYPES = {"object": dict, "array": list, "string": str, "integer": int, "boolean": bool}


def of_object(value, rule, at):
    for name in rule.get("required", ()):
        if name not in value:
            yield f"{at}: {name} is missing"
    others = rule.get("additionalProperties", True)
    for name, member in value.items():
        if name in rule.get("properties", {}):
            yield from faults(member, rule["properties"][name], f"{at}.{name}")
        elif others is False:
            yield f"{at}: {name} is no member"
        elif isinstance(others, dict):
            yield from faults(member, others, f"{at}.{name}")


def of_array(value, rule, at):
    if rule.get("uniqueItems") and len({json.dumps(item, sort_keys=True) for item in value}) < len(value):
        yield f"{at}: an item stands twice"
    for number, item in enumerate(value):
        yield from faults(item, rule["items"], f"{at}[{number}]")


def faults(value, rule, at="log"):
    """A line for each fault of a value by a rule."""
    if "$ref" in rule:
        rule = RULES["definitions"][rule["$ref"].rsplit("/", 1)[1]]
    kind = rule.get("type")
    if kind and (not isinstance(value, TYPES[kind]) or kind == "integer" and isinstance(value, bool)):
        yield f"{at}: is no {kind}"
    elif "enum" in rule and value not in rule["enum"]:
        yield f"{at}: is none of {rule['enum']}"
    elif "minimum" in rule and value < rule["minimum"]:
        yield f"{at}: is less than {rule['minimum']}"
    elif "pattern" in rule and not re.search(rule["pattern"], value):
        yield f"{at}: has not the form {rule['pattern']}"
    elif kind == "object":
        yield from of_object(value, rule, at)
    elif kind == "array":
        yield from of_array(value, rule, at)


def rules_of_text(log):
    """What the standard says of a log beside its schema: each result points at its rule, and each text says something."""
    for run in log["runs"]:
        names = [rule["id"] for rule in run["tool"]["driver"]["rules"]]
        if len(set(names)) < len(names):
            yield "two rules have one id"
        for result in run["results"]:
            if names[result["ruleIndex"]] != result["ruleId"]:
                yield f"ruleIndex {result['ruleIndex']} is not that of {result['ruleId']}"
            if not result["message"]["text"]:
                yield f"a result of {result['ruleId']} says nothing"


def judged(log):
    """All faults of a log, by the validator here and by `jsonschema` where it is."""
    found = [*faults(log, RULES)]
    found += rules_of_text(log) if not found else []
    try:
        import jsonschema
    except ImportError:
        return found
    judge = jsonschema.Draft7Validator(RULES)
    return found + [f"jsonschema: {fault.json_path}: {fault.message}" for fault in judge.iter_errors(log)]
