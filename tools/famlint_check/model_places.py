"""Where a model has the fault that famlint tells: famlint says which feature or which constraint, and here is its line and column."""
from . import json_places
from .findings import Place

MOST_FEATURES = 32
MOST_CONSTRAINTS = 256
MOST_VALUE = 1 << 20


def place_at(text, at):
    """The line and column of a byte."""
    before = text[:at]
    return Place(before.count(b"\n") + 1, at - (before.rfind(b"\n") + 1) + 1)


def fault_of_ends(members):
    """What is wrong with the ends of a feature's range."""
    for name in ("min", "max"):
        if name in members:
            value = members[name].value
            if type(value.content) is not int or not -1 << 63 <= value.content < 1 << 63:
                return value.at, "a whole number must stand here"
    if ("min" in members) != ("max" in members):
        member = members.get("min") or members["max"]
        return member.at, "a feature has both of min and max, or none"
    return None


def fault_of_feature(value):
    """What is no feature: the byte, and why; or nothing."""
    if not isinstance(value.content, dict):
        return value.at, 'a feature must stand here, as {"name": "FAST"}'
    for name, member in value.content.items():
        if name not in ("name", "min", "max"):
            return member.at, "a feature has name, min and max, and nothing else"
    if "name" not in value.content:
        return value.at, "the feature has no name"
    name = value.content["name"].value
    if not isinstance(name.content, str):
        return name.at, "a name in quotes must stand here"
    return fault_of_ends(value.content)


def faults_of_member(name, member):
    """What is wrong within `features` or `constraints`."""
    value = member.value
    if name not in ("features", "constraints"):
        yield member.at, "a model has features and constraints, and nothing else"
    elif not isinstance(value.content, list):
        yield value.at, "an array must stand here"
    elif name == "features":
        for item in value.content:
            fault = fault_of_feature(item)
            if fault:
                yield fault
    else:
        for item in value.content:
            if not isinstance(item.content, str):
                yield item.at, "a constraint in quotes must stand here"


def fault_of_shape(value):
    """The first byte at which the value is no model, and why."""
    if not isinstance(value.content, dict):
        return value.at, "a model is an object"
    faults = [fault for name, member in value.content.items() for fault in faults_of_member(name, member)]
    if "features" not in value.content:
        faults.append((value.at, "the model has no features"))
    return min(faults) if faults else (value.at, "")


def items_of(value, name):
    """The items of `features` or `constraints`."""
    return value.content[name].value.content if name in value.content else []


def byte_of_range(feature):
    """The end of a range that is at fault."""
    low, high = feature.content["min"].value, feature.content["max"].value
    is_low_alone = abs(low.content) <= MOST_VALUE and low.content <= high.content
    return high.at if is_low_alone else low.at


def fault_of_part(value, code, number):
    """The byte of a fault in a value that has the shape of a model, and no more to say of it."""
    features, constraints = items_of(value, "features"), items_of(value, "constraints")
    if code == "M6":
        return (features[MOST_FEATURES] if len(features) > MOST_FEATURES else constraints[MOST_CONSTRAINTS]).at, ""
    if code in ("M3", "M4"):
        return features[number - 1].content["name"].value.at, ""
    if code == "M5":
        return byte_of_range(features[number - 1]), ""
    if code.startswith("M7"):
        return constraints[number - 1].at, ""
    # M9 and M10 are told of all constraints together
    return (value.content["constraints"].value.at if "constraints" in value.content else value.at), ""


def fault_in(text, code, number):
    """The place of the fault with this code in the text of a model, and what is to say of it. Where the text does not have the fault, as
    when it was changed since, it is the first place."""
    if code == "M8":
        return Place(1, 1), ""
    try:
        value = json_places.read(text)
        at, why = fault_of_shape(value) if code == "M2" else (0, "") if code == "M1" else fault_of_part(value, code, number)
    except json_places.NotJson as fault:
        at, why = (fault.at, str(fault)) if code == "M1" else (0, "")
    except (LookupError, AttributeError, TypeError):
        at, why = 0, ""
    return place_at(text, at), why
