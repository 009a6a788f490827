"""A validator of JSON. It supports the keywords in the schemas of docs/."""
import re


def is_integer(value):
    return isinstance(value, int) and not isinstance(value, bool)


TYPES = {
    "object": lambda value: isinstance(value, dict),
    "array": lambda value: isinstance(value, list),
    "string": lambda value: isinstance(value, str),
    "integer": lambda value: is_integer(value) or isinstance(value, float) and value.is_integer(),
}


def matches(pattern, text):
    # In JSON Schema, `$` matches only at the end of the text. In Python, it also matches before a final line feed.
    if not (pattern.startswith("^") and pattern.endswith("$")):
        raise ValueError(pattern)
    return re.fullmatch("(?:" + pattern[1:-1] + ")", text, re.ASCII) is not None


def passes(schema, value, top):
    """Whether a schema accepts a value."""
    known = {"$schema", "title", "description", "$defs", "$ref", "type", "const", "minimum", "maximum", "pattern",
             "anyOf", "allOf", "if", "then", "else", "properties", "required", "additionalProperties", "items",
             "minItems", "maxItems"}
    unknown = set(schema) - known
    if unknown:
        raise ValueError("the validator does not know " + ", ".join(sorted(unknown)))
    return (passes_value(schema, value, top) and passes_object(schema, value, top)
            and passes_array(schema, value, top))


def passes_value(schema, value, top):
    if "$ref" in schema:
        name = schema["$ref"][len("#/$defs/"):]
        if not passes(top["$defs"][name], value, top):
            return False
    if "type" in schema and not TYPES[schema["type"]](value):
        return False
    if "const" in schema and value != schema["const"]:
        return False
    if is_integer(value) and not schema.get("minimum", value) <= value <= schema.get("maximum", value):
        return False
    if "pattern" in schema and isinstance(value, str) and not matches(schema["pattern"], value):
        return False
    if "anyOf" in schema and not any(passes(part, value, top) for part in schema["anyOf"]):
        return False
    if not all(passes(part, value, top) for part in schema.get("allOf", [])):
        return False
    if "if" not in schema:
        return True
    is_so = passes(schema["if"], value, top)
    return passes(schema.get("then" if is_so else "else", {}), value, top)


def passes_object(schema, value, top):
    if not isinstance(value, dict):
        return True
    fields = schema.get("properties", {})
    if not set(schema.get("required", [])) <= set(value):
        return False
    if not schema.get("additionalProperties", True) and not set(value) <= set(fields):
        return False
    return all(passes(part, value[name], top) for name, part in fields.items() if name in value)


def passes_array(schema, value, top):
    if not isinstance(value, list):
        return True
    if not schema.get("minItems", 0) <= len(value) <= schema.get("maxItems", len(value)):
        return False
    return all(passes(schema["items"], item, top) for item in value) if "items" in schema else True
