"""Reads a configuration: its TOML, the lines of its keys, and what its schema says of it."""

import difflib
import json
import os
import re
import tomllib
from dataclasses import dataclass

from .command import Fault, library

HERE = os.path.dirname(os.path.abspath(__file__))
# In a checkout, and below a prefix.
SCHEMAS = (
    os.path.join(HERE, "../examples/satip.schema.json"),
    os.path.join(HERE, "../satip.schema.json"),
)
USUAL = "/etc/satip.toml"
MOST_BYTES, LONGEST_NAME = 1048576, 255
HEADER = re.compile(r"\s*\[\[?\s*([\w-]+)\s*\]\]?\s*(?:#.*)?$")
ASSIGNED = re.compile(r"""\s*["']?([\w-]+)["']?\s*=""")
AT = re.compile(r" \(at (?:line (\d+), column (\d+)|end of document)\)$")


@dataclass
class Finding:
    """What is wrong, at a line and a column if they are known; a server starts with warnings."""

    line: int | None
    text: str
    is_warning: bool = False
    column: int | None = None

    def told(self, path):
        place = "".join(f":{it}" for it in (self.line, self.column) if it is not None)
        return f"{path}{place}: {'warning' if self.is_warning else 'fault'}: {self.text}"


class Configuration:
    """A configuration whose TOML is right."""

    def __init__(self, text):
        self.data = tomllib.loads(text)
        self.lines = dict(key_lines(text))

    def line_of(self, *path):
        """The line of a key, as ("mux", 0, "freq"); of what contains it if it has none."""
        while path and path not in self.lines:
            path = path[:-1]
        return self.lines.get(path)

    def get(self, key, usual=None):
        return self.data.get(key, usual)

    def server(self):
        """The address and the two ports."""
        ports = self.get("rtsp_port", 554), self.get("http_port", 8875)
        return self.get("address"), *ports

    def muxes(self):
        return [it for it in self.get("mux", []) if isinstance(it, dict)]


def key_lines(text):
    """The path of each key and each table of an array, with its line, from the text alone."""
    table, counts = (), {}
    for number, line in enumerate(text.splitlines(), 1):
        if header := HEADER.match(line):
            name = header.group(1)
            if line.lstrip().startswith("[["):
                counts[name] = counts.get(name, -1) + 1
                table = name, counts[name]
            else:
                table = (name,)
            yield table, number
            yield table[:1], number
        elif assigned := ASSIGNED.match(line):
            yield (*table, assigned.group(1)), number


def read_text(path):
    """The text of a configuration; raises Fault if there is none."""
    try:
        with open(path, "rb") as file:
            data = file.read(MOST_BYTES + 1)
    except OSError as error:
        raise Fault(f"{path}: {error.strerror}") from error
    if len(data) > MOST_BYTES:
        raise Fault(f"{path}: more than {MOST_BYTES} bytes")
    try:
        return data.decode()
    except UnicodeDecodeError as error:
        line = data[: error.start].count(b"\n") + 1
        raise Fault(f"{path}:{line}: fault: a byte that isn't UTF-8") from error


def read(path):
    """The configuration in a file; raises Fault with the place of a TOML fault."""
    text = read_text(path)
    try:
        return Configuration(text)
    except tomllib.TOMLDecodeError as error:
        raise Fault(toml_fault(text, error).told(path)) from error


def toml_fault(text, error):
    place = AT.search(str(error))
    told = AT.sub("", str(error))
    if place and place.group(1):
        return Finding(int(place.group(1)), f"not TOML: {told}", column=int(place.group(2)))
    return Finding(text.count("\n") + 1, f"not TOML: {told} at the end")


def schema():
    path = next((it for it in SCHEMAS if os.path.exists(it)), SCHEMAS[0])
    with open(path, encoding="utf-8") as file:
        return json.load(file)


def validator():
    """A validator of the schema to which 1.0 is no integer, as to TOML."""
    jsonschema = library("jsonschema", "python3-jsonschema")
    base = jsonschema.Draft202012Validator
    types = base.TYPE_CHECKER.redefine(
        "integer", lambda _, value: isinstance(value, int) and not isinstance(value, bool)
    )
    return jsonschema.validators.extend(base, type_checker=types)(schema())


def findings(config):
    """What schema and program have to say of the keys, in the order of the lines."""
    found = []
    for error in validator().iter_errors(config.data):
        path = tuple(error.absolute_path)
        if error.validator == "additionalProperties":
            found += unknown_keys(config, path, error)
        else:
            found.append(Finding(config.line_of(*path), worded(path, error)))
    for path, value in values(config.data):
        if isinstance(value, int) and not -(1 << 63) <= value < 1 << 63:
            found.append(Finding(config.line_of(*path), f"{name_of(path)} has more than 64 bits"))
    for place, mux in enumerate(config.muxes()):
        file = mux.get("file")
        if isinstance(file, str) and len(file) <= LONGEST_NAME < len(file.encode()):
            told = f"{name_of(('mux', place, 'file'))} has more than {LONGEST_NAME} bytes"
            found.append(Finding(config.line_of("mux", place, "file"), told))
    return sorted(found, key=lambda it: it.line or 0)


def values(data, path=()):
    """Each value that is no table and no array, with its path."""
    pairs = data.items() if isinstance(data, dict) else enumerate(data)
    for key, value in pairs:
        if isinstance(value, (dict, list)):
            yield from values(value, (*path, key))
        else:
            yield (*path, key), value


def unknown_keys(config, path, error):
    known = error.schema["properties"]
    for key in error.instance:
        if key not in known:
            near = difflib.get_close_matches(key, known, 1, 0.5)
            hint = f"; is {near[0]} meant?" if near else f"; known are {', '.join(known)}"
            told = f"unknown key {name_of((*path, key))}, which is ignored{hint}"
            yield Finding(config.line_of(*path, key), told, is_warning=True)


def name_of(path):
    """A path as the program names it: entries of an array are numbered from 1."""
    return ".".join(str(it + 1) if isinstance(it, int) else it for it in path) or "the configuration"


def worded(path, error):
    """A fault of the schema in the words of the configuration."""
    name, schema_of, value = name_of(path), error.schema, error.instance
    if error.validator == "required":
        missing = [it for it in schema_of["required"] if it not in value]
        return f"{name}: no {', '.join(missing)}"
    if error.validator == "type":
        return f"{name} has to be {a(schema_of['type'])}"
    if error.validator in ("minimum", "maximum"):
        return f"{name} is {value}; allowed is {schema_of['minimum']} to {schema_of['maximum']}"
    if error.validator == "enum":
        return f"{name} is {json.dumps(value)}; allowed is {' or '.join(schema_of['enum'])}"
    if error.validator in ("minItems", "maxItems"):
        least, most = schema_of.get("minItems", 0), schema_of["maxItems"]
        return f"{name} has {len(value)} entries; allowed is {least} to {most}"
    if error.validator == "pattern":
        return f"{name} is {json.dumps(value)}; allowed is {schema_of['x-limits']}"
    if error.validator in ("minLength", "maxLength"):
        return f"{name} has {len(value)} characters; allowed is 1 to {schema_of['maxLength']}"
    return f"{name}: {error.message}"


def a(kind):
    kinds = {"object": "a table", "array": "an array", "integer": "an integer", "string": "a text"}
    return kinds[kind]
