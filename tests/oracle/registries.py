"""The nodes of a registry, as docs/RULES.md has them (Registry)."""
import re
import tomllib

MOST_NODES = 16


class BadRegistry(Exception):
    """The bytes are no registry; the text says why."""


def is_text(value):
    return isinstance(value, str) and 1 <= len(value.encode()) <= 64


def is_entry(entry):
    if not isinstance(entry, dict):
        return False
    identity, endpoints = entry.get("identity"), entry.get("endpoints")
    good = isinstance(identity, str) and re.fullmatch("[a-z0-9-]{1,32}", identity) and is_text(entry.get("display_name"))
    return bool(good) and isinstance(endpoints, list) and 1 <= len(endpoints) <= 4 and all(map(is_text, endpoints))


def has_large_number(value):
    """Whether a value of a document has a whole number of more than 64 bits, which TOML hasn't."""
    if isinstance(value, (dict, list)):
        return any(map(has_large_number, value.values() if isinstance(value, dict) else value))
    return isinstance(value, int) and not -(2**63) <= value < 2**63


def document(text):
    try:
        found = tomllib.loads(text.decode())
    except (UnicodeDecodeError, tomllib.TOMLDecodeError, RecursionError):
        raise BadRegistry("not TOML")
    if has_large_number(found):
        raise BadRegistry("not TOML")
    return found


def nodes_of(text):
    """The ids of the nodes, in the order of the document."""
    entries = document(text).get("node")
    if not isinstance(entries, list):
        raise BadRegistry("not TOML")
    if len(entries) > MOST_NODES:
        raise BadRegistry(f"{len(entries)} entries")
    found = []
    for index, entry in enumerate(entries, 1):
        if not is_entry(entry):
            raise BadRegistry(f"entry {index}")
        if entry["identity"] in found:
            raise BadRegistry(f"repeated {index}")
        found.append(entry["identity"])
    return found
