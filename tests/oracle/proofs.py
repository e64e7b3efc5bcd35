"""Roots of states, and proofs under them, as docs/RULES.md has them (State, Proofs, Byte forms). Only Python's own library
is used here, so that this file alone checks a proof elsewhere too."""
import hashlib
from typing import NamedTuple

DIGITS = "0123456789abcdef"
EMPTY = bytes(32)
MOST_LEVELS = 70
LONGEST_VALUE = 8192


def digest(*parts):
    return hashlib.sha256(b"".join(parts)).digest()


def digest_of_leaf(address, value):
    return digest(b"\0", address, value)


def digest_of_level(level):
    return digest(b"\1", *level)


class Proof(NamedTuple):
    """Levels, each of sixteen digests, the root's first; and the end: an address and its value, or None if it is empty."""

    levels: list
    leaf: tuple


# ---- Checking


class Unreadable(Exception):
    """Bytes that aren't a proof, by the place where the first unreadable field begins."""


def field(content, at, size):
    if len(content) < at + size:
        raise Unreadable(at)
    return content[at : at + size]


def read(content):
    """The proof that all of some bytes are."""
    count, at = field(content, 0, 1)[0], 1
    if count > MOST_LEVELS:
        raise Unreadable(0)
    levels = []
    for begin in range(at, at + 512 * count, 512):
        levels.append([field(content, place, 32) for place in range(begin, begin + 512, 32)])
    leaf, end = read_end(content, at + 512 * count)
    if end < len(content):
        raise Unreadable(end)
    return Proof(levels, leaf)


def read_end(content, at):
    """The end of a proof, and where the proof ends."""
    kind = field(content, at, 1)[0]
    if kind == 0:
        return None, at + 1
    if kind > 1:
        raise Unreadable(at)
    address, at = field(content, at + 1, 35), at + 36
    size = int.from_bytes(field(content, at, 2), "big")
    if size > LONGEST_VALUE or len(content) < at + 2 + size:
        raise Unreadable(at)
    return (address, content[at + 2 : at + 2 + size]), at + 2 + size


def accepts(root, address, claim, proof):
    """Whether a proof shows, under a root, that an address has the claimed value, or none if None is claimed. A root is 32 bytes
    and an address 35: nothing is accepted of others."""
    if len(root) != 32 or len(address) != 35:
        return False
    digits = address.hex()
    below = digest_of_leaf(*proof.leaf) if proof.leaf else EMPTY
    for level, digit in reversed(list(zip(proof.levels, digits))):
        if level[int(digit, 16)] != below:
            return False
        below = digest_of_level(level)
    return below == root and says(digits, claim, len(proof.levels), proof.leaf)


def says(digits, claim, levels, leaf):
    """Whether an end below so many levels says what is claimed of the address with these digits."""
    if leaf is None:
        return claim is None
    held = leaf[0].hex()
    if claim is None:
        return held != digits and held[:levels] == digits[:levels]
    return held == digits and leaf[1] == claim


# ---- Making


def under(state, digits):
    """The entries whose addresses begin with these digits."""
    return {address: value for address, value in state.items() if address.hex().startswith(digits)}


def node(state, digits):
    """The node of these digits."""
    entries = under(state, digits)
    if not entries:
        return EMPTY
    if len(entries) == 1:
        return digest_of_leaf(*entries.popitem())
    return digest_of_level(node(entries, digits + digit) for digit in DIGITS)


def root_of(state):
    return node(state, "")


def proof_of(state, address):
    """The proof of what a state has at an address, made from its end up."""
    digits = address.hex()
    count = next(count for count in range(71) if len(under(state, digits[:count])) <= 1)
    below, levels = node(state, digits[:count]), []
    for i in reversed(range(count)):
        level = [below if digit == digits[i] else node(state, digits[:i] + digit) for digit in DIGITS]
        below, levels = digest_of_level(level), [level, *levels]
    return Proof(levels, next(iter(under(state, digits[:count]).items()), None))


def written(proof):
    """The bytes of a proof."""
    levels = b"".join(part for level in proof.levels for part in level)
    end = b"\0"
    if proof.leaf:
        address, value = proof.leaf
        end = b"\1" + address + len(value).to_bytes(2, "big") + value
    return bytes([len(proof.levels)]) + levels + end


def checked(root, address, claim, content):
    """What the line of these is answered."""
    try:
        return "ok yes" if accepts(root, address, claim, read(content)) else "ok no"
    except Unreadable as fault:
        return f"refused 26 {fault.args[0]}"
