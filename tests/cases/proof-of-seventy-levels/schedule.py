# Two entries that part at the last digit of their addresses, and the longest proof of the first, checked as it is printed.
import hashlib

CIRCUIT = "Ab3dE-00001"
FIRST, SECOND = bytes(34) + b"\1", bytes(34) + b"\2"
VALUE = b"\x2a"


def digest(content):
    return hashlib.sha256(content).digest()


def proof():
    """The root, and the bytes of the proof. Each level but the last has one digest that isn't zero, at digit 0."""
    level = bytes(32) + b"".join(digest(b"\0" + address + VALUE) for address in (FIRST, SECOND)) + bytes(13 * 32)
    levels = [level]
    while len(levels) < 70:
        levels.append(digest(b"\1" + levels[-1]) + bytes(15 * 32))
    return digest(b"\1" + levels[-1]), bytes([70]) + b"".join(reversed(levels)) + b"\1" + FIRST + b"\0\1" + VALUE


def lines():
    root, content = (part.hex() for part in proof())
    a, b = FIRST.hex(), SECOND.hex()
    return [
        f"propose alpha {CIRCUIT} 1 1 grid trade alpha,beta aaaa:scabbard:alpha,bbbb:scabbard:beta",
        f"calm {CIRCUIT} 8",
        f"vote beta {CIRCUIT} accept",
        f"calm {CIRCUIT} 8",
        f"submit alpha {CIRCUIT} 9 tx out: set:{a}=2a set:{b}=2a",
        f"calm {CIRCUIT} 8",
        f"prove beta {CIRCUIT} {a}",
        f"check {root} {a} =2a {content}",
        f"check {root} {a} - {content}",
        f"check {root} {b} =2a {content}",
        f"check {root} {a} =2a {content}00",
        f"check {root} {a} =2a {content[:-2]}",
    ]


if __name__ == "__main__":
    print("\n".join(lines()))
