"""What a loss of power may leave of a file: of each write since its last sync all is there, nothing, its first bytes, or some of its
bytes, each write by itself; a cut was made or wasn't.
"""


def written(data, at, piece):
    data = data + bytes(max(0, at - len(data)))
    return data[:at] + piece + data[at + len(piece):]


class File:
    """What the last sync of a file made last, and the writes and cuts since: (place, bytes), or (length, None) for a cut."""

    def __init__(self, content):
        self.synced, self.since = content, []

    def all(self):
        data = self.synced
        for at, piece in self.since:
            data = data[:at] if piece is None else written(data, at, piece)
        return data

    def sync(self):
        self.synced, self.since = self.all(), []

    def image(self, rng):
        """What a loss of power may leave, drawn."""
        data = self.synced
        for at, piece in self.since:
            how = rng.randrange(5)
            if piece is None:
                data = data[:at] if how else data
            elif how == 1:
                torn = piece[:rng.randrange(len(piece) + 1)]
                data = written(data, at, torn) if torn else data
            elif how == 2:
                whole = written(data, at, piece)
                old = data + bytes(len(whole) - len(data))
                data = bytes(new if rng.random() < 0.5 else before for new, before in zip(whole, old))
            elif how:
                data = written(data, at, piece)
        return data
