"""The disk of a node under fire: what it holds if the power goes, and how it fails. The library of disk.c tells each write, cut and sync."""
import os
import pathlib
import shutil
import struct
import subprocess

from outages import File

HERE = pathlib.Path(__file__).resolve().parent
HEAD = struct.Struct('<ccQI')


def built(room):
    """The library that is put before the C library of a node; None where no compiler is here."""
    compiler = shutil.which('gcc') or shutil.which('clang')
    if not compiler:
        return None
    library = room / 'disk.so'
    subprocess.run([compiler, '-shared', '-fPIC', '-O2', '-o', str(library), str(HERE / 'disk.c'), '-ldl'], check=True)
    return library


def calls(data):
    """Each call in a log: (kind, disk, place, bytes). A last one that was cut off wasn't made."""
    at = 0
    while at + HEAD.size <= len(data):
        kind, disk, place, size = HEAD.unpack_from(data, at)
        piece = data[at + HEAD.size:at + HEAD.size + size]
        if len(piece) < size:
            return
        at += HEAD.size + size
        yield kind.decode(), disk.decode(), place, piece


class Disk:
    """The two files of one node, whose process tells what it does to them in `log`."""

    def __init__(self, library, folder, position, room):
        self.library, self.log, self.order = library, room / (folder.name + '.disk'), room / (folder.name + '.fails')
        self.paths = {which: folder / ('d%02d%s' % (position, which)) for which in 'ab'}
        self.files = {which: File(b'') for which in 'ab'}

    def environment(self):
        return dict(os.environ, LD_PRELOAD=str(self.library), DISK_LOG=str(self.log), DISK_FAULTS=str(self.order))

    def follow(self):
        """Takes over what a process did that has ended. Of its last call a kill may have left nothing, or a first part."""
        last = None
        for kind, last, place, piece in calls(self.log.read_bytes() if self.log.exists() else b''):
            if kind == 's':
                self.files[last].sync()
            else:
                self.files[last].since.append((place, piece if kind == 'w' else None))
        self.log.unlink(missing_ok=True)
        for which, path in self.paths.items():
            file, held = self.files[which], path.read_bytes() if path.exists() else b''
            if held != file.all() and which == last and file.since:
                place, piece = file.since.pop()
                if held != file.all() and piece:
                    file.since.append((place, held[place:place + len(piece)]))
            assert held == file.all(), 'what %s holds is not what was written to it' % path

    def lose_power(self, rng):
        """Leaves of the files what a loss of power may leave, once their process has ended. Says how many writes weren't synced."""
        lost = sum(len(file.since) for file in self.files.values())
        for which, path in self.paths.items():
            if path.exists():
                image = self.files[which].image(rng)
                self.files[which] = File(image)
                path.write_bytes(image)
        return lost

    def fail(self, kind):
        """The disk fails each call of a kind, 'sync' or 'space', from now on, or takes longer for each sync, 'slow'; no more where the kind is empty."""
        if kind:
            self.order.write_text(kind)
        else:
            self.order.unlink(missing_ok=True)
