"""The program that runs parts of splinter by themselves, which bench/run measures.

Its sources are bench/measure: the crate spl_measure, and spl_trial below it. They ship nowhere, so they are no crates of
crates.txt, and the gate doesn't prove them. Here they are put into a copy of the crates, and proved and built there as any
crate is. So that the gate passes over them, their files end in .rs and .proof in place of .rt and .antt.
"""
import hashlib
import os
import pathlib
import shutil
import subprocess
import tempfile

TOP = pathlib.Path(__file__).resolve().parent.parent
SOURCES = TOP / "bench" / "measure"
# What was built, and the sum of all that it was built of.
PROGRAM = TOP / "bench" / "out" / "spl_measure"
SUM = TOP / "bench" / "out" / "sum"
ENDINGS = {".rs": ".rt", ".proof": ".antt"}


def sources():
    """The files of the parts and of all crates."""
    found = [TOP / "crates.txt", *SOURCES.rglob("*")]
    for crate in (TOP / "crates").iterdir():
        for folder in ("src", "specs", "proofs"):
            found += (crate / folder).rglob("*")
    return sorted(it for it in found if it.is_file())


def sum_of_sources():
    total = hashlib.sha256()
    for file in sources():
        total.update(f"{file.relative_to(TOP)}\0{hashlib.sha256(file.read_bytes()).hexdigest()}\n".encode())
    return total.hexdigest()


def is_built():
    """Whether the program was built of the sources as they are."""
    return PROGRAM.is_file() and SUM.is_file() and SUM.read_text() == sum_of_sources()


def put_together(room):
    """The crates and those of the parts, in a folder."""
    shutil.copytree(TOP / "crates", room / "crates", ignore=shutil.ignore_patterns("out"))
    shutil.copy(TOP / "HANDLES", room)
    (room / "crates.txt").write_text((TOP / "crates.txt").read_text() + (SOURCES / "uses").read_text())
    for file in SOURCES.rglob("*"):
        if file.suffix in ENDINGS:
            to = (room / "crates" / file.relative_to(SOURCES)).with_suffix(ENDINGS[file.suffix])
            to.parent.mkdir(parents=True, exist_ok=True)
            shutil.copy(file, to)


def build():
    """Proves and builds the program; whether it came to be."""
    total = sum_of_sources()
    with tempfile.TemporaryDirectory(prefix="parts-") as folder:
        room = pathlib.Path(folder)
        put_together(room)
        crate = room / "crates" / "spl_measure"
        # Without words the program ends with status 1.
        ran = subprocess.run(["rt", "run", "--"], cwd=crate, stdin=subprocess.DEVNULL, check=False)
        built = crate / "out" / "spl_measure"
        if ran.returncode != 1 or not os.access(built, os.X_OK):
            return False
        PROGRAM.parent.mkdir(exist_ok=True)
        shutil.copy2(built, PROGRAM)
        SUM.write_text(total)
    return True
