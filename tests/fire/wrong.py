"""Wrong programs, by which the judge is judged: builds of a copy of the sources in which an edit of tests/fire/wrong was made."""
import pathlib
import re
import shutil
import subprocess

TOP = pathlib.Path(__file__).resolve().parent.parent.parent
EDITS = {edit.stem: edit for edit in sorted((TOP / 'tests' / 'fire' / 'wrong').glob('*.edit'))}
# What the fires are in which a program was caught that is wrong only there; all are for the others.
FAULTS = {'never_synced': 'kill,power,frames,proxy', 'answer_before_its_record': 'kill,power', 'round_used_again': 'kill,frames,proxy,pause'}


def made(edit, tree):
    """Makes the edit in a tree."""
    file = old = None
    for line in edit.read_text().splitlines():
        key, _, text = line.partition(': ')
        if key == 'file':
            file = tree / text.strip()
        elif key == 'old':
            old = text
        elif key == 'new':
            before = file.read_text()
            assert before.count(old) == 1, '%s: an old text is in %s %d times' % (edit.name, file, before.count(old))
            file.write_text(before.replace(old, text))


def built(name, room):
    """The unproved program of node processes with this edit."""
    tree = room / name
    shutil.copytree(TOP / 'crates', tree / 'crates', ignore=shutil.ignore_patterns('out', 'must-fail'))
    for file in ('crates.txt', 'HANDLES', 'splinter'):
        shutil.copy(TOP / file, tree / file)
    made(EDITS[name], tree)
    ran = subprocess.run([str(tree / 'splinter'), 'serve'], stdin=subprocess.DEVNULL, capture_output=True, text=True)
    program = tree / 'crates' / 'spl_operator' / 'out' / 'unproved' / 'splinter'
    assert ran.returncode == 1 and program.exists(), '%s was not built: %s' % (name, re.sub(r'\s+', ' ', ran.stderr)[-500:])
    return program
