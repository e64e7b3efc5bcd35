"""Wrong bodies, each of which the prover has to refuse: edits of bodies that turn their meaning.

words: CRATE ..
       --changed COMMIT
       --sample N
       --all
       --look

With names, all edits of these crates are tried; with --changed, those of each crate that differs from COMMIT, or whose edits do; with
--sample, N edits of one crate, where the commit decides which; with --all, each edit. --look tries none.

An edit is a file tests/edits/CRATE/NAME.edit, or crates/CRATE/must-fail/NAME.edit, which `rt ci` tries each time and --sample leaves out: a
line `file: src/NAME.rt`, and then pairs of lines `old: TEXT` and `new: TEXT`, where TEXT of `old:` is in that file exactly once. Whatever is
tried, each edit of every crate is first held to that, which takes no time. The chosen ones are put into a copy of their crate and those
below it, as `rt` wants them (must-fail/), and tried there, a crate at a time, by `rt ci`, which takes what it kept of all crates below and
proves the crate itself once more, from nothing, to begin the edits with. No edit is tried on the checkout's own files.

What an edit came to is kept by `rt`, by the checksums of all that its trial read, and it isn't tried again until something of that changes. One
that can't be applied, compiled or read is a BAD EDIT, and fails.
"""
import hashlib
import pathlib
import re
import shutil
import subprocess
import tempfile

from common import CRATES, TESTS, TOP, Unfit

GATE = ("--sample", "8")
EDITS = TESTS / "edits"


def crate_of(edit):
    """The crate whose body an edit turns."""
    return edit.relative_to(CRATES).parts[0] if CRATES in edit.parents else edit.parent.name


def git(*words):
    return subprocess.run(["git", "-C", str(TOP), *words], stdout=subprocess.PIPE, text=True, check=True).stdout


def misfit(edit):
    """Why an edit doesn't fit the crate's files, or None."""
    file, old, pairs = None, None, 0
    for line in edit.read_text().splitlines():
        key, _, text = line.partition(": ")
        if key == "file":
            file = CRATES / crate_of(edit) / text.strip()
            if not file.is_file():
                return f"there is no file {text}"
        elif key == "old":
            old = text
            found = file.read_text().count(old) if file else 0
            if found != 1:
                return f"an old text is in its file {found} times, and not once"
        elif key == "new" or line == "new:":
            pairs += old is not None and text != old
            old = None
    return None if pairs else "it changes nothing"


def sample(edits, number):
    """So many edits of one crate, each crate as likely as another; the commit decides which."""
    edits = [it for it in edits if EDITS in it.parents]
    crates = sorted({crate_of(it) for it in edits})
    drawn = int(hashlib.sha256(git("rev-parse", "HEAD").encode()).hexdigest(), 16)
    own = [it for it in edits if crate_of(it) == crates[drawn % len(crates)]]
    first = drawn // len(crates) % len(own)
    return (own[first:] + own[:first])[:number]


def chosen(edits, words):
    if words == ["--all"]:
        return edits
    if words == ["--look"]:
        return []
    if len(words) == 2 and words[0] == "--sample":
        return sample(edits, int(words[1]))
    if len(words) == 2 and words[0] == "--changed":
        files = git("diff", "--name-only", words[1]) + git("ls-files", "--others", "--exclude-standard")
        words = re.findall(r"^(?:crates|tests/edits)/([^/\n]+)/", files, re.M)
    else:
        lacking = [it for it in words if not (TOP / "crates" / it / "src").is_dir()]
        if not words or lacking:
            raise Unfit(f"no crate: {lacking[0]}" if lacking else "which crate?")
    return [it for it in edits if crate_of(it) in words]


def crates_up_to(crate):
    """The line of crates.txt for each crate that this one stands on, and for itself, by name."""
    lines = {it.split()[0].rstrip(":"): it for it in (TOP / "crates.txt").read_text().splitlines(keepends=True) if re.match("[a-z]", it)}
    wanted, left = set(), [crate]
    while left:
        name = left.pop()
        if name in lines and name not in wanted:
            wanted.add(name)
            left += lines[name].partition(":")[2].split()
    return {name: it for name, it in lines.items() if name in wanted}


def tried(crate, edits):
    """What `rt` says of these edits of a crate, line by line."""
    with tempfile.TemporaryDirectory(prefix="edits-") as room:
        lines = crates_up_to(crate)
        pathlib.Path(room, "crates.txt").write_text("".join(lines.values()))
        shutil.copy(TOP / "HANDLES", room)
        for name in lines:
            shutil.copytree(TOP / "crates" / name, f"{room}/crates/{name}", ignore=shutil.ignore_patterns("out", "must-fail"))
        to = pathlib.Path(room, "crates", crate, "must-fail")
        to.mkdir()
        for edit in edits:
            shutil.copy(edit, to)
        print(f"edits: {len(edits)} edits of {crate}", flush=True)
        ran = subprocess.run(["rt", "ci"], cwd=room, stdout=subprocess.PIPE, stderr=subprocess.STDOUT, text=True, errors="replace", check=False)
    return ran.stdout.splitlines(keepends=True)


def try_all(crate, edits, tally):
    """Tries these edits of a crate, and says what came of each."""
    lines = tried(crate, edits)
    told = {found[1]: line for line in lines if (found := re.match(r"rt: must-fail (?:\S*/)?(\S+)\.edit: ", line))}
    print("".join(told.values() if len(told) == len(edits) else lines[-60:]), end="", flush=True)
    for edit in edits:
        line = told.get(edit.stem, "not tried").strip()
        tally.add(f"{crate}/{edit.stem}", [] if ": refused, as it must be" in line else [line])


def run(words, tally):
    all_edits = sorted(EDITS.glob("*/*.edit")) + sorted(CRATES.glob("*/must-fail/*.edit"))
    bad = {it: why for it in all_edits for why in [misfit(it)] if why}
    for it, why in bad.items():
        tally.add(it.relative_to(TOP), [why])
    edits = [it for it in chosen(all_edits, words) if it not in bad]
    if words == ["--look"]:
        tally.many(len(all_edits) - len(bad), 0)
    crates = sorted({crate_of(it) for it in edits})
    for number, crate in enumerate(crates, 1):
        try_all(crate, [it for it in edits if crate_of(it) == crate], tally)
        print(f"edits: {number} of {len(crates)} crates", flush=True)
