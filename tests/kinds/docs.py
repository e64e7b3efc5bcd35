"""The documents beside the sources: each name in backticks is one that the sources, tests or rules have, each file that is named is there,
and the crates of ARCHITECTURE are those of crates.txt, each once and after those that it stands on. It counts documents.

words: none
"""
import re

from common import TOP

GATE = ()
DOCUMENTS = ["README.md", "tests/README.md", "examples/README.md"] + [f"docs/{name}.md" for name in
             ("ARCHITECTURE", "DECISIONS", "OPERATING", "PROOFS", "PROVED", "SPEED", "WORKING")]
# The calls that one may look for and won't find stand in the first column of this section of DECISIONS.
SOUGHT = "## Calls that one may look for"
OUTSIDE = set("strace callgrind main sh bash nohup origin memcpy malloc cc perf".split())
NAME = re.compile(r"[A-Za-z_][A-Za-z0-9_]*")
QUOTED = re.compile(r"`([^`\n]+)`")
LINKED = re.compile(r"\]\(([^)#]+)\)")


def words_of(*patterns):
    """All words in the files of these patterns."""
    words = set()
    for pattern in patterns:
        for path in TOP.glob(pattern):
            if path.is_file() and "out" not in path.relative_to(TOP).parts:
                words.update(NAME.findall(path.read_text(errors="replace")))
                words.update(NAME.findall(path.stem))
    return words


def known_words():
    return OUTSIDE | words_of("crates/*/src/**/*.rt", "crates/*/specs/**/*.antt", "crates/*/proofs/**/*.antt", "crates.txt", "HANDLES",
                              "docs/RULES.md", "docs/help.txt", "docs/draw", "splinter", "splinter-build", ".ci/run",
                              "tests/*", "tests/kinds/*", "tests/fire/*", "tests/oracle/*", "tests/rows/**/*", "bench/**/*", "examples/*") \
        | {path.stem for path in TOP.glob("**/*.edit")} | {path.name for path in TOP.iterdir()}


def names_in(text):
    """The names in backticks: of code, not of shell lines or grammar."""
    for quoted in QUOTED.findall(text):
        if re.fullmatch(r"[A-Za-z_][A-Za-z0-9_]*((::|\.)[A-Za-z_][A-Za-z0-9_]*)*(\(\))?", quoted):
            yield from NAME.findall(quoted)


def text_of(document):
    """A document, without the first column of the calls that one may look for."""
    text, mark, sought = (TOP / document).read_text().partition(SOUGHT)
    return text + mark + re.sub(r"(?m)^\|[^|\n]*\|", "|", sought)


def unknown_names(known):
    for document in DOCUMENTS:
        for name in sorted(set(names_in(text_of(document)))):
            if name not in known:
                yield f"{document}: nothing is named {name}"


def missing_files():
    for document in DOCUMENTS:
        path = TOP / document
        for link in sorted(set(LINKED.findall(path.read_text()))):
            if "://" not in link and not (path.parent / link).exists():
                yield f"{document}: no file {link}"


def crates():
    """The crates of crates.txt, each with those that it stands on."""
    lines = (TOP / "crates.txt").read_text().splitlines()
    heads = [line.split(":", 1) for line in lines if re.match(r"spl_\w+:", line)]
    return {head: [name for name in rest.split() if name.startswith("spl_")] for head, rest in heads}


def misplaced_crates():
    text = (TOP / "docs/ARCHITECTURE.md").read_text()
    text = text[text.index("## Crates"):text.index("## I want to change")]
    rows = [re.findall(r"`(spl_\w+)`", line.split("|")[1]) for line in text.splitlines() if line.startswith("| `spl_")]
    order = [name for row in rows for name in row]
    place = {name: at for at, name in enumerate(order)}
    for name, needs in crates().items():
        if order.count(name) != 1:
            yield f"docs/ARCHITECTURE.md: {name} stands {order.count(name)} times in the tables of crates"
            continue
        for need in needs:
            if place.get(need, -1) > place[name]:
                yield f"docs/ARCHITECTURE.md: {name} stands before {need}, on which it stands"
    for name in order:
        if name not in crates():
            yield f"docs/ARCHITECTURE.md: {name} is no crate"


def run(words, tally):
    faults = list(unknown_names(known_words())) + list(missing_files()) + list(misplaced_crates())
    for document in DOCUMENTS:
        own = [fault.partition(": ")[2] for fault in faults if fault.startswith(f"{document}: ")]
        tally.add(document, own)
