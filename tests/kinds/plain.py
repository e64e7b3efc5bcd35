"""The answers of rows, beside plain programs of their own: tests/oracle/rows_of_checks.py, rows_of_disks.py and rows_of_audits.py.

words: [rows NAME]

With the words rows and NAME, of tests/rows/cases, it prints each row with its answer in place of comparing. It counts rows.
"""
import rows_of_audits
import rows_of_checks
import rows_of_disks
from common import TESTS, Unfit

GATE = None
CASES = TESTS / "rows" / "cases"
PLAIN = {name: module for module in (rows_of_checks, rows_of_disks, rows_of_audits) for name in module.NAMES}


def rows_in(name):
    return (CASES / name).read_text().splitlines()


def run(words, tally):
    if words[:1] == ["rows"] and words[1:] and words[1] in PLAIN:
        print("\n".join(map(PLAIN[words[1]].answered, rows_in(words[1]))))
        return tally.many(1, 0)
    if words:
        raise Unfit(f"rows of {', '.join(PLAIN)} alone are answered by plain programs")
    for name, plain in PLAIN.items():
        stored = (CASES / f"{name}.stdout").read_text()
        for row in rows_in(name):
            if row.partition(" ")[0] in plain.TABLES:
                whole = plain.answered(row)
                tally.add(name, [] if f"{whole}\n" in stored else [f"another answer, {whole}"])
    return None
