"""Holds exports and imports (W-211) to Python's csv module, as a program that gyms have: files that it writes go in, and what
comes out it reads and writes again unchanged.
    csv_module.py DRIVER [SEED]
"""
import csv
import io
import platform
import random
import subprocess
import sys

HEADER = ["time", "load", "member"]
LAST_TIME = 999_999_999_999_999
SLOTS = 8
CHIPS = f"areas {SLOTS * 16_384} 6144 r1"
ALL = f"0 {LAST_TIME} -50000 100000"
AREA_BYTES = 40_000

MINIMAL, EVERY, STRINGS = csv.QUOTE_MINIMAL, csv.QUOTE_ALL, csv.QUOTE_NONNUMERIC


def written(header, rows, quoting=MINIMAL, header_quoting=MINIMAL, **form):
    """The file that the module writes; CRLF is its own choice."""
    text = io.StringIO(newline="")
    csv.writer(text, quoting=header_quoting, **form).writerow(header)
    csv.writer(text, quoting=quoting, **form).writerows(rows)
    return text.getvalue()


def read(text):
    return list(csv.reader(io.StringIO(text, newline="")))


def any_lifts(source):
    """Times that do not fall, loads and members up to their limits."""
    count = source.choice([0, 1, 2, 15, 16, 17, 60, 330])
    times = sorted(source.randrange(source.choice([10_000, LAST_TIME + 1])) for _ in range(count))
    loads = [-50_000, -1, 0, 1, 10_251, 100_000, *source.sample(range(-50_000, 100_001), 6)]
    members = [0, 1, 40, 2**31, 2**32 - 1]
    return [(time, source.choice(loads), source.choice(members)) for time in times]


def strings_here_and_there(rows, source):
    """Numbers and strings mixed, which the module tells apart where it quotes strings alone."""
    return [[source.choice([field, str(field)]) for field in row] for row in rows]


def hexed(text):
    return text.encode("latin-1").hex() or "-"


class Answers:
    """The driver's lines for a script, to be taken one after another."""

    def __init__(self, driver, script):
        given = subprocess.run([driver], input="\n".join(script) + "\n", capture_output=True, text=True, check=True)
        self.lines = given.stdout.split("\n")[:-1]

    def next(self):
        """A call's name, number and first value."""
        name, number, value = self.lines.pop(0).split(" ")[:3]
        return name, int(number), int(value)

    def indented(self):
        """The lines of `rows` or `text`, without the two spaces."""
        taken = []
        while self.lines and self.lines[0].startswith("  "):
            taken.append(self.lines.pop(0)[2:])
        return taken


def check(holds, what, text):
    if not holds:
        sys.exit(f"csv_module.py: {what}: {text[:400]!r}")


def accepted_files(lifts, source):
    """The same lifts in every way that the module can quote them; the header without quotes."""
    yield written(HEADER, lifts)
    yield written(HEADER, lifts, quoting=EVERY)
    yield written(HEADER, lifts, quoting=STRINGS)
    yield written(HEADER, strings_here_and_there(lifts, source), quoting=STRINGS)
    yield written(HEADER, lifts, quoting=csv.QUOTE_NONE)
    yield written(HEADER, lifts).removesuffix("\r\n")


def refused_files(lifts):
    """Files of another form, each with the line that ends the import."""
    yield 1, written(HEADER, lifts, quoting=EVERY, header_quoting=EVERY)
    yield 1, written(HEADER, lifts, quoting=STRINGS, header_quoting=STRINGS)
    yield 1, written(HEADER, lifts, lineterminator="\n")
    yield 1, written(HEADER, lifts, quoting=EVERY, lineterminator="\n")
    yield 1, written(HEADER, lifts, dialect="unix")
    yield 1, written(HEADER, lifts, dialect="excel-tab")
    yield 1, written(HEADER, lifts, delimiter=";")
    yield 1, written(HEADER + ["note"], lifts)
    yield 2, written(HEADER, []) + written(lifts[0], lifts[1:], delimiter=";")
    yield 2, written(HEADER, [["", *lifts[0]]])
    yield len(lifts) + 2, written(HEADER, lifts) + written([LAST_TIME, 0, 'a "quoted" name'], [])
    yield len(lifts) + 2, written(HEADER, lifts) + "\r\n"


def hold_accepted(driver, files):
    """Files of lifts go in; what comes out is what the module writes, and the rows of a search are these lifts."""
    script = []
    for _, text in files:
        script += [CHIPS, f"format {SLOTS}", f"importk {SLOTS} {hexed(text)}", f"search {SLOTS} {ALL} {AREA_BYTES}", "rows"]
        script += [f"export {SLOTS} {ALL} {AREA_BYTES}", "text"]
    answers = Answers(driver, script)
    for lifts, text in files:
        answers.lines.pop(0)
        check(answers.next() == ("import", 0, 0), "refused", text)
        check(answers.next() == ("search", 0, len(lifts)), "another number of lifts", text)
        rows = [row.split(" ") for row in answers.indented()]
        found = [(int(time), int(load), int.from_bytes(bytes.fromhex(note)[:4], "little")) for time, load, note in rows]
        check(found == lifts, "other lifts", text)
        check(all(note[8:] == "0" * 32 for *_, note in rows), "other note bytes", text)
        name, number, length = answers.next()
        exported = "".join(answers.indented()).encode().decode("unicode_escape")
        check((name, number, length) == ("export", 0, len(exported)), "no export", text)
        hold_exported(exported, lifts)


def hold_exported(text, lifts):
    """The module reads the lifts and writes the same bytes again."""
    header, *records = read(text)
    check(header == HEADER, "another header", text)
    check([tuple(map(int, record)) for record in records] == lifts, "other records", text)
    check(written(header, records) == text, "not what the module writes", text)
    check(written(HEADER, lifts) == text, "not what the module writes for these lifts", text)


def hold_refused(driver, files):
    script = []
    for _, text in files:
        script += [CHIPS, f"format {SLOTS}", f"import {SLOTS} {hexed(text)}"]
    answers = Answers(driver, script)
    for line, text in files:
        answers.lines.pop(0)
        answer = answers.next()
        check(answer == ("import", 18, line), f"{answer} in place of 18 at line {line}", text)


def main():
    driver, seed = sys.argv[1], int((sys.argv[2:] or ["1"])[0])
    source = random.Random(seed)
    lists = [any_lifts(source) for _ in range(40)]
    accepted = [(lifts, text) for lifts in lists for text in accepted_files(lifts, source)]
    refused = [file for lifts in lists if len(lifts) > 1 for file in refused_files(lifts)]
    hold_accepted(driver, accepted)
    hold_refused(driver, refused)
    version = platform.python_version()
    print(f"csv module of Python {version}: {len(accepted)} of its files in and out again, {len(refused)} others refused")


main()
