#!/usr/bin/env python3
"""Writes the pages of results/: what was measured, on which machine, when, and at which commit.

    tools/results.py gate LOG [--results FILE] [--note TEXT]    writes results/gate.md from a log of `.ci/run`

The scripts that measure import this file. Their option --results FILE writes a section of a page, --note TEXT adds a
line to it: what ran beside the measurement, for example. A page has several sections, each of one script. Writing a
section replaces it and leaves the others as they are, so they can be of different days. A section named 'Runs' has one
row for each run, and a run adds its row.
"""

import argparse
import datetime
import fcntl
import re
import shlex
import subprocess
import sys
from collections import namedtuple
from pathlib import Path

sys.dont_write_bytecode = True

from paths import MOST as MOST_PATHS  # noqa: E402

TOP = Path(__file__).resolve().parent.parent
RUNS = "Runs"

# A page: its title, what a reader has to know, and its sections in their order.
Page = namedtuple("Page", "title about sections")
PAGES = {
    "speed": Page(
        "Speed",
        "`docs/SPEED.md` says what is timed, and which bounds there are.",
        (
            "Messages, streams, clients and agents", "Calls from C", "A client with many channels", "Memory of a replay",
            "Beside other libraries",
        ),
    ),
    "live": Page(
        "Live runs",
        "`docs/TESTING.md` says how they are done, and what the columns mean.",
        ("Programs against coturn", "Fuzzer of turn_client.h"),
    ),
    "gate": Page(
        "The gate",
        "`docs/TESTING.md` says what each part shows, and which limits there are.",
        ("Parts", "Processor time", RUNS),
    ),
    "hostile": Page(
        "Hostile traces",
        "`docs/TESTING.md` says how they are made and judged.",
        ("What the stored traces reach", RUNS),
    ),
}


# ---- where and when


def printed(*words):
    """What a command prints, without its last line feed; nothing where it fails or isn't there."""
    try:
        ran = subprocess.run(words, cwd=TOP, stdout=subprocess.PIPE, stderr=subprocess.DEVNULL, text=True)
    except OSError:
        return ""
    return ran.stdout.strip() if ran.returncode == 0 else ""


def machine(text=None):
    """The model of the processors and their number, of the text of /proc/cpuinfo."""
    text = Path("/proc/cpuinfo").read_text(encoding="utf-8") if text is None else text
    fields = [re.match(r"([^\t:]+)\s*: ?(.*)", line) for line in text.splitlines()]
    first = {}
    for it in filter(None, fields):
        first.setdefault(it[1].strip(), " ".join(it[2].split()))
    count = len(re.findall(r"^processor\s*:", text, re.M))
    name = first.get("model name", "unknown processor")
    kind = f" (family {first['cpu family']}, model {first['model']})" if {"cpu family", "model"} <= first.keys() else ""
    virtual = ", virtual machine" if "hypervisor" in first.get("flags", "").split() else ""
    return f"{name}{kind}, {count} processor{'s' * (count != 1)}{virtual}"


def commit():
    return printed("git", "rev-parse", "--short", "HEAD") or "unknown"


def today():
    return datetime.date.today().isoformat()


def clang():
    """The first line that clang prints of itself."""
    return printed("clang", "--version").partition("\n")[0]


def own_command(words=None):
    """The command line of this process by its path from the top, without the options of this file."""
    words = sys.argv if words is None else words
    kept, left = [], list(words[1:])
    while left:
        word = left.pop(0)
        if word in ("--results", "--note"):
            left[:1] = []
        elif not word.startswith(("--results=", "--note=")):
            kept.append(word)
    path = Path(words[0]).resolve()
    name = path.relative_to(TOP).as_posix() if TOP in path.parents else path.name
    return shlex.join([name if "/" in name else f"./{name}", *kept])


def add_options(parser):
    """The options that each script has that measures."""
    parser.add_argument("--results", metavar="FILE", help="write what was measured to this page")
    parser.add_argument("--note", metavar="TEXT", default="", help="a line for that page, as what ran beside it")


# ---- a page


def cell(value):
    return "" if value is None else str(value).replace("|", "\\|")


def table(heads, rows):
    """The lines of a table. None is an empty cell."""
    lines = [heads, ["---"] * len(heads), *rows]
    return ["| " + " | ".join(map(cell, line)) + " |" for line in lines]


def head(by, note="", **facts):
    """The lines above the tables of a section. `facts` can name another machine, date and commit, and adds others."""
    found = {"by": f"`{by}`", "machine": None, "date": None, "commit": None, **facts, "note": note}
    for name, made in (("machine", machine), ("date", today), ("commit", commit)):
        found[name] = found[name] or made()
    return [f"- {name.replace('_', ' ')}: {value}" for name, value in found.items() if value]


def parted(text):
    """The sections of a page: the lines of each by its title."""
    found = {}
    for part in re.split(r"^## ", text, flags=re.M)[1:]:
        title, _, lines = part.partition("\n")
        found[title] = lines.strip("\n").split("\n")
    return found


def joined(page, sections):
    """The text of a page."""
    known = PAGES[page]
    order = [*(it for it in known.sections if it in sections), *(it for it in sections if it not in known.sections)]
    text = f"# {known.title}\n\nEach section names the script that writes it. {known.about}\n"
    for title in order:
        text += f"\n## {title}\n\n" + "\n".join(sections[title]) + "\n"
    return text


def change(path, page, title, call):
    """Replaces a section of a page by what `call` makes of its lines: none of a new one."""
    Path(path).parent.mkdir(parents=True, exist_ok=True)
    with open(path, "a+", encoding="utf-8") as file:
        fcntl.flock(file, fcntl.LOCK_EX)
        file.seek(0)
        sections = parted(file.read())
        sections[title] = call(sections.get(title, []))
        file.seek(0)
        file.truncate()
        file.write(joined(page, sections))


def write(path, page, title, top, *tables):
    """Writes a section: its head, and tables."""
    lines = list(top)
    for it in tables:
        lines += ["", *it]
    change(path, page, title, lambda before: lines)


def add_row(path, page, by, heads, row, most=None):
    """Adds a row to the runs of a page. Of more than `most` the oldest go."""

    def added(before):
        rows = [it for it in before if it.startswith("| ")][2:] + table(heads, [row])[2:]
        return [f"- by: `{by}`", "", *table(heads, [])] + rows[-most if most else 0 :]

    change(path, page, RUNS, added)


# ---- figures of several runs


def spread(values, form="{:.1f}"):
    """The median of some values, and the least and the greatest where there are several."""
    values = sorted(values)
    middle = (values[(len(values) - 1) // 2] + values[len(values) // 2]) / 2
    ends = (values[0], values[-1]) if len(values) > 1 else (None, None)
    return [None if it is None else form.format(it) for it in (middle, *ends)]


# ---- the gate, from its log


PART = re.compile(r"^(\S+) +(\d+) passed +(\d+) failed +([\d.]+) s(?: +([\d.]+) s of processors)?$", re.M)
CRATE = re.compile(r"^processors: (\S+) +([\d.]+) s proved and built +([\d.]+) s of edits$", re.M)
RT = re.compile(r"^processors: rt itself +([\d.]+) s$", re.M)
TIME = re.compile(r"^([\d.]+) minutes, ([\d.]+) of processors \(([\d.]+) user, ([\d.]+) system\)$", re.M)
COUNTS = re.compile(r"^\d+ passed, (\d+) failed(?:, \d+ skipped)?$", re.M)
FACT = re.compile(r"^(machine|date|commit|crates|paths): (.*)$", re.M)
SHARE = re.compile(r"^rt: ok;.*; ([^;]*(?:done in this run)[^;]*)(?:;.*)?$", re.M)
PROOFS = re.compile(r"(\d+ of the \d+) proofs")
REFUSED = re.compile(r"must-fail edits: (\d+) refused")
# processor minutes that the gate may take from nothing, on processors of model 85
MOST_MINUTES = 245
KEPT_RUNS = 12
RUN_HEADS = (
    "date", "commit", "machine", "crates", "edits", "proofs done", "minutes", "processor minutes", "last line", "note",
)


def number(found):
    return found and found[1]


def layers(top=TOP):
    """The crates of each section of crates.txt, lowest first."""
    found, title = {}, ""
    for line in (top / "crates.txt").read_text(encoding="utf-8").splitlines():
        if line.startswith("# "):
            title = line[2:].partition(":")[0]
        elif ":" in line.partition("#")[0]:
            found.setdefault(title, []).append(line.partition(":")[0].split()[0])
    return found


def minutes(seconds):
    return f"{seconds / 60:.1f}"


def kinds(spent, text, whole):
    """The rows of processor time by kind of work, in minutes. The rest is what no row above has."""
    parts = {it[0]: float(it[4] or 0) for it in map(lambda it: it.groups(), PART.finditer(text))}
    proved = sum(it for it, _ in spent.values()) + parts.get("archive", 0)
    edits, rt = sum(it for _, it in spent.values()), float(number(RT.search(text)) or 0)
    tests = sum(it for name, it in parts.items() if name not in ("proofs", "archive"))
    yield "crates and the static library: proved and built", minutes(proved)
    yield "must-fail edits", minutes(edits)
    yield "`rt` itself", minutes(rt)
    yield "the parts after `rt ci`", minutes(tests)
    yield "links and runs under `rt ci`, and the rest", minutes(max(0.0, whole * 60 - proved - edits - rt - tests))


def processor_tables(text, whole, of_layers):
    """The tables of processor time: by kind of work, by layer, by crate."""
    spent = {it[1]: (float(it[2]), float(it[3])) for it in CRATE.finditer(text)}
    rows = []
    for name, crates in of_layers.items():
        proved, edits = (sum(spent[it][at] for it in crates if it in spent) for at in (0, 1))
        rows += [(name, f"{proved:.0f}", f"{edits:.0f}")] * bool(proved or edits)
    yield table(("kind of work", "processor minutes"), kinds(spent, text, whole))
    yield table(("layer", "seconds to prove and build", "seconds of edits"), rows)
    rows = [(f"`{name}`", f"{proved:.1f}", f"{edits:.1f}") for name, (proved, edits) in spent.items()]
    yield table(("crate", "seconds to prove and build", "seconds of edits"), rows)


def write_gate(path, text, note="", by=".ci/run", of_layers=None):
    """Writes the gate's page from the text of a log. A log of a run that did not end, or failed, is refused."""
    time, last = TIME.search(text), [*COUNTS.finditer(text)][-1:]
    if not time or not last or last[0].start() < time.end():
        raise ValueError("it does not end with a line of its time and one of its counts, so the run did not end")
    if last[0][1] != "0":
        raise ValueError("the run failed")
    facts = dict(reversed(FACT.findall(text)))
    whole, share, last = float(time[2]), SHARE.search(text), f"`{last[0][0]}`"
    crates, paths = facts.pop("crates", None), facts.pop("paths", None)
    where = {it: facts.get(it) for it in ("machine", "date", "commit")}
    top = head(by, note, **where, crates=crates, proofs=share and share[1], last_line=last)
    rows = [it.groups() for it in PART.finditer(text)]
    limits = [
        ("processor minutes from nothing, on model 85", MOST_MINUTES, f"{time[2]} ({time[3]} user, {time[4]} system)"),
        ("minutes by the clock", None, time[1]),
        ("paths that `rt` walks", f"{MOST_PATHS:,}", paths),
    ]
    heads = ("part", "passed", "failed", "seconds", "processor seconds")
    write(path, "gate", "Parts", top, table(("what", "at most", "measured"), limits), table(heads, rows))
    if CRATE.search(text):
        write(path, "gate", "Processor time", top, *processor_tables(text, whole, of_layers or layers()))
    done = share and ("all" if share[1].startswith("every") else number(PROOFS.search(share[1])))
    row = [where["date"] or today(), where["commit"] or commit(), where["machine"] or machine()]
    row += [crates, number(REFUSED.search(text)), done, time[1], time[2], last, note]
    add_row(path, "gate", by, RUN_HEADS, row, KEPT_RUNS)


def main():
    parser = argparse.ArgumentParser(description=__doc__, formatter_class=argparse.RawDescriptionHelpFormatter)
    parser.add_argument("page", choices=["gate"])
    parser.add_argument("log", help="what .ci/run printed")
    add_options(parser)
    given = parser.parse_args()
    text = Path(given.log).read_text(encoding="utf-8", errors="replace")
    try:
        write_gate(given.results or TOP / "results/gate.md", text, given.note)
    except ValueError as why:
        sys.exit(f"results: {given.log}: {why}")
    return 0


if __name__ == "__main__":
    sys.exit(main())
