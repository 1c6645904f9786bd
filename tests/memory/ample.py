#!/usr/bin/env python3
"""Holds the calls that may answer that memory is refused against stored runs in which each answers something else.

The list of calls is made from the sources: of each type, trait and function that a face exports (`stun_types`,
`turn_types`, `stun_proto`, `turn_client_proto`, `turn_desk`) those whose answer can say so by its type, a `Result`
of `NoMemory` or of an error with that variant, or an enum with it, and which have an allocator at hand: they are
told one, change what keeps one, or take a writer. Laws do nothing, and are left out.

`ample.rows` has a row for each: the call; a file in which it stands; a program; a line of its stored input, or an
event of a trace, and how the answer to that begins; of a line of a section with the section's first word. What reads
no lines has to have both texts.

A call without a row, a row without its call, a row that a stored run no longer has, and one whose answer is a refusal
of memory are wrong, and printed. The last line is `ample: N right, M wrong`, and the exit status 0 where M is 0. With
the argument `list` the calls are printed.
"""

import re
import sys
from functools import cache
from pathlib import Path

TOP = Path(__file__).resolve().parents[2]
CRATES = TOP / "crates"
ROWS = TOP / "tests/memory/ample.rows"
FACES = ("stun_types", "turn_types", "stun_proto", "turn_client_proto", "turn_desk")
REFUSED = ("NoMemory", "AllocError")
DEFINED = re.compile(r"\bpub (?:struct|enum|trait) (\w+)")
# whether a call has an allocator at hand: what it is told, or changes
AT_HAND = re.compile(r"alloc: Global|&('\w+ )?mut self|writer: (W|&mut W)\b|output: &mut")
NO_MEMORY = re.compile(r"no.?memory", re.IGNORECASE)


# ---- the calls, from the sources


@cache
def sources():
    """The code of each file of the faces and their parts, without comments, by crate and file."""
    found = {}
    for crate in sorted(CRATES.iterdir()):
        if crate.name.startswith(FACES):
            for file in sorted((crate / "src").rglob("*.rt")):
                text = re.sub(r"//[^\n]*", "", file.read_text(encoding="utf-8"))
                found[crate.name, file.relative_to(crate / "src").as_posix()] = text
    return found


def end_of(text, at, brackets="{}"):
    """Behind the bracket that closes the one at this place."""
    depth = 0
    for found in re.compile(f"[{re.escape(brackets)}]").finditer(text, at):
        depth += 1 if found[0] == brackets[0] else -1
        if depth == 0:
            return found.end()
    return len(text)


@cache
def tellers():
    """What in an answer can tell that memory is refused: also an enum with a variant that holds one of these."""
    enums = {}
    for text in (*sources().values(), (CRATES / "line_io/src/status.rt").read_text(encoding="utf-8")):
        for enum in re.finditer(r"pub enum (\w+)[^{;]*\{", text):
            enums[enum[1]] = text[enum.end() : end_of(text, enum.end() - 1)]
    found = {*REFUSED, *(name for name, body in enums.items() if "NoMemory" in body)}
    holds = re.compile(r"\(\s*(" + "|".join(sorted(found)) + r")\s*\)")
    found |= {name for name, body in enums.items() if holds.search(body)}
    return re.compile(r"\b(" + "|".join(sorted(found)) + r")\b")


def exported(face):
    """Each path that a face hands on, but for its laws."""
    for (crate, file), text in sources().items():
        if crate == face and file != "laws.rt":
            for used in re.findall(r"pub use ([^;]+);", text):
                path, _, names = re.sub(r"\s", "", used).partition("{")
                yield from (path + it for it in names.rstrip("}").split(",") if it or not names)


@cache
def definitions():
    """The crates that define a type, a trait or a function of a name; a function with the module that it stands in."""
    found = {}
    for (crate, file), text in sources().items():
        for name in DEFINED.findall(text):
            found.setdefault(name, set()).add(crate)
        for name in re.findall(r"^pub fn (\w+)", text, re.M):
            found.setdefault((Path(file).stem, name), set()).add(crate)
    return found


def names_of(face):
    """The crates and names of what a face exports or defines."""
    families = [it for it in FACES[: FACES.index(face) + 1] if it == face or not face.startswith("stun")]
    for path in exported(face):
        *way, name = path.split("::")
        places = definitions().get(name, set()) | definitions().get((way[-1] if way else "", name), set())
        yield from ((crate, name) for crate in places if crate.startswith(tuple(families)))
    for (crate, _), text in sources().items():
        if crate == face:
            yield from ((crate, name) for name in DEFINED.findall(text))


def signatures(text, word):
    """The name, parameters and answer of each function that begins by this word."""
    for found in re.finditer(word + r"fn (\w+)", text):
        start = text.index("(", found.end())
        end = end_of(text, start, "()")
        stop = r"(?=\s*(?:\n\s*(?:requires|ensures|where|decreases)\b|\{|;))"
        told = re.compile(r"\s*->\s*([^{;]*?)" + stop, re.S).match(text, end)
        yield found[1], text[start:end], told[1] if told else ""


@cache
def written():
    """What a type's own functions, a trait and a function of a name are written in, with the word before each."""
    found = {}
    for (crate, _), text in sources().items():
        heads = re.finditer(r"\bimpl(?:<[^{;]*?>)?\s+(\w+)(?:<[^{;]*?>)?\s*(?:where[^{;]*)?\{", text)
        traits = re.finditer(r"\bpub trait (\w+)\b[^{;]*\{", text)
        for word, them in ((r"\bpub ", heads), (r"\b", traits)):
            for it in them:
                found.setdefault((crate, it[1]), []).append((text[it.end() : end_of(text, it.end() - 1)], word))
        for it in re.finditer(r"^pub fn (\w+)\b", text, re.M):
            rest = text.find("\n}", it.end())
            found.setdefault((crate, it[1]), []).append((text[it.start() : rest], r"\Apub "))
    return found


def calls():
    """Each call that may answer so, as `FACE::TYPE::CALL`, or `FACE::CALL`."""
    found = {}
    for face in FACES:
        for crate, name in sorted(set(names_of(face))):
            for body, word in written().get((crate, name), ()):
                for call, parameters, answer in signatures(body, word):
                    if tellers().search(answer) and AT_HAND.search(parameters):
                        whole = f"{face}::{call}" if call == name else f"{face}::{name}::{call}"
                        found.setdefault((crate, name, call), whole)
    return sorted(found.values())


# ---- the rows


def rows():
    """The columns of each row."""
    for line in ROWS.read_text(encoding="utf-8").splitlines():
        if line and line[0] != "#":
            yield line.split("\t")


@cache
def stored(program):
    """The stored input and output of a program."""
    folder = CRATES / program
    given = folder / "stdin"
    text = given.read_text(encoding="utf-8", errors="replace") if given.exists() else ""
    return text, (folder / "stdout").read_text(encoding="utf-8", errors="replace")


def of_traces(given, printed):
    """The events of all traces, with their answers."""
    told = re.split(r"^status \d+\n", printed, flags=re.M)
    for trace, lines in zip(given.split("%")[1:], told):
        said = [it for it in trace.split("\n") if it and it[0] != "#"]
        events = [it for it in said if it.split(" ")[0] not in ("desk", "user", "rto", "client")]
        yield from zip(events, lines.split("\n"))


def of_sections(given, printed):
    """The lines of all sections, behind the first word of their section, with their answers: `drive` has many, which
    begin with a moment."""
    told = printed.split("\n")
    at = 0
    for section in given.split("%"):
        head, *lines = section.split("\n")
        for line in [it for it in lines if it and it[0] != "#"]:
            yield f"{head.split(' ')[0]} {line}", told[at]
            at += 1
            while line.startswith("drive") and re.match(r"\d+ ", told[at]):
                at += 1


def of_lines(given, printed):
    yield from zip([it for it in given.split("\n") if it and it[0] != "#"], printed.split("\n"))


def of_last_lines(given, printed):
    """The lines with their answers, which come behind what is printed of no line."""
    said = [it for it in given.split("\n") if it and it[0] != "#"]
    yield from zip(said, printed.split("\n")[:-1][-len(said) :])


ANSWERED = {
    "test_callers": of_last_lines,
    "test_rows_wire": of_lines, "test_rows_client": of_lines, "test_rows_proto": of_sections, "turn_replay": of_traces,
}


@cache
def answers(program):
    """What each line or event of a stored input is answered: all answers."""
    found = {}
    for asked, answer in ANSWERED[program](*stored(program)):
        found.setdefault(asked, []).append(answer)
    return found


def fault(row):
    """What is wrong with a row, or None."""
    if len(row) != 5:
        return "it has not five columns"
    call, file, program, given, answer = row
    name = call.split("::")[-1]
    source = (CRATES / file).read_text(encoding="utf-8") if (CRATES / file).exists() else ""
    if not re.search(rf"\b{name}(::<[^(]*>)?\(", source):
        return f"{file} has no such call"
    if NO_MEMORY.search(answer) or not answer:
        return "its answer is a refusal of memory, or none"
    if program in ANSWERED:
        is_there = any(it.startswith(answer) for it in answers(program).get(given, ()))
    else:
        is_there = given in stored(program)[0] and answer in stored(program)[1]
    return None if is_there else f"the stored run of {program} has it no more"


def main():
    known = calls()
    if sys.argv[1:] == ["list"]:
        print("\n".join(known))
        return 0
    table = list(rows())
    named = [row[0] for row in table]
    faults = [f"{it}: it has no row" for it in known if it not in named]
    faults += [f"{it}: there is no such call" for it in named if it not in known]
    faults += [f"{it}: it has two rows" for it in sorted(set(named)) if named.count(it) > 1]
    faults += [f"{row[0]}: {why}" for row in table if (why := fault(row))]
    for it in faults:
        print(f"failed: {it}")
    print(f"ample: {len(table) - len(faults)} right, {len(faults)} wrong")
    return 1 if faults else 0


if __name__ == "__main__":
    sys.exit(main())
