#!/usr/bin/env python3
"""Judges the pictures of traces, docs/pictures/NAME.svg: what stands in each, and how it looks.

It reads examples/NAME.trace, its answers examples/NAME.out, and the picture, and works out from the first
two alone which groups, arrows and labels the third has to have (docs/TRACE.md). What a message shows is
read by `dissector.py`, which shares no code with the library:

    tests/oracle/pictures.py [TRACE OUT SVG]...

Without arguments it judges the picture of each example. Where the lines of the client and of the desk
stand, and where the network lies, it takes from the picture itself. How wide a label is, is an estimate
by its characters. Each difference is a line; the last line is `pictures: N groups of M pictures, K
differ`, and the exit status is 1 where K isn't 0. It is no part of the gate.
"""
import re
import sys
import xml.etree.ElementTree as ElementTree
from bisect import bisect_left, bisect_right
from collections import namedtuple
from pathlib import Path

# what is imported leaves no folder of compiled files behind
sys.dont_write_bytecode = True

import dissector

TOP = Path(__file__).resolve().parents[2]
XMLNS = "{http://www.w3.org/2000/svg}"
SETUP = ("desk", "user", "rto", "client")
# the event lines whose second word is no moment
TIMELESS = ("event", "have", "permissions", "channels", "connections", "error", "relayed")
# the lines that look at the client: they aren't counted
LOOKS = ("cause", "mapped", "alternate")
SHOWN = {
    "ERROR-CODE", "UNKNOWN-ATTRIBUTES", "USERNAME", "REALM", "LIFETIME", "XOR-RELAYED-ADDRESS",
    "XOR-PEER-ADDRESS", "CHANNEL-NUMBER", "CONNECTION-ID", "DATA",
}
SIGNED = {
    "MESSAGE-INTEGRITY": "SHA-1", "MESSAGE-INTEGRITY-SHA256": "SHA-256", "MESSAGE-INTEGRITY-SHA512": "SHA-512",
}
ALLOWED = {
    "svg": {"width", "viewBox", "font-family", "font-size"}, "style": set(), "defs": set(),
    "marker": {"id", "viewBox", "refX", "refY", "markerWidth", "markerHeight", "orient"},
    "path": {"class", "d"}, "rect": {"class", "x", "y", "width", "height"},
    "text": {"class", "x", "y"}, "g": set(), "title": set(),
}
WIDTH = 880
# How many characters of a text a label shows, and how wide one at an arrow may be, in pixels.
LONGEST, WIDEST = 42, 280
# How wide a character is about, by the size of its label, and where it is semibold.
ADVANCE, BOLD = {12: 6.6, 11: 6.1}, 7.0
# How far above its foot a label goes, and how far below it, by its size.
ABOVE, BELOW = 0.8, 0.2

# What has to stand in the group of an event: its title, the ends of its arrows, its labels, and its moment.
Want = namedtuple("Want", "title arrows labels moment")
# An arrow that runs from one x to another, how far down it does, and its class.
Arrow = namedtuple("Arrow", "start end at kind")
# A text, its column, its foot, and the box around it.
Label = namedtuple("Label", "text column at left right top bottom")
# Where the lines of client and desk stand, where the network lies, and how far down the picture goes.
Ground = namedtuple("Ground", "client near far desk height")


# ---- what a trace and its answers say


def lines_of(path):
    """The lines of a file; behind the last line feed none is left."""
    lines = path.read_bytes().decode(errors="replace").split("\n")
    return lines[:-1] if lines[-1] == "" else lines


def is_event(line):
    """Whether a line is an event's: it says something, and no setup."""
    return line != "" and line[0] != "#" and line.split(" ")[0] not in SETUP


def bytes_of(answer):
    """The bytes of an answer: a reply, what the client sends, or what a peer sent."""
    told = re.fullmatch(r"(?:(?:transmit|peer) \S+ \S+|reply) ((?:[0-9a-f]{2})+)", answer)
    return bytes.fromhex(told[1]) if told else b""


def handed(words):
    """The word of the bytes that a line hands to client or desk, None of another line."""
    at = {"todesk": 3, "toclient": 4}.get(words[0])
    return words[at] if at and len(words) > at else None


def named(word):
    """The numbers of the event lines of which a word of bytes has the answer, or a piece of it."""
    found = [re.fullmatch(r"@([0-9]+)(?::[0-9]+:[0-9]+)?", part) for part in word.split("+")]
    return {int(it[1]) for it in found if it}


def arriving(lines):
    """The numbers of the event lines of which a later one hands on the answer, or a piece of it."""
    found = set()
    for number, line in enumerate(lines, 1):
        found |= {it for it in named(handed(line.split(" ")) or "-") if it < number}
    return found


def moment_of(words):
    """The moment of an event line, in nanoseconds, None where it tells none."""
    if words[0] in TIMELESS or len(words) < 2 or not re.fullmatch("[0-9]+", words[1]):
        return None
    return int(words[1])


def call_of(words):
    """An event line without its moment."""
    return " ".join(words if moment_of(words) is None else words[:1] + words[2:])


def shown_of(words, answer):
    """An answer, without its first word where that is the line's and more stands behind it."""
    return answer.removeprefix(f"{words[0]} ")


def message_in_lines(data):
    """Of a message its name, each attribute of interest, and by what it is signed; None of other bytes."""
    facts = dissector.message(data, None)[1:]
    if facts[0].startswith("refused "):
        return None
    (_, group), (_, _, method), (_, number) = (it.split(" ") for it in facts[:3])
    lines, signed = [f"{method} {group} {number[2:8]}"], []
    for fact in facts[3:]:
        told = fact.split(" ", 3)
        if told[0] != "attribute":
            continue
        if told[2] in SHOWN:
            value = re.sub(r"^(refused .*) of \S+$", r"\1", told[3])
            lines.append(f"{told[2]} {value}")
        if told[2] in SIGNED:
            signed.append(SIGNED[told[2]])
    return lines + ([f"signed by {' and '.join(signed)}"] if signed else [])


def bytes_in_lines(data):
    """What bytes are: a message, a channel frame, or so many bytes."""
    if lines := message_in_lines(data):
        return lines
    facts = dissector.frame(data)[1:]
    if facts[0].startswith("refused "):
        return [f"{len(data)} bytes", data.hex() or "-"]
    channel, told = (it.split(" ")[1] for it in facts[:2])
    return [f"channel frame {channel}", told]


def handed_in_lines(word, answers):
    """What a word of bytes is: an answer as a whole, pieces, or bytes."""
    if whole := re.fullmatch("@([0-9]+)", word):
        return bytes_in_lines(bytes_of(answers[int(whole[1]) - 1]))
    if "@" in word or "+" in word:
        return ["pieces", word]
    return bytes_in_lines(bytes.fromhex(word) if word != "-" else b"")


def fit(text):
    """A text as XML takes it: U+FFFD stands for a character that would be lost or read as another."""
    return "".join("\ufffd" if char < " " or char in "\ufffe\uffff" else char for char in text)


def cut(text):
    """As much of a text as a label shows."""
    return fit(text if len(text) <= LONGEST else text[:LONGEST - 1] + "…")


def stacked(column, arrow, lines):
    """The labels of an arrow: its name stands over it, the rest under it."""
    return [(column, cut(it), arrow, "under" if at else "over") for at, it in enumerate(lines)]


def of_call(number, words, answers, arrives):
    """The arrow of a call of the client and its labels: that of what is sent, where it sends."""
    answer = answers[number - 1]
    if words[0] in ("draw", "send") and answer.startswith("transmit "):
        # data for a peer goes to the server, whatever later lines name; a message that was due may be lost
        sent = ("client", "network" if arrives or words[0] == "send" else "air")
        beside = [("beside", cut(call_of(words)), 0, "at")]
        return [sent], beside + stacked("near", 0, bytes_in_lines(bytes_of(answer)))
    return [("left", "client")], stacked("beside", 0, [call_of(words), shown_of(words, answer)])


def of_desk(number, words, answers, arrives):
    """The arrow to the desk and that of its reply, and their labels."""
    arrows, labels = [("network", "desk")], stacked("far", 0, handed_in_lines(handed(words), answers))
    reply = answers[number - 1]
    if not reply.startswith("reply "):
        return arrows, labels + [("far", "no reply", 0, "under")]
    arrows.append(("desk", "network" if arrives else "air"))
    return arrows, labels + stacked("far", 1, bytes_in_lines(bytes_of(reply)))


def is_look(line):
    """Whether a line looks at the client, and so isn't counted."""
    return line.split(" ")[0] in LOOKS


def wanted(lines, answers):
    """What has to stand in the group of each event, and of each look."""
    both = [*zip(lines, answers)]
    arrive, last, number = arriving([it for it, _ in both if not is_look(it)]), None, 0
    answers = [it for line, it in both if not is_look(line)]
    for line, answer in both:
        words = line.split(" ")
        if is_look(line):
            labels = stacked("beside", 0, [line, shown_of(words, answer)])
            yield Want(fit(line) + "\n" + fit(answer), [("left", "client")], labels, None)
            continue
        number += 1
        if words[0] == "toclient":
            arrows = [("network", "client")]
            labels = stacked("near", 0, handed_in_lines(handed(words), answers))
            labels.append(("beside", cut(answer), 0, "at"))
        else:
            rule = of_desk if words[0] == "todesk" else of_call
            arrows, labels = rule(number, words, answers, number in arrive)
        moment = moment_of(words)
        labels.append(("number", str(number), 0, "at"))
        yield Want(fit(line) + "\n" + fit(answer), arrows, labels, None if moment == last else moment)
        last = last if moment is None else moment


def heads_of(lines):
    """What stands over the line of the client, over the network, and over the line of the desk."""
    client, desk = "no client", "desk"
    for words in (line.split(" ") for line in lines):
        if words[0] == "client" and len(words) > 3:
            client, desk = f"client {words[2]}, {words[1]}", f"desk {words[3]}"
    return [cut(client), "network", cut(desk)]


# ---- what stands in a picture


def styles_of(root):
    """The declarations of each class, by the rules before those of dark surroundings."""
    css = root.findtext(f"{XMLNS}style", "").split("@media")[0]
    return dict(re.findall(r"\.(\w+) \{ ([^}]*) \}", css))


def ground_of(root):
    """Where the lines stand and the network lies: the upright paths, and the narrower of two rectangles."""
    stands = sorted(int(it) for path in root.findall(f"{XMLNS}path")
                    for it in re.findall(r"^M (\d+) \d+ V \d+$", path.get("d")))
    network = min(root.findall(f"{XMLNS}rect"), key=lambda it: int(it.get("width")))
    near, size = int(network.get("x")), int(network.get("width"))
    client, desk = stands
    return Ground(client, near, near + size, desk, int(root.get("viewBox").split(" ")[3]))


def place_of(x, ground):
    """What stands at this x: a line, the network, the left, where calls come from, or nothing, the air."""
    for name, least, most in (("client", ground.client, ground.client), ("desk", ground.desk, ground.desk),
                              ("network", ground.near, ground.far)):
        if least - 4 <= x <= most + 4:
            return name
    if 0 <= x < ground.client - 100:
        return "left"
    inside = any(least + 20 < x < most - 20 for least, most in
                 ((ground.client, ground.near), (ground.far, ground.desk)))
    return "air" if inside else f"x {x}"


def column_of(x, anchor, ground):
    """The column in which a label of this x and anchor stands."""
    if anchor == "end" and x <= 100:
        return "number" if x <= 30 else "moment"
    if anchor == "end" and ground.client - 20 < x < ground.client:
        return "beside"
    middles = {(ground.client + ground.near) / 2: "near", (ground.far + ground.desk) / 2: "far"}
    return middles.get(x, f"x {x}") if anchor == "middle" else f"x {x}, {anchor}"


def label_of(element, styles, ground):
    """A label, and the box around it, by the estimate of its width."""
    told = "; ".join(styles.get(it, "") for it in element.get("class").split(" "))
    anchor = (re.findall(r"text-anchor: (\w+)", told) or ["start"])[-1]
    size = int((re.findall(r"font-size: (\d+)px", told) or ["12"])[-1])
    text, x, y = "".join(element.itertext()), int(element.get("x")), int(element.get("y"))
    width = len(text) * (BOLD if "font-weight" in told else ADVANCE[size])
    left = x - {"start": 0, "middle": width / 2, "end": width}[anchor]
    column = column_of(x, anchor, ground)
    return Label(text, column, y, left, left + width, y - ABOVE * size, y + BELOW * size)


def arrow_of(element):
    """An arrow: a level path."""
    told = re.fullmatch(r"M (\d+) (\d+) H (\d+)", element.get("d"))
    if not told:
        raise ValueError(f"the path {element.get('d')} is no arrow")
    start, at, end = map(int, told.groups())
    return Arrow(start, end, at, element.get("class"))


# ---- whether the one is the other


class Judge:
    """What is held of one picture, and the differences that were found."""

    def __init__(self, name):
        self.name, self.differs = name, []
        self.groups = 0

    def say(self, text):
        self.differs.append(f"{self.name}: {text}")

    def hold(self, what, want, found):
        """Two things have to be the same."""
        if want != found:
            self.say(f"{what}: wanted {want!r}, found {found!r}")

    def frame(self, text, root):
        """The root, and which elements, attributes and texts stand in it."""
        if re.search(r"<[!?]", text):
            self.say("something in it is neither element nor text")
        for element in root.iter():
            tag = element.tag.removeprefix(XMLNS)
            if tag not in ALLOWED or not element.tag.startswith(XMLNS):
                self.say(f"an element {element.tag}")
            elif more := set(element.attrib) - ALLOWED[tag]:
                self.say(f"attributes {sorted(more)} of an element {tag}")
            loose = (element.tail or "") + ("" if tag in ("style", "text", "title") else element.text or "")
            self.hold(f"text in or behind an element {tag}", "", loose.strip())
        self.hold("root", XMLNS + "svg", root.tag)
        self.hold("width", str(WIDTH), root.get("width"))
        self.hold("font-size", "12", root.get("font-size"))
        box = root.get("viewBox", "")
        if not re.fullmatch(rf"0 0 {WIDTH} \d+", box):
            raise ValueError(f"its viewBox is {box!r}")

    def heads(self, want, found, ground):
        """The heads, from left to right, each of them over what it names, or close beside that."""
        told = sorted(found, key=lambda it: it.right)
        self.hold("heads", want, [it.text for it in told])
        for it, x in zip(told, (ground.client, (ground.near + ground.far) / 2, ground.desk)):
            if not it.left - 20 <= x <= it.right + 20:
                self.say(f"the head {it.text!r} stands far from {x}")

    def moment(self, what, want, found):
        """The label of a moment: in seconds from ten on; `…` stands for what its last digit doesn't tell."""
        if want is None:
            self.hold(f"{what}, moment", [], found)
            return
        told = [re.fullmatch(r"(\d+)(?:\.(\d{3}))?(…?) (ms|s)", it) for it in found]
        if len(told) != 1 or told[0] is None:
            self.say(f"{what}, moment: wanted {want} ns, found {found}")
            return
        whole, parts, more, unit = told[0].groups()
        size, parts = 10**6 if unit == "ms" else 10**9, parts or ""
        step = size // 10**len(parts)
        self.hold(f"{what}, moment", want // step * step, int(whole + parts) * step)
        self.hold(f"{what}, `…` at its moment", want % step > 0, bool(more))
        self.hold(f"{what}, unit of its moment", "s" if want >= 10**10 else "ms", unit)

    def arrows(self, what, want, found, ground):
        """From where each arrow runs to where, and that of what is lost and of a call looks so."""
        ends = [(place_of(it.start, ground), place_of(it.end, ground)) for it in found]
        self.hold(f"{what}, arrows", want, ends)
        kinds = ["x" if end == "air" else "c" if start == "left" else "a" for start, end in want]
        self.hold(f"{what}, classes of its arrows", kinds, [it.kind for it in found])
        downs = [it.at for it in found]
        self.hold(f"{what}, arrows go down", sorted(set(downs)), downs)

    def labels(self, what, want, found, arrows):
        """The labels of each column, from above down, and where they stand by their arrows."""
        columns = {it[0] for it in want} | {it.column for it in found} - {"moment"}
        for column in sorted(columns):
            told = [it for it in want if it[0] == column]
            shown = sorted((it for it in found if it.column == column), key=lambda it: it.at)
            self.hold(f"{what}, {column}", [it[1] for it in told], [it.text for it in shown])
            for (_, text, arrow, side), label in zip(told, shown):
                self.standing(f"{what}, {column}, {text!r}", side, label.at, arrows[arrow:])

    def standing(self, what, side, at, arrows):
        """Whether a foot is over the first of these arrows, at its end, or under it, and above the next."""
        if not arrows:
            return
        below = at - arrows[0].at
        ends = arrows[1].at if len(arrows) > 1 else at + 1
        fine = {
            "above": -20 <= below < -10, "over": -10 <= below < 0, "at": abs(below) <= 5,
            "under": 5 < below and at < ends,
        }[side]
        if not fine:
            self.say(f"{what}: {below} px below its arrow, and not {side} it")

    def group(self, number, want, element, styles, ground):
        """The group of an event; answered are its arrows and labels."""
        what = f"event {number}"
        kinds = [it.tag.removeprefix(XMLNS) for it in element]
        self.hold(f"{what}, elements", [], sorted(set(kinds) - {"title", "path", "text"}))
        self.hold(f"{what}, titles", kinds[:1], ["title"] * kinds.count("title"))
        self.hold(f"{what}, title", want.title, element.findtext(f"{XMLNS}title"))
        arrows = [arrow_of(it) for it in element.findall(f"{XMLNS}path")]
        labels = [label_of(it, styles, ground) for it in element.findall(f"{XMLNS}text")]
        self.arrows(what, want.arrows, arrows, ground)
        self.labels(what, want.labels, labels, arrows)
        moments = [it for it in labels if it.column == "moment"]
        self.moment(what, want.moment, [it.text for it in moments])
        for it in moments:
            self.standing(f"{what}, moment", "above", it.at, arrows)
        return arrows, labels

    def looks(self, arrows, labels, ground):
        """No label leaves the picture, is too wide, has an arrow through it, or overlaps another."""
        for it in labels:
            if it.left < 0 or it.right > WIDTH or it.top < 0 or it.bottom > ground.height:
                self.say(f"the label {it.text!r} at {it.at} leaves the picture")
            if it.column in ("near", "far") and it.right - it.left > WIDEST:
                self.say(f"the label {it.text!r} at {it.at} is {it.right - it.left:.0f} px wide")
        self.crossed(sorted(arrows, key=lambda it: it.at), labels)
        ordered = sorted(labels, key=lambda it: it.top)
        for at, one in enumerate(ordered, 1):
            while at < len(ordered) and ordered[at].top < one.bottom:
                other, at = ordered[at], at + 1
                if one.left < other.right and other.left < one.right:
                    self.say(f"the labels {one.text!r} at {one.at} and {other.text!r} at {other.at} overlap")

    def crossed(self, arrows, labels):
        """No arrow of these, from above down, runs through a label."""
        downs = [it.at for it in arrows]
        for it in labels:
            for arrow in arrows[bisect_right(downs, it.top):bisect_left(downs, it.bottom)]:
                least, most = sorted((arrow.start, arrow.end))
                if least < it.right and it.left < most:
                    self.say(f"the arrow at {arrow.at} runs through the label {it.text!r}")

    def picture(self, lines, answers, text):
        """A picture, by the lines of its trace and the answers to its event lines."""
        root = ElementTree.fromstring(text)
        self.frame(text.decode(), root)
        styles, ground = styles_of(root), ground_of(root)
        events = [it for it in lines if is_event(it)]
        self.hold("answers", len(events), len(answers))
        groups = root.findall(f"{XMLNS}g")
        self.hold("groups", len(events), len(groups))
        self.groups, last = len(groups), 0
        arrows, labels = [], [label_of(it, styles, ground) for it in root.findall(f"{XMLNS}text")]
        self.heads(heads_of(lines), labels, ground)
        for number, (want, group) in enumerate(zip(wanted(events, answers), groups), 1):
            found, told = self.group(number, want, group, styles, ground)
            if found and found[0].at <= last:
                self.say(f"event {number}: its first arrow is no lower than that of the event before")
            last = found[0].at if found else last
            arrows, labels = arrows + found, labels + told
        self.looks(arrows, labels, ground)


def judged(trace, out, svg):
    """A picture, judged; what can't be read is a difference."""
    judge = Judge(svg.name)
    try:
        judge.picture(lines_of(trace), lines_of(out), svg.read_bytes())
    except (OSError, ElementTree.ParseError, AttributeError, TypeError, ValueError, IndexError) as why:
        judge.say(f"can't be read: {type(why).__name__}: {why}")
    return judge


def examples():
    """Trace, answers and picture of each example, and of each picture."""
    names = {it.stem for it in (TOP / "examples").glob("*.trace")}
    names |= {it.stem for it in (TOP / "docs/pictures").glob("*.svg")}
    for name in sorted(names):
        told = TOP / "examples" / name
        yield told.with_suffix(".trace"), told.with_suffix(".out"), TOP / f"docs/pictures/{name}.svg"


def main():
    files = [Path(it) for it in sys.argv[1:]]
    if len(files) % 3:
        sys.exit(__doc__)
    threes = [files[at:at + 3] for at in range(0, len(files), 3)] or examples()
    judges = [judged(*it) for it in threes]
    differs = [line for judge in judges for line in judge.differs]
    for line in differs:
        print(line)
    groups = sum(judge.groups for judge in judges)
    print(f"pictures: {groups} groups of {len(judges)} pictures, {len(differs)} differ")
    return 1 if differs else 0


if __name__ == "__main__":
    sys.exit(main())
