# compare-draw.py NAME SVG LINES RUN FROM ERRORS: a picture, and what was said on the error output, against what plrun printed for the same lines. After each tick of
# LINES come 36RDADC X? and Y?, so that RUN has its levels. Called by check-draw.
import re
import sys
import xml.etree.ElementTree as ET

name, svg_path, lines_path, run_path, first, errors_path = sys.argv[1:]
SVG = "{http://www.w3.org/2000/svg}"
LEFT, KEPT, SIDE_BY_SIDE, HIGH = 215, 300, 60, 4
before = max(int(first) - 1, 0)


def read(path):
    return open(path, errors="replace").read().split("\n")[:-1]


def ticks_of(lines, answers):
    """For each tick that ran its driven word, cell word, woken set, levels, BNC1 first, and whether it was full."""
    ticks = []
    for i, answer in enumerate(answers):
        if re.match(r"T [0-9a-f]{4} ", answer):
            front, back = (int(reply.split()[1]) for reply in answers[i + 1 : i + 3])
            ticks.append(tuple(int(w, 16) for w in answer.split()[1:4]) + (front + 256 * back, lines[i].endswith("F")))
    return ticks


def refusals_of(lines, answers):
    """What the picture must say of refused lines. The reads after ticks are ours and have no number."""
    refused, number, skip = [], 0, 0
    for line, answer in zip(lines, answers):
        if skip:
            skip -= 1
            continue
        number += 1
        skip = 2 if line.startswith("T ") else 0
        if answer.startswith(":N"):
            refused.append("line %d: %s (%s)" % (number, re.sub("[^ -~]", "?", line[:96]), answer))
    if not refused:
        return []
    if len(refused) == 1:
        return ["1 line was refused; it is " + refused[0]]
    return ["%d lines were refused; the first is %s" % (len(refused), refused[0])]


lines, answers = read(lines_path), read(run_path)
every = ticks_of(lines, answers)
run = every[before : before + KEPT]
column = 20 if len(run) <= 30 else 10


def column_of(x):
    return (int(x) - LEFT) // column


def wave_of(path):
    """The value in each column of a wave: M x y, then H x and V y."""
    values, x, y = [], LEFT, None
    for command, first, second in re.findall(r"([MHV])(\d+)(?: (\d+))?", path):
        if command == "M":
            y = int(second)
        elif command == "V":
            y = int(first)
        else:
            values += [y == HIGH] * (column_of(first) - column_of(x))
            x = first
    return values


def boxes_of(group):
    """The boxes of a cell's row: column to class and title."""
    return {column_of(re.match(r"M(\d+) ", p.get("d")).group(1)): (p.get("class"), p.find(SVG + "title").text) for p in group.findall(SVG + "path")}


def good_box(box, number, full):
    """A box says its tick. In a quick tick it has a reason; without one the tick is full, and the tint is the light one."""
    kind, title = box
    parts = title.split(", ")
    reasons = [p for p in parts[1:] if p != "full tick"]
    return parts[0] == "tick %d" % number and ("full tick" in parts) == full and kind == ("b" if reasons else "a") and (full or reasons)


wrong, rows, order = [], 0, []
root = ET.parse(svg_path).getroot()
strips = [g for g in root if g.tag == SVG + "g"]
said = [t.text for t in root.findall(SVG + "text") if t.get("class") == "e" and "no LF" not in t.text]
if said != refusals_of(lines, answers):
    wrong.append("refused lines")
if [line for line in read(errors_path) if "no LF" not in line] != refusals_of(lines, answers):
    wrong.append("error output")
title = root.find(SVG + "text").text
if run and not title.startswith("Trigger card: ticks %d to %d of %d" % (before + 1, before + len(run), len(every))):
    wrong.append("title")
if len(strips) != -(-len(run) // SIDE_BY_SIDE):
    wrong.append("%d strips" % len(strips))
for s, strip in enumerate(strips):
    ticks = run[s * SIDE_BY_SIDE : (s + 1) * SIDE_BY_SIDE]
    groups = [g for g in strip if g.tag == SVG + "g"]
    marks = {column_of(t.get("x")) for t in strip.findall(SVG + "text") if t.get("class") == "f"}
    if marks != {k for k, tick in enumerate(ticks) if tick[4]}:
        wrong.append("marks of full ticks")
    boxes = {g.get("transform"): boxes_of(g) for g in groups if g.find(SVG + "text") is None}
    labels = []
    for row in groups:
        label = row.find(SVG + "text")
        if label is None:
            continue
        rows += 1
        wave = wave_of(next(p.get("d") for p in row.findall(SVG + "path") if p.get("class") == "w"))
        if len(wave) != len(ticks):
            wrong.append("%s has %d columns" % (label.text, len(wave)))
        words = label.text.split()
        labels.append(1 if words[0] == "cell" else 0 if words[1] == "in" else 2)
        for k, (value, (_, cells, woken, levels, full)) in enumerate(zip(wave, ticks)):
            if words[0] == "cell":
                i = int(words[1]) - 1
                box = boxes[row.get("transform")].get(k)
                good = value == bool(cells >> i & 1) and (box is not None) == bool(woken >> i & 1)
                good = good and (box is None or good_box(box, before + s * SIDE_BY_SIDE + k + 1, full))
            else:
                i = int(words[0][3:]) - 1 if words[0].startswith("BNC") else int(words[0][3:]) + 8
                good = value == bool(levels >> i & 1)
            if not good:
                wrong.append("%s at tick %d" % (label.text, before + s * SIDE_BY_SIDE + k + 1))
    if labels != sorted(labels):
        wrong.append("order of rows")
verdict = "the same" if not wrong else "DIFFERS: " + "; ".join(wrong[:3])
print("%s from %s: %d ticks in %d strips, %d rows, %s" % (name, first, len(run), len(strips), rows, verdict))
sys.exit(1 if wrong else 0)
