# compare-wave.py NAME CELLS LINES DIR: the values of a dump against the words that plrun printed and the levels that plexplain gives, and what plwave says of
# refused lines, in its dump and on the error output, against the answers. DIR has wave.vcd and said.txt of plwave, read.vcd that another program made of the dump,
# rows.txt of plexplain, and of sixteen cells run.txt and wiring.txt of plrun and plprint. Called by check-wave.
import json
import re
import sys

name, size, lines_path, work = sys.argv[1:]
small = size == "16"


def read(path):
    return open(path, encoding="latin-1", newline="\n").read().split("\n")[:-1]


def words_of(answers):
    """(driven, cells, woken) of each tick that ran."""
    return [tuple(int(w, 16) for w in answer.split()[1:4]) for answer in answers if re.match(r"T [0-9a-f]{4} ", answer)]


def samples_of(lines, answers):
    """The effective sample of each tick that ran."""
    samples = []
    for line, answer in zip(lines, answers):
        tick = re.fullmatch(r"T \d ([0-9a-f]{4}) ([0-9a-f]{4}) [FQ]", line)
        if tick and answer != "T -":
            sample, attached = (int(w, 16) for w in tick.groups())
            samples.append((sample & attached) | (~attached & 0xFF00))
    return samples


def refusals_of(lines, answers):
    """What must be said of refused lines."""
    pairs = enumerate(zip(lines, answers), 1)
    refused = ["line %d: %s (%s)" % (n, re.sub("[^ -~]", "?", line[:96]), answer) for n, (line, answer) in pairs if answer.startswith(":N")]
    if not refused:
        return []
    return ["1 line was refused; it is " + refused[0] if len(refused) == 1 else "%d lines were refused; the first is %s" % (len(refused), refused[0])]


def inputs_of(wiring):
    """The word of the connectors that are inputs at the run's end."""
    word, at = 0, 0
    for line in wiring:
        moved = re.fullmatch(r"M E=(\d+)", line)
        if moved:
            at = int(moved.group(1))
        if line == "36CCA Y=0" and at > 32:
            word |= 1 << (at - 33)
    return word


def read_dump(path):
    """The names of the wires by identifier, and their values at each time, up to the last one."""
    scopes, names, values, rows, time, heading = [], {}, {}, [], None, True
    for line in open(path):
        part = line.split()
        if not part:
            continue
        if part[0] == "$scope":
            scopes.append(part[2])
        elif part[0] == "$upscope":
            scopes.pop()
        elif part[0] == "$var":
            names.setdefault(part[3], ".".join(scopes + [part[4]]))
        elif part[0] == "$enddefinitions":
            heading = False
        elif heading:
            continue
        elif part[0][0] == "#":
            now = int(part[0][1:])
            while time is not None and len(rows) < now:
                rows.append(dict(values))
            time = now
        elif part[0][0] in "01":
            values[names[part[0][1:]]] = int(part[0][0])
    return names, rows


def word(values, names):
    return sum(values[n] << i for i, n in enumerate(names))


connectors = ["BNC%d" % i for i in range(1, 9)] + ["TTL%d" % i for i in range(8)]
driven = ["card.driven.drive_" + n for n in connectors]
levels = ["card.front." + n for n in connectors[:8]] + ["card.backplane." + n for n in connectors[8:]]
cells = ["card.cells.cell%d" % i for i in range(1, int(size) + 1)]
woken = ["card.woken.woken%d" % i for i in range(1, int(size) + 1)]

names, rows = read_dump(work + "/read.vcd")
lines = read(lines_path)
explained = [row for row in map(json.loads, read(work + "/rows.txt")) if "answer" in row]
answers = read(work + "/run.txt") if small else [row["answer"] for row in explained]
run = words_of(answers)
samples = samples_of(lines, answers)
inputs = inputs_of(read(work + "/wiring.txt")) if small else 0
shown = [row["levels"] for row in explained if row.get("ran")]
refusals = refusals_of(lines, answers)
wrong = []
if set(names.values()) != set(driven + levels + cells + woken):
    wrong.append("names of wires")
signals = "examples/card.gtkw" if small else "examples/cells32/card.gtkw"
if set(line.strip() for line in open(signals) if line.startswith("card.")) != set(names.values()):
    wrong.append("names in " + signals)
if [row["answer"] for row in explained] != answers:
    wrong.append("answers of plexplain")
if re.findall(r"^\$comment (.* refused; .*) \$end$", open(work + "/wave.vcd").read(), re.M) != [r.replace("$", "?") for r in refusals]:
    wrong.append("comment on refused lines")
if [line for line in read(work + "/said.txt") if "no LF" not in line] != refusals:
    wrong.append("error output")
if len(rows) != len(run):
    wrong.append("%d ticks in the dump, %d in the run" % (len(rows), len(run)))
for t, (values, words) in enumerate(zip(rows, run)):
    if (word(values, driven), word(values, cells), word(values, woken)) != words:
        wrong.append("tick %d" % t)
    if (word(values, levels) ^ samples[t]) & inputs or word(values, levels) != shown[t]:
        wrong.append("levels at tick %d" % t)
print("%s: %d ticks, %s" % (name, len(run), "the same" if not wrong else "DIFFERS: " + "; ".join(wrong[:3])))
sys.exit(1 if wrong else 0)
