"""What the scripts of the course share: the exercises, the programs, and what plcheck says of a wiring."""
import collections
import glob
import os
import platform
import re
import shutil
import subprocess
import sys

HERE = os.path.dirname(os.path.dirname(os.path.abspath(__file__)))  # the folder of the course
TOP = os.path.dirname(HERE)

Exercise = collections.namedtuple("Exercise", "name number title folder task ticks solution wrong")
# Where the first answer differs: its tick, what must come, what came, and why. The tick is 0 where every answer agrees.
Verdict = collections.namedtuple("Verdict", "agree differ refused tick expected came reasons text")


def text_of(*parts):
    with open(os.path.join(*parts), encoding="ascii", newline="") as f:
        return f.read()


def exercises():
    return [exercise(folder) for folder in sorted(glob.glob(os.path.join(HERE, "exercises", "[0-9][0-9]-*")))]


def exercise(folder):
    name = os.path.basename(folder)
    task = text_of(folder, "task.md")
    wrong = sorted(glob.glob(os.path.join(folder, "wrong-*.lines")) + glob.glob(os.path.join(folder, "given.lines")))
    return Exercise(
        name=name,
        number=int(name[:2]),
        title=re.match(r"# Exercise \d+: (.*)\n", task).group(1),
        folder=folder,
        task=task,
        ticks=text_of(folder, "answers.ticks"),
        solution=text_of(folder, "solution.lines"),
        wrong={os.path.basename(path)[: -len(".lines")]: text_of(path) for path in wrong},
    )


def named(word):
    """The exercise that a person means by 3, 03, trigger-with-clock or the folder's whole name."""
    for e in exercises():
        if word.rstrip("/").split("/")[-1] in (e.name, e.name[3:], e.name[:2], str(e.number)):
            return e
    sys.exit("There is no exercise %s. There are:\n%s" % (word, "\n".join("  " + e.name for e in exercises())))


def program(name):
    """A program of the card: built here, of a release around this folder, or of the search path."""
    processor = platform.machine().replace("_", "-")
    for folder in (os.path.join(TOP, "target", "bin"), os.path.join(TOP, "bin", "linux-" + processor)):
        if os.path.exists(os.path.join(folder, name)):
            return os.path.join(folder, name)
    found = shutil.which(name)
    if not found:
        sys.exit(
            "%s is missing. `./build %s` at the top of the repository builds it, and a release has it." % (name, name)
        )
    return found


def run(name, given):
    """What a program writes to standard output."""
    return subprocess.run(
        [program(name)],
        input=given.encode("latin-1", "replace"),
        stdout=subprocess.PIPE,
        stderr=subprocess.DEVNULL,
        check=True,
    ).stdout.decode("latin-1")


HEAD = re.compile(r"Line \d+(?:, (?:after )?tick (\d+))?: .*")


def verdict(wiring, e):
    """What plcheck says of a wiring, whose last line has ended, with the ticks of an exercise after it."""
    text = run("plcheck", wiring + e.ticks)
    lines = text.splitlines()
    agree, differ = map(int, re.fullmatch(r"(\d+) answers agree, (\d+) differ", lines[-1]).groups())
    refused = re.search(r"^Refused of the lines without >: (\d+)", text, re.M)
    tick, expected, came, reasons = 0, "", "", []
    for i, line in enumerate(lines):
        if line.startswith("    expected  "):
            tick, expected, came = int(HEAD.fullmatch(lines[i - 1]).group(1) or 0), line[14:], lines[i + 1][14:]
            reasons = [said[4:] for said in lines[i + 2 : -1] if said.startswith("    ")]
    return Verdict(agree, differ, int(refused.group(1)) if refused else 0, tick, expected, came, reasons, text)


def tick_lines(e):
    """The tick lines of an exercise, as plrun takes them."""
    return [
        line[2:] if line.startswith("> ") else line
        for line in e.ticks.splitlines()
        if re.match(r"(> )?T \d", line) and not re.match(r"T [0-9a-f]{4} ", line)
    ]


def connectors_agree(wiring, e):
    """Whether the outputs are driven as the transcript says in every tick, whatever the cells are."""
    wanted = [answer.split()[1] for line, answer in answers_in(e.ticks) if line.startswith("T ")]
    lines = [line for line in wiring.splitlines() if line]
    came = run("plrun", "".join(line + "\n" for line in lines + tick_lines(e))).splitlines()[len(lines) :]
    return wanted != [] and wanted == [answer.split()[1] for answer in came]


def wrong_table():
    """What wrong-wirings.md says: {(exercise, wiring): (tick, words of plcheck, what was thought)}."""
    table = {}
    for part in text_of(HERE, "wrong-wirings.md").split("\n## ")[1:]:
        name, rows = part.split("\n", 1)
        for wiring, tick, said, thought in re.findall(r"^- `(\S+)`, tick (\d+): `([^`]*)`\n((?:  .*\n)+)", rows, re.M):
            table[name, wiring] = int(tick), said, " ".join(thought.split())
    return table


def tally_limit(e):
    """The number that every tally has to be below, where the text gives one."""
    found = re.search(r"have to be below (\d+)", e.task)
    return int(found.group(1)) if found else None


def highest_tally(wiring, e):
    lines = [line for line in wiring.splitlines() if line] + tick_lines(e)
    said = run("pltally", "".join(line + "\n" for line in lines))
    return max([int(n) for n in re.findall(r"^cell .*: (\d+), ", said, re.M)] or [0])


def answers_in(ticks):
    """The lines of a transcript that are compared, each with its answer."""
    rows = [re.sub(r"\s+#.*$", "", row) for row in ticks.splitlines()]
    return [(row[2:], rows[i + 1]) for i, row in enumerate(rows) if row.startswith("> ")]


def rack_verdict(wiring, e):
    """Two cards of a rack get the wiring, and then the ticks of rack.ticks.

    The result is the number of the first tick that differs, 0 where none does.
    """
    ticks = answers_in(text_of(e.folder, "rack.ticks"))
    lines = [line for line in wiring.splitlines() if line]
    calls = ["rack 2", "start"] + ["line %d 16 %s" % (card, line) for card in (1, 2) for line in lines]
    came = run("plrack", "".join(call + "\n" for call in calls + [tick for tick, _ in ticks])).splitlines()[
        len(calls) :
    ]
    return next((i + 1 for i, (_, answer) in enumerate(ticks) if i >= len(came) or came[i] != answer), 0)
