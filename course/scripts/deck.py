"""The pictures of the course, and the page that shows them one after the other."""
import collections
import html
import json
import os
import re

import exercises
import links

# `kind` is timing, drawing or steps. `wiring` is an exercise and the name of one of its wirings,
# or the name of a file of lines.
Picture = collections.namedtuple("Picture", "name kind wiring tick title words")

SECTION = re.compile(
    r"^## (?P<title>.*)\n\n`pictures/(?P<name>.*)\.svg`: "
    r"(?P<kind>\w+)(?: of (?P<wiring>.*?))?(?: at tick (?P<tick>\d+))?\n\n"
    r"(?P<words>(?:.+\n)+)",
    re.M,
)


def listed():
    """The pictures that deck.md lists."""
    found = [m.groupdict() for m in SECTION.finditer(exercises.text_of(exercises.HERE, "deck.md"))]
    return [
        Picture(
            **{
                **p,
                "words": " ".join(p["words"].split()),
                "tick": int(p["tick"] or 0),
                "wiring": (p["wiring"] or "").split(),
            }
        )
        for p in found
    ]


PICTURES = listed()


def wiring_and_ticks(p):
    """The lines of a wiring, and its ticks, all quick, so that the picture shows who wakes."""
    if p.wiring == ["one-flash"]:
        folder = os.path.join(exercises.TOP, "examples", "exercises")
        return exercises.text_of(folder, "one-flash.lines"), [
            line for line, _ in exercises.answers_in(exercises.text_of(folder, "one-flash.ticks"))
        ]
    if len(p.wiring) == 1:
        rows = exercises.text_of(exercises.HERE, "pictures", p.wiring[0] + ".lines").splitlines()
        return "".join(row + "\n" for row in rows if not row.startswith("T ")), [
            row for row in rows if row.startswith("T ")
        ]
    e = exercises.named(p.wiring[0])
    return e.solution if p.wiring[1] == "solution" else e.wrong[p.wiring[1]], [
        tick[:-1] + "Q" for tick in exercises.tick_lines(e)
    ]


def lines_of(p):
    wiring, ticks = wiring_and_ticks(p)
    return wiring + "".join(tick + "\n" for tick in ticks)


# ---- how a tick goes

STEPS = [
    ("1  Drive", ["Each output shows its source", "as it was after the last tick."]),
    ("2  Read", ["Each line gets its level:", "what comes in, or what is driven."]),
    (
        "3  Work out",
        [
            "Cells 1 to 16, in this order. A cell",
            "sees lower cells as they are now,",
            "itself and higher ones as before.",
        ],
    ),
]


def steps_picture():
    """Three boxes in a row, and below them what follows from their order."""
    parts = [
        '<svg xmlns="http://www.w3.org/2000/svg" viewBox="0 0 900 300" width="900" height="300"',
        ' font-family="sans-serif">',
        '<rect width="900" height="300" fill="#fff"/>',
        '<text x="20" y="36" font-size="20">One tick</text>',
    ]
    for i, (head, rows) in enumerate(STEPS):
        x = 20 + i * 295
        parts.append('<rect x="%d" y="54" width="270" height="126" rx="8" fill="#eef3fb" stroke="#456"/>' % x)
        parts.append('<text x="%d" y="86" font-size="20" font-weight="bold">%s</text>' % (x + 16, head))
        parts += [
            '<text x="%d" y="%d" font-size="13.5">%s</text>' % (x + 16, 114 + 22 * n, row) for n, row in enumerate(rows)
        ]
        if i < 2:
            parts.append('<path d="M%d 117h19m-7 -6l7 6l-7 6" fill="none" stroke="#456" stroke-width="2"/>' % (x + 273))
    parts.append(
        '<path d="M750 180v60H155v-54m-6 8l6 -8l6 8" fill="none" stroke="#b50" stroke-width="2"'
        ' stroke-dasharray="7 5"/>'
    )
    parts.append(
        '<text x="452" y="264" font-size="16" text-anchor="middle" fill="#b50">'
        "what the cells are now, the outputs show in the next tick</text>"
    )
    return "\n".join(parts + ["</svg>"]) + "\n"


# ---- what is made


def pictures():
    """{name: SVG} of those that need no browser."""
    found = {p.name: exercises.run("pldraw", lines_of(p)) for p in PICTURES if p.kind == "timing"}
    found.update({p.name: steps_picture() for p in PICTURES if p.kind == "steps"})
    return found


def drawings():
    """What draw.mjs takes: a file and the link that shows its drawing."""
    rows = []
    for p in PICTURES:
        if p.kind == "drawing":
            wiring = wiring_and_ticks(p)[0]
            rows.append(
                {
                    "file": os.path.join(exercises.HERE, "pictures", p.name + ".svg"),
                    "hash": "#w=%s&l=%d" % (links.packed(lines_of(p)), wiring.count("\n") + p.tick),
                }
            )
    return json.dumps(rows)


def missing():
    return [
        "pictures/%s.svg" % p.name
        for p in PICTURES
        if p.kind == "drawing" and not os.path.exists(os.path.join(exercises.HERE, "pictures", p.name + ".svg"))
    ]


def slide(p):
    return '<section>\n<h2>%s</h2>\n<img src="pictures/%s.svg" alt="">\n<p>%s</p>\n</section>' % (
        html.escape(p.title),
        p.name,
        html.escape(p.words, quote=False),
    )


def page():
    return """<!DOCTYPE html>
<html lang="en">
<meta charset="utf-8">
<title>The pictures of the course</title>
<style>
@page { size: A4 landscape; margin: 12mm; }
html { scroll-snap-type: y mandatory; font-family: sans-serif; }
body { margin: 0; }
section { height: 100vh; scroll-snap-align: start; break-after: page; }
section { display: flex; flex-direction: column; align-items: center; justify-content: center; }
h2 { font-size: 4vh; margin: 2vh; }
img { max-width: 94vw; height: 62vh; object-fit: contain; }
p { font-size: 2.8vh; line-height: 1.4; max-width: 60em; margin: 2vh 4vw; text-align: center; }
</style>
%s
</html>
""" % "\n".join(
        slide(p) for p in PICTURES
    )
