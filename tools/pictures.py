#!/usr/bin/env python3
"""Draws the pictures of docs/pictures from the tables of docs: times and lengths (BENCHMARKS, FORMATS), the crates and
what each may touch (ARCHITECTURE), and two threads at a board (BOARD). It draws all builds that a table has. A picture
has a background of its own, light or dark as its reader's system is. The script also checks that the steps of the
board's table follow from one another, that no line of the crates runs through a box, and that README's sentence on
speed has the times of the table.

Usage: tools/pictures.py           draws them
       tools/pictures.py --check   fails where a picture or that sentence is not what the tables say
"""
import math
import os
import re
import sys
from html import escape

ROOT = os.path.dirname(os.path.dirname(os.path.abspath(__file__)))
PICTURES = os.path.join(ROOT, "docs", "pictures")
# Background, text, quiet text, lines of a grid, and the colours of series and of boxes.
LIGHT = "#ffffff #1f2328 #59636e #d1d9e0 #9a5b00 #0b62c4 #0a7d4f #8a2fb0 #b3261e #5c6670".split()
DARK = "#0d1117 #e6edf3 #9aa4af #3d444d #f0a94a #6cb2ff #4fd69c #d59bff #ff8a80 #aab4bf".split()


def rules(back, text, quiet, grid, *colours):
    """The rules for the classes that have colours."""
    yield f".back{{fill:{back}}}text{{fill:{text}}}.quiet{{fill:{quiet}}}.grid{{stroke:{grid}}}.rule{{stroke:{quiet}}}"
    for i, it in enumerate(colours):
        yield f".f{i}{{fill:{it}}}.s{i}{{stroke:{it}}}.b{i}{{fill:{it};stroke:{it}}}"


STYLE = f"""<style>
text{{font-family:system-ui,-apple-system,"Segoe UI","DejaVu Sans",sans-serif;font-size:13px}}
.small{{font-size:11px}}.head{{font-size:15px;font-weight:600}}.bold{{font-weight:600}}
.mono{{font-family:ui-monospace,"DejaVu Sans Mono",monospace}}
.rule{{fill:none}}.dashed{{stroke-dasharray:4 4}}.series{{stroke-width:2;fill:none}}.box{{fill-opacity:.13}}
{"".join(rules(*LIGHT))}
@media (prefers-color-scheme:dark){{{"".join(rules(*DARK))}}}
</style>"""


def table(page, *heads):
    """The rows of the one table of a page whose columns have these heads, as dictionaries."""
    with open(os.path.join(ROOT, page)) as file:
        lines = [[cell.strip() for cell in line.strip().strip("|").split("|")] if line.startswith("|") else None
                 for line in file.read().split("\n")]
    starts = [i for i, line in enumerate(lines) if line and set(heads) <= set(line)]
    if len(starts) != 1:
        sys.exit(f"{page}: {len(starts)} tables with the columns {', '.join(heads)}")
    end = next(i for i in range(starts[0], len(lines)) if lines[i] is None)
    return [dict(zip(lines[starts[0]], line)) for line in lines[starts[0] + 2:end]]


def number(text):
    """The number in a cell, or None where it has none."""
    return float(text.replace(",", "")) if re.fullmatch(r"[0-9][0-9,]*(\.[0-9]+)?", text) else None


def shown(value):
    """A time as it is written beside its mark: three digits of it."""
    return f"{value:,.0f}" if value >= 100 else f"{value:.1f}"


def round_steps(least, most):
    """The numbers 1, 2 and 5 times a power of ten from the last below `least` to the first above `most`."""
    steps = [digit * 10.0 ** power for power in range(-3, 7) for digit in (1, 2, 5)]
    first = max(it for it in steps if it <= least)
    return [it for it in steps if first <= it <= min(at for at in steps if at >= most)]


class Picture:
    def __init__(self, width, height, title):
        self.width, self.height, self.title, self.parts = width, height, title, []

    def put(self, name, text="", **attributes):
        words = "".join(f' {key.strip("_").replace("_", "-")}="{escape(str(it))}"' for key, it in attributes.items())
        self.parts.append(f"<{name}{words}>{escape(text)}</{name}>" if text else f"<{name}{words}/>")

    def text(self, x, y, text, look="", anchor="start"):
        self.put("text", text, x=round(x, 1), y=round(y, 1), class_=look, text_anchor=anchor)

    def line(self, x1, y1, x2, y2, look):
        self.put("line", x1=round(x1, 1), y1=round(y1, 1), x2=round(x2, 1), y2=round(y2, 1), class_=look)

    def box(self, x, y, width, height, look):
        self.put("rect", x=round(x, 1), y=round(y, 1), width=width, height=height, rx=6, class_=look)

    def mark(self, series, x, y):
        """The mark of a series: each has a form and a colour of its own."""
        far = 5.5
        corners = [None, [(-far, -far), (far, -far), (far, far), (-far, far)],
                   [(0, -far - 2), (far + 2, 0), (0, far + 2), (-far - 2, 0)],
                   [(0, -far - 1), (far + 1, far), (-far - 1, far)],
                   [(0, far + 1), (far + 1, -far), (-far - 1, -far)]][series % 5]
        if corners is None:
            self.put("circle", cx=round(x, 1), cy=round(y, 1), r=far, class_=f"f{series}")
        else:
            self.put("polygon", points=" ".join(f"{x + a:.1f},{y + b:.1f}" for a, b in corners), class_=f"f{series}")

    def svg(self):
        head = (f'<svg xmlns="http://www.w3.org/2000/svg" viewBox="0 0 {self.width} {self.height}" '
                f'width="{self.width}" height="{self.height}" role="img">\n<title>{escape(self.title)}</title>')
        back = f'<rect width="{self.width}" height="{self.height}" rx="8" class="back"/>'
        return "\n".join([head, STYLE, back, *self.parts, "</svg>"]) + "\n"


def build_name(build):
    return f"Pipitscreen, x86-64-{build}" if build.startswith("v") else build


def series_name(build):
    """The name of a series in a legend. OpenSSL's version is the one that the page of the table names."""
    if build != "OpenSSL":
        return build if build.startswith("OpenSSL") else f"Pipitscreen {build}"
    with open(os.path.join(ROOT, "docs/BENCHMARKS.md")) as file:
        version = re.search(r"OpenSSL is (\d+\.\d+\.\d+)", file.read()).group(1)
    return f"OpenSSL {version}, no SHA instructions"


def sign_times():
    """The builds of the table beside OpenSSL, and of each set the times in which they sign."""
    rows = [it for it in table("docs/BENCHMARKS.md", "set", "task", "OpenSSL, ms") if it["task"] == "sign"]
    builds = [head.removesuffix(", ms") for head in rows[0] if head.endswith(", ms")]
    return builds, {it["set"]: [number(it[f"{build}, ms"]) for build in builds] for it in rows}


def on_log(steps, left, right):
    """Where a time stands between `left` and `right`, on a log scale from the first of the steps to the last."""
    first, last = math.log(steps[0]), math.log(steps[-1])
    return lambda value: left + (right - left) * (math.log(value) - first) / (last - first)


def draw_log_axis(picture, steps, place, top, bottom):
    for step in steps:
        picture.line(place(step), top, place(step), bottom, "grid")
        picture.text(place(step), bottom + 17, f"{step:,g}", "quiet small", "middle")
    told = "milliseconds, on a log scale: further left is faster"
    picture.text(picture.width - 20, bottom + 36, told, "quiet", "end")


def draw_legend(picture, builds, y):
    x = 20
    for series, build in enumerate(builds):
        if x + 18 + 6.8 * len(series_name(build)) > picture.width:
            x, y = 20, y + 17
        picture.mark(series, x + 6, y - 4)
        picture.text(x + 18, y, series_name(build))
        x += 44 + 6.8 * len(series_name(build))


def draw_sign_times():
    builds, times = sign_times()
    known = [it for row in times.values() for it in row if it]
    steps, row_height, top = round_steps(min(known), max(known)), 40, 72
    bottom = top + row_height * len(times)
    picture = Picture(760, bottom + 50, "Time to sign, by set, for OpenSSL and each build")
    picture.text(20, 28, "Time of one signature, in one thread", "head")
    draw_legend(picture, builds, 47)
    place = on_log(steps, 80, picture.width - 30)
    draw_log_axis(picture, steps, place, top, bottom)
    for i, (name, row) in enumerate(times.items()):
        y = top + row_height * (i + 0.6)
        picture.text(20, y + 4, name, "bold")
        picture.line(min(place(it) for it in row if it), y, max(place(it) for it in row if it), y, "grid")
        for series, time in enumerate(row):
            if time:
                picture.mark(series, place(time), y)
                picture.text(place(time), y - 10, shown(time), "small", "middle")
    return picture


def draw_lengths():
    builds, times = sign_times()
    lengths = {it["set"].removeprefix("SLH-DSA-SHA2-"): number(it["signature (bytes)"])
               for it in table("docs/FORMATS.md", "set", "signature (bytes)")}
    known = [it for row in times.values() for it in row if it]
    steps, top, bottom, tall = round_steps(min(known), max(known)), 72, 372, 60000
    picture = Picture(760, bottom + 50, "Signature length against time to sign, for the six sets")
    picture.text(20, 28, "Length of a signature in bytes, against the time to make it", "head")
    draw_legend(picture, builds, 47)
    place, height = on_log(steps, 80, picture.width - 60), lambda it: bottom - (bottom - top) * it / tall
    draw_log_axis(picture, steps, place, top, bottom)
    for length in range(0, tall + 1, 10000):
        picture.line(80, height(length), picture.width - 60, height(length), "grid")
        picture.text(72, height(length) + 4, f"{length:,}", "quiet small", "end")
    for name, row in times.items():
        y, last = height(lengths[name]), max(it for it in row if it)
        picture.line(place(min(it for it in row if it)), y, place(last), y, "rule")
        for series, time in enumerate(row):
            if time:
                picture.mark(series, place(time), y)
        picture.text(place(last) + 12, y + 4, name, "bold")
    return picture


def worker_times():
    """Of each build the sets with their times by 1, 2 and 4 workers."""
    found = {}
    for row in table("docs/BENCHMARKS.md", "build", "sign, one thread", "4 workers"):
        times = {1: number(row["sign, one thread"]), 2: number(row["2 workers"]), 4: number(row["4 workers"])}
        found.setdefault(row["build"], {})[row["set"].split()[0]] = times
    return found


def draw_workers():
    builds = worker_times()
    known = [it for sets in builds.values() for times in sets.values() for it in (*times.values(), times[1] / 4)]
    steps, top, bottom, wide = round_steps(min(known), max(known)), 72, 392, 700 / len(builds)
    picture = Picture(780, bottom + 50, "Time to sign by 1, 2 and 4 workers")
    picture.text(20, 28, "One signature by several workers: ms, on a log scale", "head")
    picture.text(picture.width - 20, 28, "dashed: half the time by twice as many", "quiet small", "end")
    height = on_log(steps, bottom, top)
    for panel, (build, sets) in enumerate(builds.items()):
        left = 60 + panel * wide
        places = {1: left + 20, 2: left + 20 + (wide - 100) / 2, 4: left + wide - 80}
        picture.text(left, 58, build_name(build), "bold")
        for step in steps:
            picture.line(left, height(step), left + wide - 60, height(step), "grid")
            if panel == 0:
                picture.text(left - 8, height(step) + 4, f"{step:,g}", "quiet small", "end")
        for workers, x in places.items():
            picture.text(x, bottom + 17, f"{workers}", "quiet small", "middle")
        picture.text((places[1] + places[4]) / 2, bottom + 36, "workers", "quiet small", "middle")
        draw_panel(picture, sets, places, height, (left, wide))
    return picture


def draw_panel(picture, sets, places, height, panel):
    """The lines of one build. Labels of lines that end close to one another stand apart."""
    taken = []
    for name, times in sorted(sets.items(), key=lambda it: it[1][4]):
        series = list(sets).index(name)
        picture.line(places[1], height(times[1]), places[4], height(times[1] / 4), "rule dashed")
        points = " ".join(f"{places[it]:.1f},{height(times[it]):.1f}" for it in places)
        picture.put("polyline", points=points, class_=f"series s{series}")
        for it in places:
            picture.put("circle", cx=round(places[it], 1), cy=round(height(times[it]), 1), r=3.5, class_=f"f{series}")
        y = min([height(times[4]) + 4, *(it - 13 for it in taken)])
        taken.append(y)
        picture.text(places[4] + 8, y, f"{name} {shown(times[4])}", "small")


# In which column a crate stands. Its row follows from the crates above it.
COLUMNS = {
    "slh": 2, "slh_c": 3, "slh_c_verify": 1, "slh_tool": 2, "slh_jobs": 0, "slh_par": 2, "slh_files": 4,
    "slh_key_files": 4, "slh_vectors": 3, "slh_subtrees": 0.3, "slh_core": 1.3, "slh_workers": 2.8, "slh_io": 4,
    "slh_few": 0.7, "slh_board": 2.8, "slh_lanes": 0.2, "slh_tree": 1.3, "slh_hash": 0.2, "slh_width": 2,
    "slh_params": 0.7,
}


def crates():
    """Of each crate what it may touch, and the crates right below it."""
    found = {}
    for row in table("docs/ARCHITECTURE.md", "may touch", "crates"):
        for name, below in re.findall(r"`(\w+)`(?: \(((?:`\w+`(?:, )?)+)\))?", row["crates"]):
            found[name] = row["may touch"].split(" (")[0], re.findall(r"\w+", below)
    if set(found) != set(COLUMNS):
        sys.exit(f"docs/ARCHITECTURE.md: other crates than here: {set(found) ^ set(COLUMNS)}")
    return found


def wrapped(text, width):
    lines = [""]
    for word in text.split():
        lines += [""] if len(lines[-1]) + len(word) >= width else []
        lines[-1] = f"{lines[-1]} {word}".strip()
    return lines


# The width and the height of a crate's box.
WIDE, TALL = 160, 48


def runs_through(line, place):
    """Whether a line that runs downwards meets the box at a place."""
    (x1, y1, x2, y2), (x, y) = line, place
    top, bottom = max(y, y1), min(y + TALL, y2)
    if top > bottom:
        return False
    at = [x1 + (x2 - x1) * (it - y1) / (y2 - y1) for it in (top, bottom)]
    return min(at) <= x + WIDE and max(at) >= x


def crate_lines(found, place):
    """The lines from each crate to those right below it, none of which runs through the box of a third."""
    for name, (_, below) in found.items():
        for other in below:
            (x, y), (to_x, to_y) = place[name], place[other]
            line = x + WIDE / 2, y + TALL, to_x + WIDE / 2, to_y
            crossed = [it for it in found if it not in (name, other) and runs_through(line, place[it])]
            if crossed:
                sys.exit(f"crates.svg: the line from {name} to {other} runs through {crossed[0]}")
            yield line


def draw_crates():
    found, pitch = crates(), 66
    row = lambda name: 1 + max((row(user) for user, (_, below) in found.items() if name in below), default=-1)
    place = {name: (20 + COLUMNS[name] * 172, 70 + row(name) * pitch) for name in found}
    height = max(y for _, y in place.values()) + TALL + 20
    picture = Picture(888, height, "The crates as layers, with what each may touch")
    picture.text(20, 28, "The crates, and what each may touch", "head")
    draw_crates_legend(picture, 52)
    for line in crate_lines(found, place):
        picture.line(*line, "rule")
    for name, (touch, _) in found.items():
        x, y = place[name]
        picture.box(x, y, WIDE, TALL, "back")
        picture.box(x, y, WIDE, TALL, f"box b{kind_colour(touch)}")
        picture.text(x + 8, y + 16, name, "bold mono")
        for i, line in enumerate(wrapped(touch, 23)):
            picture.text(x + 8, y + 30 + 12 * i, line, "small")
    return picture


# What a colour means, by a word that `kind_colour` knows.
KINDS = {"slices": "slices alone", "memory": "memory", "threads": "threads, atomic words", "files": "files, streams"}


def draw_crates_legend(picture, y):
    x = 20
    for word, meaning in KINDS.items():
        picture.box(x, y - 11, 16, 14, f"box b{kind_colour(word)}")
        picture.text(x + 22, y, meaning, "small")
        x += 44 + 6 * len(meaning)
    picture.line(x, y - 4, x + 24, y - 4, "rule")
    picture.text(x + 30, y, "the upper crate uses the lower one", "small")


def kind_colour(touch):
    """One colour for slices alone, and one for each of what reaches further: memory, threads, files and streams."""
    for colour, word in ((4, "system"), (3, "file"), (2, "thread"), (2, "atomic"), (0, "memory"), (1, "slices")):
        if word in touch:
            return colour
    sys.exit(f"docs/ARCHITECTURE.md: what no crate may touch so far: {touch}")


def board_steps():
    """The steps of the board's table, each of which has to follow from the words as the steps before it left them."""
    columns = ["step", "thread", "exchange", "finds", "`next` after", "`claim` returns"]
    steps = table("crates/slh_board/README.md", *columns)
    jobs = 1 + max(int(it) for it in re.findall(r"Job\((\d+)\)", " ".join(it["`claim` returns"] for it in steps)))
    words = 0
    for step in steps:
        draws = "fetch_add" in step["exchange"]
        finds, words = (words, words + 1) if draws else (0, words)
        returns = "" if not draws else f"`Job({finds})`" if finds < jobs else "`Done`"
        if (step["finds"], step["`next` after"], step["`claim` returns"]) != (str(finds), str(words), returns):
            sys.exit(f"crates/slh_board/README.md: step {step['step']} does not follow from those before it")
    return steps


def draw_board():
    steps = board_steps()
    top, tall, middle = 92, 34, 380
    bottom = top + tall * len(steps)
    picture = Picture(760, bottom + 24, "Two threads draw the numbers of three jobs from one board")
    picture.text(20, 28, "Two threads at one board: three jobs, each drawn once", "head")
    sides = {"A": (150, "end", -10), "B": (610, "start", 10)}
    for thread, (x, _, _) in sides.items():
        picture.text(x, 62, f"thread {thread}", "bold", "middle")
        picture.line(x, 74, x, bottom, "rule")
    picture.box(middle - 50, 44, 100, bottom - 40, "box b5")
    picture.text(middle, 62, "the board", "bold", "middle")
    picture.text(middle, 82, "next 0", "mono", "middle")
    for i, step in enumerate(steps):
        (x, anchor, gap), y = sides[step["thread"]], top + tall * (i + 0.6)
        draws, returns = "fetch_add" in step["exchange"], step["`claim` returns"].strip("`")
        series = 1 if step["thread"] == "A" else 2
        near = middle - 52 if x < middle else middle + 52
        picture.line(x, y, near, y, f"series s{series}" if draws else "rule dashed")
        picture.put("circle", cx=x, cy=round(y, 1), r=4, class_=f"f{series}")
        label = f"draws, finds {step['finds']}" if draws else "looks: not stopped"
        picture.text((x + near) / 2, y - 5, label, "small" if draws else "small quiet", "middle")
        if draws:
            picture.text(middle, y + 4, f"next {step['`next` after']}", "mono", "middle")
            picture.text(x + gap, y + 4, returns, "bold mono", anchor)
    return picture


def speed_is_told():
    """Whether README's sentence on speed has three times of 128f or more, OpenSSL's too, and all are the table's."""
    builds, times = sign_times()
    with open(os.path.join(ROOT, "README.md")) as file:
        sentence = re.search(r"\*\*Speed\*\*:(.*?)\n\n", file.read(), re.S)
    told = set(re.findall(r"(\d+\.\d)\sms", sentence.group(1))) if sentence else set()
    known = [f"{it:.1f}" for it in times["128f"] if it]
    return len(told) >= 3 and known[0] in told and told <= set(known)


def main():
    drawn = {"sign_times": draw_sign_times, "lengths": draw_lengths, "workers": draw_workers, "crates": draw_crates,
             "board": draw_board}
    texts = {os.path.join(PICTURES, f"{name}.svg"): draw().svg() for name, draw in drawn.items()}
    if sys.argv[1:] == ["--check"]:
        wrong = [path for path, text in texts.items() if not os.path.isfile(path) or open(path).read() != text]
        wrong += [it.path for it in os.scandir(PICTURES) if it.path not in texts]
        for path in wrong:
            print(f"{os.path.relpath(path, ROOT)} is not what the tables say: tools/pictures.py draws it")
        if not speed_is_told():
            print("README.md: its sentence on speed has other times of 128f than docs/BENCHMARKS.md")
        sys.exit(bool(wrong) or not speed_is_told())
    if sys.argv[1:]:
        sys.exit(__doc__)
    for path, text in texts.items():
        with open(path, "w") as file:
            file.write(text)


main()
