"""Draws a trace as a page or a picture: lanes, frames inside one another, refused calls, and arcs from a duty to its begin. It is no command."""
import html
import math
import re

LINE = re.compile(r"(\d+) (env|[tw]\d+) (\w+) (\d+) (.*)")
DUTIES = re.compile(r"((?: -#\d+)?)((?: \+[#jf][\d.]+)?)$")
CAUSE = re.compile(r"(\w+):(\d+)\.(\d+)(?::(.*))?")
REFUSED = "  !! "
PHASES = {"go": "loop", "loop_end": "hooks", "drain": "drain", "finals": "finals"}
HOST = {*PHASES, "opened", "gone", "close_tsfn", "finish_tsfn", "actor_end", "end"}
TINTS = ["#dfeee3", "#dde8f5", "#eee0ef", "#f3e3d6", "#f5e9d0"]
ROW, NUMBERS, ARCS, INDENT, GAP, LETTER = 17, 46, 150, 16, 12, 7.25
MOST_ROWS, MOST_DEPTH, MOST_LETTERS = 3000, 10, 84
STYLE = """
svg text{font:12px ui-monospace,Menlo,Consolas,monospace;fill:#222}
.paper{fill:#fff}.no{fill:#999!important}.lane{fill:#f6f7f9}.head{font-weight:600;fill:#555!important}.host{fill:#777!important;font-style:italic}
.refused{fill:#b00!important;font-weight:600}.frame{fill:#fff;stroke:#8aa}.init{stroke:#6b8}.call{stroke:#88c}.finalize{stroke:#c96}.hook{stroke:#b6a}
.reaction{stroke:#a80}.complete{stroke:#4aa}.item{stroke:#48c}.torn{stroke:#c44}.phase{fill:#666!important;font-size:10px!important}
.arc{fill:none;stroke:#8ab;stroke-width:1.3}.withdrawn{stroke:#c66;stroke-dasharray:4 3}.starts{stroke:#4aa;stroke-dasharray:2 2}.tip{fill:#578}
.on{stroke:#e80!important;stroke-width:2.6!important}.dim{opacity:.25}
"""
BODY = "body{font:13px/1.5 system-ui,sans-serif;margin:16px;color:#222}"
SCRIPT = """
for (const row of document.querySelectorAll('[data-duty].row')) {
  const arcs = [...document.querySelectorAll('.arc')], mark = (is) => arcs.forEach((it) => {
    it.classList.toggle('on', is && it.dataset.duty === row.dataset.duty);
    it.classList.toggle('dim', is && it.dataset.duty !== row.dataset.duty);
  });
  row.onmouseenter = () => mark(true);
  row.onmouseleave = () => mark(false);
}
"""


class Row:
    """A line of a trace: its parts, what is said of it, and how deep it stands."""

    def __init__(self, line, note):
        number, self.actor, self.name, status, rest = LINE.fullmatch(line).groups()
        tails = DUTIES.search(rest)
        self.line, self.number, self.status = line, int(number), int(status)
        self.result, self.minus, self.plus = rest[: tails.start()], tails[1][2:], tails[2][2:]
        self.note, _, self.why = note.partition(REFUSED)
        self.depth, self.duty = 0, self.plus or self.minus

    def is_refused(self):
        """Whether the line tells a refusal."""
        return self.status != 0 and self.name not in ("begin", "end")

    def words(self):
        """Returns what is written for the line."""
        if self.name == "begin":
            cause, addon, entry, duty = CAUSE.fullmatch(self.result).groups()
            text = f"{cause}  addon {addon} entry {entry}" + (f"  {duty}" if duty else "") + (f"  {self.note}" if self.note else "")
        elif self.name in HOST or self.actor[0] == "w":
            text = self.name + ("" if self.result == "-" else f"  {self.result}")
        else:
            text = (self.note or self.name) + ("" if self.result == "-" or self.is_refused() else f"  = {self.result}")
        if self.is_refused():
            text += f"  {self.status} {self.why}"
        text += "".join(f"  {sign}{duty}" for sign, duty in (("-", self.minus), ("+", self.plus)) if duty)
        return text if len(text) <= MOST_LETTERS else text[: MOST_LETTERS - 2] + " .."

    def wide(self):
        """Returns how wide the line is, with what is left free before it."""
        return LETTER * len(self.words()) + INDENT * self.depth

    def kind(self):
        """Returns the class by which the line is drawn."""
        return "refused" if self.is_refused() else "host" if self.name in HOST else "head" if self.name == "begin" else ""


class Frame:
    """A frame: from which row to which, how deep, and its cause."""

    def __init__(self, begin, depth, cause, end):
        self.begin, self.depth, self.cause, self.end = begin, depth, cause, end


class Drawing:
    """What is drawn: the rows, the frames, the phases, and where each duty was made, withdrawn, begun and started."""

    def __init__(self, told):
        self.all = list(told)
        self.rows = [Row(line, note) for line, note in self.all[:MOST_ROWS]]
        self.frames, self.phases, self.made, self.gone, self.begun, self.started = [], [("init", 0)], {}, {}, {}, {}
        self.deepest, stack = 0, []
        for at, row in enumerate(self.rows):
            self.take(at, row, stack)
        found = {it.actor for it in self.rows} | {"env"}
        self.actors = sorted(found, key=lambda it: (it != "env", it[0], int(it[1:]) if it != "env" else 0))
        self.wide = {it: GAP * 2 + max([90.0, *(row.wide() for row in self.rows if row.actor == it)]) for it in self.actors}
        self.left, x = {}, ARCS + NUMBERS
        for it in self.actors:
            self.left[it] = x
            x += self.wide[it] + GAP
        self.width, self.height = x, len(self.rows) * ROW + 34

    def take(self, at, row, stack):
        """Takes in a row."""
        if row.actor == "env" and row.name in PHASES:
            self.phases.append((PHASES[row.name], at))
        if row.name == "end" and stack:
            stack.pop().end = at
        row.depth = min(len(stack), MOST_DEPTH) if row.actor == "env" else 0
        self.deepest = max(self.deepest, len(stack) + (row.name == "begin"))
        if row.name == "begin":
            cause, _addon, _entry, duty = CAUSE.fullmatch(row.result).groups()
            frame = Frame(at, row.depth, cause, len(self.rows) - 1)
            self.frames.append(frame)
            stack.append(frame)
            if duty:
                self.begun[duty] = at
                row.duty = duty
        if row.plus:
            self.made[row.plus] = at
        if row.minus:
            self.gone[row.minus] = at
        if row.name == "start":
            self.started[row.result], row.duty = at, row.result

    def counts(self):
        """Returns the counts as a text."""
        drawn = "" if len(self.all) == len(self.rows) else f", of which the first {len(self.rows):,} are drawn"
        refused = sum(it.is_refused() for it in self.rows)
        open_ones = [it for it in self.made if it not in self.begun and it not in self.gone]
        left = f"left: {' '.join(open_ones[:20])}" if open_ones else "none left"
        duties = f"{len(self.made)} duties made, {len(self.gone)} withdrawn, {len(self.begun)} begun, {left}"
        return f"{len(self.all):,} lines{drawn}; {len(self.frames)} frames, at most {self.deepest} deep; {refused} calls refused; {duties}."


def tag(name, text=None, **words):
    """Returns an element. `_` stands at the end of a word that Python has."""
    inside = "".join(f' {word.rstrip("_").replace("_", "-")}="{html.escape(str(value))}"' for word, value in words.items() if value != "")
    return f"<{name}{inside}/>" if text is None else f"<{name}{inside}>{text}</{name}>"


def top(at):
    """Returns where a row begins."""
    return 30 + at * ROW


def lanes(it):
    """Yields the lanes of the actors, with their heads."""
    words = {"e": "env", "t": "thread ", "w": "worker "}
    for actor in it.actors:
        head = words[actor[0]] + (actor[1:] if actor != "env" else "")
        yield tag("rect", class_="lane", x=it.left[actor], y=4, width=round(it.wide[actor]), height=it.height - 8, rx=4)
        yield tag("text", head, class_="head", x=it.left[actor] + 8, y=19)


def phases(it):
    """Yields the phases at the left edge."""
    ends = [begin for _, begin in it.phases[1:]] + [len(it.rows)]
    for at, ((name, begin), end) in enumerate(zip(it.phases, ends)):
        yield tag("rect", x=0, y=top(begin), width=14, height=(end - begin) * ROW - 2, fill=TINTS[at % len(TINTS)])
        if end - begin > 2:
            yield tag("text", name, class_="phase", transform=f"translate(4 {top(begin) + 6}) rotate(90)")


def frames(it):
    """Yields the frames of the environment."""
    for frame in it.frames:
        inset = frame.depth * INDENT
        size = {"width": round(it.wide["env"] - 8 - inset * 1.2), "height": (frame.end - frame.begin + 1) * ROW - 2}
        yield tag("rect", class_=f"frame {frame.cause}", x=it.left["env"] + 4 + inset, y=top(frame.begin) + 1, rx=4, **size)


def arc(it, kind, begin, end, duty):
    """Yields an arc from one row to another at the left of the numbers."""
    wide = min(ARCS - 26, 14 + 9 * math.sqrt(abs(end - begin))) * 1.33
    one, other = top(begin) + 9, top(end) + 9
    title = tag("title", f"{duty}: line {it.rows[begin].number} to {it.rows[end].number}")
    line = f"M{ARCS} {one} C{ARCS - wide:.0f} {one},{ARCS - wide:.0f} {other},{ARCS} {other}"
    yield tag("path", title, class_=f"arc {kind}".strip(), d=line, data_duty=duty)
    yield tag("path", class_="tip", d=f"M{ARCS} {other} l-6 -3 l0 6 z")


def arcs(it):
    """Yields an arc for each duty: to where it began or was withdrawn, and from where a work was queued to where it started."""
    for duty, begin in it.made.items():
        if duty in it.begun:
            yield from arc(it, "", begin, it.begun[duty], duty)
        elif duty in it.gone:
            yield from arc(it, "withdrawn", begin, it.gone[duty], duty)
    for duty, at in it.started.items():
        if duty in it.made:
            x, y = it.left["env"] + it.wide["env"] - 4, top(it.made[duty]) + 9
            to, down = it.left[it.rows[at].actor] + 4, top(at) + 9
            yield tag("path", class_="arc starts", d=f"M{x:.0f} {y} C{x + 24:.0f} {y},{to - 24:.0f} {down},{to:.0f} {down}", data_duty=duty)


def rows(it):
    """Yields the lines, each with its number and with all that is said of it behind the pointer."""
    for at, row in enumerate(it.rows):
        x = it.left[row.actor] + 10 + row.depth * INDENT
        title = tag("title", html.escape(f"{row.line}\n{row.note}{REFUSED + row.why if row.why else ''}".strip()))
        number = tag("text", str(row.number), class_="no", x=it.left["env"] - 6, y=top(at) + 13, text_anchor="end")
        text = tag("text", html.escape(row.words()) + title, class_=row.kind(), x=round(x), y=top(at) + 13)
        yield tag("g", number + text, class_="row", data_duty=row.duty)


def picture(told):
    """Returns the picture of a trace: `told` are its lines, each with what is said of it."""
    it = Drawing(told)
    parts = [tag("style", STYLE), tag("rect", class_="paper", width=round(it.width), height=it.height)]
    for part in (lanes, phases, frames, arcs, rows):
        parts += part(it)
    size = {"width": round(it.width), "height": it.height, "viewBox": f"0 0 {it.width:.0f} {it.height}"}
    return tag("svg", "\n".join(parts), xmlns="http://www.w3.org/2000/svg", **size) + "\n"


def page(told, name):
    """Returns a page with the picture of a trace. It needs nothing beside itself."""
    told = list(told)
    said = f"{Drawing(told).counts()} An arc leads from where a duty was made to where it began, and a dashed red one to where it was withdrawn."
    head = f'<!doctype html>\n<meta charset="utf-8">\n<title>{html.escape(name)}</title>\n{tag("style", BODY)}'
    return f"{head}\n<h3>{html.escape(name)}</h3>\n<p>{html.escape(said)}</p>\n{picture(told)}<script>{SCRIPT}</script>\n"
