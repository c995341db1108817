"""Says of a script that the program refuses what is wrong with it, and where. It is no command."""
import difflib
import json
import re

import pages
import places

BREAK = re.compile(r"[ \t\r]*\n[ \t\r\n]*")
LONGEST_SOURCE = 4_194_304
WIDTH = 100


class Script:
    """A script that is refused: its text, and its value where it is a JSON text."""

    def __init__(self, text):
        self.text, self.value = text, places.value_of(text)

    def at(self, path):
        """Returns what stands at a path, a list of names and numbers as texts, or None where nothing does."""
        value = self.value
        for step in path:
            try:
                value = value[int(step)] if isinstance(value, list) else value[step]
            except (KeyError, IndexError, ValueError, TypeError):
                return None
        return value

    def place(self, path):
        """Returns the line and the column at which the value of a path begins."""
        return placed(self.text, places.find(self.text, path)[0])

    def shown(self, path):
        """Returns the line of what stands at a path: its place, and its text, of which a long one is cut."""
        begin, end = places.find(self.text, path)
        text = BREAK.sub(" ", self.text[begin : min(end, begin + WIDTH)])
        return f"  {placed(self.text, begin)}: {text}{' ..' if end > begin + WIDTH else ''}"

    def many(self, path):
        """Returns how many values the list at a path has, and 0 where no list is there."""
        value = self.at(path)
        return len(value) if isinstance(value, list) else 0


def placed(text, at):
    """Returns a place as a line and a column."""
    return "line {}, column {}".format(*places.line_and_column(text, at))


def is_whole(value, least, most):
    """Whether a value is a whole number between these two."""
    return isinstance(value, int) and not isinstance(value, bool) and least <= value <= most


def is_job(value):
    """Whether a value is the job of a work."""
    if not isinstance(value, list) or value[:1] not in (["sum"], ["mix"]):
        return False
    numbers = value[1:]
    return len(numbers) == (1 if value[0] == "sum" else 2) and fits("n", numbers[0], 0) and is_whole(numbers[-1], 0, pages.most_times())


def fits(form, value, entries):
    """Whether an argument has this form, where its addon has so many entries."""
    if form.endswith("?"):
        return is_whole(value, -1, -1) or fits(form[:-1], value, entries)
    if form in ("b", "t"):
        return isinstance(value, bool if form == "b" else str) and not isinstance(value, places.Written)
    if form == "rs":
        return isinstance(value, list) and len(value) <= 4 and all(fits("r", it, 0) for it in value)
    if form == "job":
        return is_job(value)
    return is_whole(value, *{"e": (0, entries - 1), "m": (0, 1)}.get(form) or pages.range_of(form))


def plural(many, what):
    """Returns a count of something."""
    return f"{many:,} {what if many == 1 else what.removesuffix('y') + 'ies' if what.endswith('y') else what + 's'}"


def of_forms(forms, wrong=()):
    """Yields a line for each argument that an operation may have, with a mark at those that are wrong."""
    for number, form in enumerate(forms, 1):
        yield f"    {form:4} {pages.meanings()[form].replace('`', '')}{'  <- wrong' if number in wrong else ''}"


def of_name(operation, table):
    """Yields what is said of an operation that begins with no name of the table."""
    name = operation[0] if isinstance(operation, list) and operation else None
    if not isinstance(name, str):
        yield "  an operation is an array of a name and arguments, as [\"create_object\",1]"
        return
    bare = name.removeprefix("napi_")
    near = difflib.get_close_matches(bare, table, 1)
    yield f"  no operation here has the name {json.dumps(name, ensure_ascii=False)}{f'; {near[0]} is near' if near else ''}"
    if f"`napi_{bare}`" in " ".join(pages.part_of("docs/NODE.md", "## Which functions are here")):
        yield f"  the manual has napi_{bare}, which is not here: docs/NODE.md, \"Which functions are here\""


def of_operation(script, path):
    """Yields what is wrong with an operation: its name, how many arguments it has, or the form of one."""
    operation = script.at(path)
    of_addons, of_threads = pages.operations()
    table = of_threads if path[0] == "threads" else of_addons
    name = operation[0] if isinstance(operation, list) and operation else None
    if not isinstance(name, str) or name not in table:
        yield from of_name(operation, table)
        return
    forms, given = table[name], operation[1:]
    if len(given) != len(forms):
        yield f"  {name} takes {plural(len(forms), 'argument')}, and {len(given)} stand{'s' if len(given) == 1 else ''} there:"
        yield from of_forms(forms)
        return
    entries = script.many(["addons", path[1], "entries"])
    wrong = [at for at, form in enumerate(forms, 1) if not fits(form, given[at - 1], entries)]
    for number in wrong:
        line = script.shown([*path, str(number)]).strip()
        end = f"; the addon has {plural(entries, 'entry')}" if forms[number - 1].startswith("e") else ""
        yield f"  argument {number} of {name} has the wrong form, {line}{end}"
    yield from of_forms(forms, wrong)


def wanted():
    """Returns what each part of a script has to be, by its path with letters for numbers, that of the root being `-`."""
    members = dict(pages.tables_of(pages.part_of("docs/FORMATS.md", "## The script"))[0])
    operations, of_thread = pages.most_of("operations;"), pages.most_of("operations of a thread")
    return {
        "-": "an object with the members version, workers, addons and threads, perhaps with schedule, and with no other",
        **{name.strip("`"): meaning.replace("`", "") for name, meaning in members.items()},
        "addons/A": "an object with exactly the two members name and entries",
        "addons/A/name": "a text",
        "addons/A/entries": f"an array of at most {pages.most_of('entries')} entries",
        "addons/A/entries/E": f"an entry, an array of at most {operations:,} operations",
        "threads/T": f"an array of at most {of_thread:,} operations of a thread",
        "schedule/S": "an actor of the script: env, and as many of t0, t1 .. and of w0, w1 .. as it has threads and workers",
    }


def kind_of(path):
    """Returns the path of a part with letters for its numbers."""
    letters = iter({"addons": "AEO", "threads": "TO", "schedule": "S"}.get(path[0] if path else "", ""))
    return "/".join(next(letters) if step.isdigit() else step for step in path) or "-"


def of_members(script, path):
    """Yields which members of an object are wrong: those that it has not and those that it may not have."""
    names = ["name", "entries"] if path else ["version", "workers", "addons", "threads"]
    others = [] if path else ["schedule"]
    value = script.at(path)
    for name in value if isinstance(value, dict) else ():
        if name not in names + others:
            yield f"  the member {json.dumps(name, ensure_ascii=False)} is none of these, {script.shown([*path, name]).strip()}"
    for name in names if path and isinstance(value, dict) else ():
        if name not in value:
            yield f"  the member {json.dumps(name)} is missing"


def of_shape(script, path):
    """Yields what is said of a part of the wrong form."""
    if places.find(script.text, path) is None:
        yield script.shown(path[:-1])
        yield f"  the member {json.dumps(path[-1])} is missing. It has to be {wanted()[kind_of(path)]}"
        return
    yield script.shown(path)
    if kind_of(path).endswith("/O"):
        yield from of_operation(script, path)
        return
    yield f"  it has to be {wanted()[kind_of(path)]}"
    if kind_of(path) in ("-", "addons/A"):
        yield from of_members(script, path)


def entry_paths(script):
    """Yields the path of each entry, in their order."""
    for addon in range(script.many(["addons"])):
        for entry in range(script.many(["addons", str(addon), "entries"])):
            yield ["addons", str(addon), "entries", str(entry)]


def limits(script, name):
    """Yields, of each list of this name in their order, its path, how many it has, what, and the most that it may have."""
    if name in ("addons", "threads", "schedule"):
        what, most = {"addons": ("addon", "objects"), "threads": ("thread", "arrays"), "schedule": ("word", "words")}[name]
        yield [name], script.many([name]), what, pages.most_of(most)
    if name == "entries":
        for addon in range(script.many(["addons"])):
            path = ["addons", str(addon), "entries"]
            yield path, script.many(path), "entry", pages.most_of("entries")
    if name == "operations":
        for path in entry_paths(script):
            yield path, script.many(path), "operation", pages.most_of("operations;")
        for thread in range(script.many(["threads"])):
            path = ["threads", str(thread)]
            yield path, script.many(path), "operation", pages.most_of("operations of a thread")


def of_limit(script, name):
    """Yields what is said of a list that is too long, or of too many workers."""
    if name == "workers":
        yield script.shown([name])
        yield f"  {script.at([name]):,} workers are asked for, and at most {pages.most_of('workers')} may be"
        return
    for path, many, what, most in limits(script, name):
        if many > most:
            yield script.shown(path)
            yield f"  {plural(many, what)} stand there, and at most {most:,} may; {script.place([*path, str(most)])} has the first too many"
            return
    yield script.shown([name])
    yield f"  the script has {plural(script.many([name]), 'addon')}, and fewer were handed in"


def said(given, line):
    """Yields what is said of a script, the bytes that were given, which the program refuses by this line."""
    text = given.decode("utf-8", errors="surrogateescape")
    yield line
    words = line.split()
    if words[:1] != ["refused"]:
        return
    if words[1:] == ["json"]:
        at, why = places.no_json(text)
        yield f"  {placed(text, at)}: {why}"
    elif words[1:] == ["length"]:
        yield f"  {len(given):,} bytes are there, and at most {LONGEST_SOURCE:,} may be"
    elif words[1] == "shape":
        yield from of_shape(Script(text), [] if words[2] == "-" else words[2].split("/"))
    elif words[1] == "limit":
        yield from of_limit(Script(text), words[2])
