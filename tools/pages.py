"""What the tools read in the pages of docs/, in the definitions and in the rows of crates/rows_suite. It is no command."""
import functools
import os
import re

TOP = os.path.dirname(os.path.dirname(os.path.abspath(__file__)))
FORM = re.compile(r"`([^`]+)`")
RANGE = re.compile(r"(-?[\d,]+) to (-?[\d,]+)")
BY_HAND, END = "<!-- by hand -->", "<!-- end -->"
SPECS = "crates/napi_types/specs"
RETURN = {"return": ["r?"]}
FACTS = re.compile(r"^facts_of \(?call\.(\w+).*?=(.*?)(?=^facts_of|\Z)", re.M | re.S)


@functools.cache
def text_of(path):
    """Returns what a file of the repository holds; bytes that are not UTF-8 stay what they are."""
    with open(f"{TOP}/{path}", encoding="utf-8", errors="surrogateescape") as it:
        return it.read()


def part_of(path, heading):
    """Returns the lines of a page that stand under this heading, down to the next one."""
    lines = text_of(path).split("\n")
    begin = lines.index(heading) + 1
    end = next((at for at in range(begin, len(lines)) if lines[at].startswith("#")), len(lines))
    return lines[begin:end]


def between(path, begin, end):
    """Returns the lines of a page down to this one, those behind it up to the next one that is the end, and those from there on; no lines where
    the page or the first line is not there."""
    lines = text_of(path).split("\n") if os.path.exists(f"{TOP}/{path}") else []
    if begin not in lines:
        return [], [], []
    first = lines.index(begin) + 1
    last = lines.index(end, first)
    return lines[:first], lines[first:last], lines[last:]


def by_hand(crate):
    """Returns the lines by hand of the page of a crate, and how many lines stand before them."""
    before, part, _behind = between(page_of(crate), BY_HAND, END)
    return part, len(before)


def page_of(crate):
    """Returns where the page of a crate stands."""
    return f"crates/{crate}/CALLING.md"


def tables_of(lines):
    """Returns the tables that stand in these lines: each a list of rows, and a row a list of cells, without head and rule."""
    tables, at = [], 0
    while at < len(lines):
        rows = []
        while at < len(lines) and lines[at].startswith("|"):
            rows.append([it.strip() for it in re.split(r"(?<!\\)\|", lines[at])[1:-1]])
            at += 1
        if rows:
            tables.append(rows[2:])
        at += 1
    return tables


@functools.cache
def operations():
    """Returns, for an addon and for a thread, the forms of the arguments of each operation by its name: those of docs/calls.txt, and of the definitions."""
    import call_table  # which reads this module
    import definitions

    of_addons, of_threads = {it.name: it.forms() for it in call_table.calls()}, definitions.thread_forms()
    return [{**of_addons, **RETURN}, {name: of_threads[name] for name in of_addons if name in of_threads}]


@functools.cache
def meanings():
    """Returns what each form of an argument is, in the words of the page."""
    (table,) = tables_of(part_of("docs/FORMATS.md", "### Arguments"))
    return {form: meaning for forms, meaning in table for form in FORM.findall(forms)}


def number(digits):
    """Returns the number that a page writes with these digits, with a comma before each three."""
    return int(digits.replace(",", ""))


def range_of(form):
    """Returns the least and the most number that an argument of this form may be."""
    return tuple(number(it) for it in RANGE.search(meanings()[form]).groups())


def most_times():
    """Returns the most that the last number of a job may be."""
    return number(re.search(r"at most ([\d,]+)", meanings()["job"])[1])


@functools.cache
def most_of(what):
    """Returns the most of these that a script may have, as `entries`, or `operations;` for those of an entry."""
    text = " ".join(part_of("docs/FORMATS.md", "## The script"))
    found = re.search(rf"at most ([\d,]+) {what}", text) or re.search(rf"`{what}` \|[^|]*?(?:at most|0 to) ([\d,]+)", text)
    return number(found[1])


@functools.cache
def guarded_calls():
    """Returns, of each call by its name, whether it is guarded, as the definitions say it."""
    names = dict(re.findall(r'^call_name \(?call\.(\w+).*= codes "(\w+)"$', text_of(f"{SPECS}/scripts/Names.antt"), re.M))
    calls = FACTS.findall(text_of(f"{SPECS}/plain/CallFacts.antt"))
    return {names[variant]: "guarded = true" in it for variant, it in calls}


def status_names():
    """Returns the manual's name of each status that a call answers, without `napi_`."""
    table = next(it for it in tables_of(part_of("docs/NODE.md", "## The calls")) if it[0][1].startswith("`napi_ok`"))
    return {int(cells[at]): cells[at + 1].strip("`").removeprefix("napi_") for cells in table for at in (0, 2) if cells[at]}


def rows():
    """Returns the name and the script of each row, in their order; the lines of options are left out, and so is each row that asks for no trace."""
    found, options = [], []
    for line in text_of("crates/rows_suite/stdin").split("\n"):
        if line.startswith("@"):
            options = line[1:].split(" ")
        elif line and not line.startswith("#"):
            if not {"word=summary", "word=load"} & set(options):
                found.append(tuple(line.split(" ", 1)))
            options = []
    return found


def results():
    """Returns the status of each row by its name, and what is written."""
    found, name = {}, None
    for line in text_of("crates/rows_suite/stdout").splitlines(keepends=True):
        head = re.fullmatch(r"([a-z0-9_]+) status (\d+)(?: reads \d+)?\n", line)
        if head:
            name = head[1]
            found[name] = int(head[2]), ""
        else:
            found[name] = found[name][0], found[name][1] + line
    return found
