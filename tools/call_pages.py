"""The parts of the pages that are written from docs/calls.txt and the definitions: how each reads, and where it stands. It is no command."""
import itertools
import re

import call_table
import definitions
import pages

WIDTH = 160
BEGIN, END = "<!-- tools/calls writes: {} -->", "<!-- tools/calls wrote this -->"
README = "README.md", re.compile(r"(?<=builds )\d+ \(\d+(?= %\))")
ELSEWHERE = {
    "docs/OPEN.md": re.compile(r"(?<=cannot name )\d+ of the manual's \d+(?= functions)"),
    "docs/MACHINE.md": re.compile(r"(?<=variant for each of the )\d+(?=\.)"),
}
EXAMPLES = {
    "r?": "-1", "w?": "-1", "n": "7", "u": "1", "i": "-3", "b": "true", "t": '"size"', "t?": '"E1"', "e": "0", "e?": "-1", "m": "0",
    "job": '["sum",100]', "rs": "[2,3]",
}


# TABLES
def line_of(cells):
    """Returns a line of a table."""
    return "|" + "|".join(f" {it} " if it else " " for it in cells) + "|"


def places_to_cut(text):
    """Returns the places at which a cell may be cut: the spaces that stand in no brackets and between no backquotes; those behind a `;` alone where there are
    some, or else those behind a `,`."""
    depth, is_code, found = 0, False, []
    for at, letter in enumerate(text):
        is_code ^= letter == "`"
        depth += (letter in "([") - (letter in ")]")
        if letter == " " and depth <= 0 and not is_code:
            found.append(at)
    return next((of for of in ([it for it in found if text[it - 1] == sign] for sign in ";,") if of), found)


def cut(cells):
    """Returns the longest cell that may be cut, as its number, and the place of its last cut; None where there is no such cell."""
    found = [(len(it), at, places[-1]) for at, it in enumerate(cells) for places in [places_to_cut(it)] if places]
    return max(found)[1:] if found else None


def folded(cells):
    """Yields the lines of a row: where it is too long the ends of its cells stand in lines below it, in which all else is empty."""
    cells, rest = list(cells), [""] * len(cells)
    while len(line_of(cells)) > WIDTH and cut(cells):
        at, place = cut(cells)
        rest[at] = f"{cells[at][place + 1 :]} {rest[at]}".strip()
        cells[at] = cells[at][:place]
    yield line_of(cells)
    if any(rest):
        yield from folded(rest)


def table(head, rows):
    """Returns the lines of a table."""
    return [line_of(head), "|" + "---|" * len(head), *(line for it in rows for line in folded(it))]


def named(function):
    """Returns words that say since which version the manual has a function, where that is no version 9."""
    return f" (from version {function.since} on)" if function.since > call_table.FIRST_VERSION else ""


# FORMATS
def example(name, forms):
    """Returns an operation of this name with arguments of these forms."""
    registers, found = itertools.count(1), []
    for form in forms:
        found.append(EXAMPLES.get(form) or str(next(registers)))
    return "`[" + ",".join([f'"{name}"', *found]) + "]`"


def by_forms(table_of_forms):
    """Returns the rows of a table of operations, by the forms of the arguments."""
    groups = {}
    for name, forms in table_of_forms.items():
        groups.setdefault(tuple(forms), []).append(name)
    ordered = sorted(groups.items(), key=lambda it: len(it[0]))
    return [[f"`{' '.join(forms)}`" if forms else "none", ", ".join(f"`{it}`" for it in names), example(names[0], forms)] for forms, names in ordered]


def operations():
    """Returns the table of the operations of an addon."""
    return table(["Arguments", "Operations", "An example, of the first"], by_forms(pages.operations()[0]))


def thread_operations():
    """Returns the table of the operations of a thread."""
    return table(["Arguments", "Operations", "An example, of the first"], by_forms(pages.operations()[1]))


def operation_cell(call):
    """Returns an operation with the forms of its arguments, and their names."""
    names = f" ({', '.join(call.names)})" if call.names else ""
    return "`[" + ", ".join([f'"{call.name}"', *call.forms()]) + "]`" + names + named(call)


def trace_cell(call):
    """Returns what the trace has for the result of a call."""
    trace, note = call.result.trace, call.note
    return f"{trace}, {note}" if note and "`" in trace else note or trace


def by_heading(cells_of, functions, columns):
    """Returns the rows of a table with a row of its own for each heading."""
    rows = []
    for heading, of in itertools.groupby(functions, lambda it: it.heading):
        first, colon, second = heading.partition(": ")
        rows += [[f"**{first}**{colon}{second}", *[""] * (columns - 1)], *map(cells_of, of)]
    return rows


def calls():
    """Returns the table of calls of FORMATS."""

    def cells_of(call):
        return [operation_cell(call), "; ".join(call.refusals), trace_cell(call), call.result.kept]

    return table(["Operation", "Refusals of its own", "Result in the trace", "Kept in `w`"], by_heading(cells_of, call_table.calls(), 4))


def registering():
    """Returns the sentence that lists the calls that register."""
    found = {}
    for it in call_table.calls():
        found.setdefault(definitions.facts_of(it.name).registers, []).append(f"`{it.name}`")
    always, with_finalizer = found.pop("true"), [it for text, names in found.items() if text != "false" for it in names]
    return filled(f"These register: {listed(always)}; and {listed(with_finalizer)} where they name a finalizer.")


def listed(words):
    """Returns words as a list in a sentence."""
    return f"{', '.join(words[:-1])} and {words[-1]}" if len(words) > 1 else words[0]


def filled(text):
    """Returns a paragraph as lines that are not too long."""
    lines = [""]
    for word in text.split(" "):
        if len(lines[-1]) + len(word) >= WIDTH:
            lines.append("")
        lines[-1] = f"{lines[-1]} {word}".strip()
    return lines


# NODE
def answers_cell(call):
    """Returns the statuses with which a call is refused: for its moment, for what is unknown, and its own."""
    facts = definitions.facts_of(call.name)
    moment = {"true": ["9 in the teardown"], "false": []}.get(facts.registers, ["9 with a finalizer, in the teardown"])
    return "; ".join([*([] if facts.guarded else moment), *(["1 unknown"] if facts.names_some else []), *call.refusals])


def node_calls():
    """Returns the table of calls of NODE."""

    def cells_of(call):
        guarded = "yes" if definitions.facts_of(call.name).guarded else "no"
        name = call.manual if call.is_of_manual() else call.name
        return [f"`{name}`{named(call)}", guarded, answers_cell(call), call.result.issues]

    return table(["Call", "Guarded", "Answers beside 0", "Issues"], by_heading(cells_of, call_table.calls(), 4))


def counts():
    """Returns how many functions the manual has, how many of them are built, and how many of a hundred these are."""
    of_manual = [it for it in call_table.functions() if it.is_of_manual()]
    built = sum(1 for it in of_manual if it.name)
    return len(of_manual), built, round(100 * built / len(of_manual))


def functions():
    """Returns the paragraph and the table of NODE that tell which functions are here."""
    of_manual = [it for it in call_table.functions() if it.is_of_manual()]
    total, built, percent = counts()
    versions = sorted({it.since for it in of_manual})
    many = [f"{sum(1 for it in of_manual if it.since <= version)} functions at version {version}" for version in versions]
    text = (
        f"The manual has {listed(many)}: those that Node's headers declare with `NAPI_VERSION` {listed([str(it) for it in versions])}, the macros of "
        f"module registration left aside. Of these {built} are built ({percent} %). The other {total - built} are not here: a script cannot name them. "
        "The headings are the manual's."
    )
    rows = []
    for heading, of in itertools.groupby(of_manual, lambda it: it.heading.partition(": ")[0]):
        of = list(of)
        here = sum(1 for it in of if it.name)
        rows.append([heading, str(here or ""), ", ".join(f"`{it.manual}`{named(it)}" for it in of if not it.name)])
    rows.append(["**all**", f"**{built}**", f"**{total - built}**"])
    return [*filled(text), "", *table(["Heading", "Built", "Not here"], rows)]


def statuses():
    """Returns the table of the statuses that calls answer, and of that of a cancelled work, with their numbers."""
    names = {name for it in definitions.facts().values() for name in it.statuses_by_name}
    names |= {"Ok", "InvalidArg", "Cancelled", *definitions.moment_statuses()}
    found = sorted((number, name) for name, number in definitions.status_numbers().items() if name in names)
    cells = [[str(number), f"`napi{re.sub('[A-Z]', lambda it: f'_{it[0].lower()}', name)}`"] for number, name in found]
    half = (len(cells) + 1) // 2
    return table(["Number", "Name"] * 2, [left + right for left, right in itertools.zip_longest(cells[:half], cells[half:], fillvalue=["", ""])])


# EMBEDDING
def results():
    """Returns the table of the results of calls."""
    rows = []
    for result in call_table.results():
        names = [f"`{it.name}`" for it in call_table.calls() if it.result is result]
        rows += [[result.addon, ", ".join(names)]] if names else []
    return table(["`Out`", "Of which calls"], rows)


def changes():
    """Returns the table of MACHINE that tells what calls change: those that change the same stand in one row, and those that change nothing in the last."""
    rows = {}
    for call in call_table.calls():
        rows.setdefault(call.change, []).append(f"`{call.name}`")
    return table(["Call", "Change"], [[", ".join(names), change or "none"] for change, names in sorted(rows.items(), key=lambda it: it[0] is None)])


PARTS = {
    "docs/FORMATS.md": {"operations": operations, "operations of a thread": thread_operations, "calls": calls, "calls that register": registering},
    "docs/NODE.md": {"functions": functions, "calls": node_calls, "statuses": statuses},
    "docs/EMBEDDING.md": {"results": results},
    "docs/MACHINE.md": {"changes": changes},
}


class NoPart(Exception):
    """A page has not the lines between which a part is written."""


def with_part(path, text, name, lines):
    """Returns the text of a page with these lines as the part of this name."""
    begin, end = f"{BEGIN.format(name)}\n\n", f"\n\n{END}\n"
    before, found, rest = text.partition(begin)
    _old, ended, after = rest.partition(end)
    if not found or not ended or begin in after:
        raise NoPart(f"{path} has not the lines {BEGIN.format(name)} and {END}, once, with an empty line behind and before")
    return before + begin + "\n".join(lines) + end + after


def page_of(path):
    """Returns what a page has to be."""
    text = pages.text_of(path)
    for name, lines in PARTS[path].items():
        text = with_part(path, text, name, lines())
    return text


def numbers():
    """Returns the numbers of calls and functions that stand between fixed words of other pages, by their paths."""
    total, built, percent = counts()
    return {README[0]: f"{built} ({percent}", "docs/OPEN.md": f"{total - built} of the manual's {total}", "docs/MACHINE.md": str(len(call_table.calls()))}


def with_numbers(path, pattern, text):
    """Returns a text of a page with these numbers where the words stand, if they stand there."""
    return pattern.sub(numbers()[path], text)


def written():
    """Returns what each page has to be, by its path."""
    path, pattern = README
    if len(pattern.findall(pages.text_of(path))) != 1:
        raise NoPart(f"{path} has not the words `builds N (P %)`, once")
    parts = {it: page_of(it) for it in PARTS}
    return {**parts, **{it: with_numbers(it, of, parts.get(it) or pages.text_of(it)) for it, of in {path: pattern, **ELSEWHERE}.items()}}
