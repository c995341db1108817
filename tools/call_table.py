"""What the tools read in docs/calls.txt, which says each call once. It is no command."""
import functools
import re

import pages

TABLE = "docs/calls.txt"
CALL = re.compile(r"(\w+)\((.*?)\) -> ([A-Z]\w*(?: or [A-Z]\w*)*)(?:, (.*))?")
OWN = "Not in the manual"
FIRST_VERSION = 9


class Result:
    """A result of calls: its name, the variants of `Out` that it may be, the forms of the registers that keep it, what an addon finds, what a trace
    has, what is kept, and what is newly issued."""

    def __init__(self, cells):
        self.name, registers, self.addon, self.trace, self.kept, self.issues = cells
        self.outs, self.registers = self.name.split(" or "), registers.split()


class Function:
    """A function of the manual, or a call of this environment's own: its line, its heading, its name in the manual, and since which version it is there.
    One that is built has its name in a script, the names and the forms of its arguments, its result and what that is, its own refusals, and what it changes."""

    def __init__(self, place, heading, manual):
        self.place, self.heading, self.manual, self.since = place, heading, manual, FIRST_VERSION
        self.name, self.result, self.note, self.names, self.arguments, self.refusals, self.change = None, None, None, [], [], [], None

    def forms(self):
        """Returns the forms of the arguments of its operation, with those of the registers that keep the result."""
        return [*self.arguments, *self.result.registers]

    def statuses(self):
        """Returns the status of each of its own refusals, as digits or what stands in their place."""
        return [it.split(" ", 1)[0] for it in self.refusals]

    def is_of_manual(self):
        """Returns whether the manual has it."""
        return self.heading != OWN


class WrongTable(Exception):
    """A line of the table has not the form that it has to have."""


def lines_of(text):
    """Yields each line of the table with its number; one that begins with spaces belongs to the one before it."""
    at, whole = 0, ""
    for number, line in enumerate(text.split("\n") + [""], 1):
        if line.startswith(" ") and whole:
            whole += f" {line.strip()}"
            continue
        if whole and (whole.startswith("## ") or not whole.startswith("#")):
            yield at, whole
        at, whole = number, line


def result_of(place, line):
    """Returns the result that a line of the first part says."""
    cells = [it.strip() for it in line.split("|")]
    if len(cells) != 6:
        raise WrongTable(f"{place}: a result has six cells, and {len(cells)} stand there")
    return Result(cells)


def arguments_of(place, text):
    """Returns the names of arguments, and their forms."""
    parts = [it.split(" ") for it in text.split(", ")] if text else []
    if any(len(it) != 2 or it[1] not in pages.meanings() for it in parts):
        raise WrongTable(f"{place}: an argument is a name and a form of FORMATS, and {text} is none")
    return [it[0] for it in parts], [it[1] for it in parts]


def function_of(place, heading, line, results):
    """Returns the function that a line of the other parts says."""
    first, *cells = line.split(" | ")
    since = cells.pop().removeprefix("since ") if cells and cells[-1].startswith("since ") else str(FIRST_VERSION)
    change = cells.pop().removeprefix("=> ") if cells and cells[-1].startswith("=> ") else None
    head = CALL.fullmatch(first)
    if first.startswith("- ") and not cells and not change:
        found = Function(place, heading, first.removeprefix("- "))
    elif head and head[3] in results and len(cells) <= 1:
        found = Function(place, heading, head[1] if heading == OWN else f"napi_{head[1]}")
        found.name, found.result, found.note = head[1], results[head[3]], head[4]
        found.names, found.arguments = arguments_of(place, head[2])
        found.refusals, found.change = cells[0].split("; ") if cells else [], change
    else:
        raise WrongTable(f"{place}: this is no line of a function: {line}")
    if not since.isdigit() or not all(it.isdigit() for it in found.statuses()):
        raise WrongTable(f"{place}: a number has to stand behind `since`, and each refusal begins with one")
    found.since = int(since)
    return found


@functools.cache
def table():
    """Returns the results by their names, and all functions in their order."""
    results, found, heading = {}, [], None
    for number, line in lines_of(pages.text_of(TABLE)):
        place = f"{TABLE}:{number}"
        if line.startswith("## "):
            heading = line.removeprefix("## ")
        elif heading == "Results":
            it = result_of(place, line)
            results[it.name] = it
        else:
            found.append(function_of(place, heading, line, results))
    return results, found


def results():
    """Returns the results in their order."""
    return list(table()[0].values())


def functions():
    """Returns all functions in their order."""
    return table()[1]


def calls():
    """Returns the functions that are built, in their order."""
    return [it for it in functions() if it.name]
