"""What the tools read of calls in the definitions of napi_types: the clauses of each definition, and what those of a call come to. It is no command."""
import collections
import functools
import glob
import re

import pages

HEAD = re.compile(r"(?:abbrev|unfoldable) pub (\w+) :")
VARIANT = re.compile(r"\bcall\.(\w+)")
WORD = re.compile(r"(?<![\w.)])(?:(status|out)\.(\w+)|(\d+)\b|([a-z_]\w*)\b(?! *=[^=]))")
IS_THERE = re.compile(r"\bunless \(is_some \(((?:[^()]|\([^()]*\))+)\)\)")
FIELD = re.compile(r"(\w+) = (.*?)(?=; \w+ = |;? *}$)", re.S)
FORMS = {
    "register": "r", "register_or_none": "r?", "whole": "n", "short": "u", "signed": "i", "flag": "b", "text_argument": "t", "text_or_none": "t?",
    "entry_number": "e", "entry_or_none": "e?", "mode_number": "m", "release_number": "m", "job_in": "job", "registers_in": "rs",
}
ARGUMENT = re.compile(rf"\b({'|'.join(FORMS)}) (?:entries )?([a-g])\b")
KEPT = {"r": "w", "r?": "w?"}


class Clause:
    """A clause of a definition: its left side, and its right side."""

    def __init__(self, left, right):
        self.left, self.right = left, right

    def has(self, word):
        """Returns whether a word stands on its left side."""
        return re.search(rf"(?<!\w){re.escape(word)}(?!\w)", self.left) is not None


class NoDefinition(Exception):
    """A definition on which a comparison stands is not there."""


def clauses_in(text):
    """Yields each clause of a file of definitions, with the name of its definition."""
    name, clause = None, None
    for line in text.split("\n") + ["-- end"]:
        head = HEAD.match(line)
        if clause and not line.startswith(" "):
            left, _equals, right = clause.partition(" = ")
            yield name, Clause(left, right)
            clause = None
        if head:
            name = head[1]
        elif name and line.startswith(f"{name} "):
            clause = line
        elif clause:
            clause += f" {line.strip()}"


@functools.cache
def definitions():
    """Returns the clauses of each definition by its name."""
    found = collections.defaultdict(list)
    for path in sorted(glob.glob(f"{pages.TOP}/{pages.SPECS}/**/*.antt", recursive=True)):
        for name, clause in clauses_in(pages.text_of(path.removeprefix(f"{pages.TOP}/"))):
            found[name].append(clause)
    return dict(found)


def clauses_of(name):
    """Returns the clauses of a definition that has to be there."""
    if name not in definitions():
        raise NoDefinition(f"{pages.SPECS} has no definition {name}")
    return definitions()[name]


def clauses_for(name, variant):
    """Returns the clauses of a definition that speak of a call: all, where none names calls; else those that name this one, or those that name none."""
    of = clauses_of(name)
    if not any(VARIANT.search(it.left) for it in of):
        return of
    return [it for it in of if it.has(f"call.{variant}")] or [it for it in of if not VARIANT.search(it.left)]


def right_of(name, word):
    """Returns the right side of the clause of a definition that has this word on its left side, or of its last clause where none has."""
    of = clauses_of(name)
    return next((it.right for it in of if it.has(word)), of[-1].right)


def words_of(text, variant, seen, bound=(), there=()):
    """Yields what a text of the definitions comes to for a call, in its order: each status, `Out` and number, as `status` and its name. What a definition that
    it names comes to stands in its place, but for those that were seen before, and for names that are bound there. One that is given something that is there
    comes to nothing by its clauses for `None`."""
    bound = {*bound, *re.findall(r"\w+", " ".join(re.findall(r"λ ([\w ]+)\.", text)))}
    for kind, name, digits, word in WORD.findall(text):
        if kind or digits:
            yield kind or "number", name or int(digits)
        elif word in definitions() and word not in bound and word not in seen:
            seen.add(word)
            is_there = any(re.search(rf"\b{word} [^()]*\({re.escape(it)}\)", text) for it in there)
            for clause in clauses_for(word, variant):
                if not (is_there and clause.has("None")):
                    yield from words_of(clause.right, variant, seen, re.findall(r"\w+", clause.left), there)


def without_accepted(text):
    """Returns a text of the definitions without what a call answers where it is accepted, which stands in brackets of its own."""
    begin = text.find("(accepts ")
    if begin < 0:
        return text
    depth, end = 0, begin
    for end in range(begin, len(text)):
        depth += (text[end] == "(") - (text[end] == ")")
        if depth == 0:
            break
    return text[:begin] + without_accepted(text[end + 1 :])


def parts_of(text):
    """Returns the fields that the text of a record names, by their names; a text that is no record has none."""
    return dict(FIELD.findall(text)) if text.startswith("record") else {}


@functools.cache
def status_numbers():
    """Returns the number of each status by its name."""
    return {re.search(r"status\.(\w+)", it.left)[1]: int(it.right) for it in clauses_of("status_number")}


def moment_statuses():
    """Returns the statuses of the refusals of calls that come at a wrong moment."""
    return {name for kind, name in words_of("refusal_by_moment", "", set()) if kind == "status"}


class Facts:
    """What the definitions tell of a call: its variant; whether it is guarded, and whether it registers, always or with a finalizer; whether a handle or a
    reference that it names may be unknown; the statuses of its own refusals in their order; the numbers in those; and the variants of `Out` that it gives."""

    def __init__(self, variant):
        self.variant = variant
        row = clauses_for("facts_of", variant)[0].right
        fields, group = parts_of(row), re.search(r"\bin_group (\w+)", row)
        if not group:
            raise NoDefinition(f"`facts_of` tells no group of {variant}")
        self.group = group[1]
        self.guarded = fields.get("guarded") == "true"
        self.registers = fields.get("registers", "false")
        self.names_some = "handles" in fields or "references" in fields
        self.find_refusals()

    def refusing(self):
        """Yields the texts of what refuses it, beside the moment and what is unknown, in their order."""
        heap = parts_of(clauses_of(right_of("heap_group", self.group).strip())[0].right)
        yield from (heap[it] for it in ("expects", "refuses") if it in heap)
        yield parts_of(self.told()).get("refuses", "")
        yield "depth_refusal"
        yield from (without_accepted(it.right) for it in clauses_for("hub_answer", self.variant))
        if not self.answers():
            yield "call_end_change"

    def told(self):
        """Returns the text of what the environment tells of its group."""
        text = right_of("call_group", self.group).strip()
        return clauses_of(text)[0].right if text in definitions() else text

    def answering(self):
        """Yields the texts of what answers it, where nothing refuses it."""
        heap = parts_of(clauses_of(right_of("heap_group", self.group).strip())[0].right)
        told = self.told()
        yield heap.get("answers", "")
        yield parts_of(told).get("answers", told)
        yield from (it.right for it in clauses_for("hub_answer", self.variant))

    def there(self):
        """Returns what is there where it is not refused, as its own refusals for want of that name it."""
        named = [it for it in re.findall(r"\w+", parts_of(self.told()).get("refuses", "")) if it in definitions()]
        return {it for name in named for clause in clauses_for(name, self.variant) for it in IS_THERE.findall(clause.right)}

    def answers(self):
        """Returns the variants of `Out` that it gives at once; a call of a function gives none."""
        seen, there = {"refuses"}, self.there()
        return {name for it in self.answering() for kind, name in words_of(it, self.variant, seen, there=there) if kind == "out"}

    def outs(self):
        """Returns the variants of `Out` that it gives: where it gives none at once, what the end of the frame that it enters gives at the status 0."""
        ends = [it for name in ("call_end_change", "uncut_call_end") for it in clauses_of(name) if "status.Ok" in it.right]
        return self.answers() or set(re.findall(r"out\.(\w+)", " ".join(it.right for it in ends)))

    def find_refusals(self):
        """Finds the statuses of its own refusals, and the numbers in those."""
        numbers, found, seen = status_numbers(), [], {"unknown_reference"}
        for text in self.refusing():
            found += words_of(text, self.variant, seen)
        self.statuses_by_name = [name for kind, name in found if kind == "status" and name != "Ok"]
        self.statuses = [str(numbers[it]) for it in self.statuses_by_name]
        self.numbers = {name for kind, name in found if kind == "number"}


@functools.cache
def names():
    """Returns the name of each call by its variant."""
    return {VARIANT.search(it.left)[1]: re.search(r'"(\w+)"', it.right)[1] for it in clauses_of("call_name")}


@functools.cache
def facts():
    """Returns what the definitions tell of each call by its name."""
    return {name: Facts(variant) for variant, name in names().items()}


def facts_of(name):
    """Returns what the definitions tell of a call that has to be there."""
    if name not in facts():
        raise NoDefinition(f"the definitions have no call {name}")
    return facts()[name]


# THE OPERATIONS OF A SCRIPT
def read_forms(text):
    """Returns the forms of the arguments that a text reads, in the order of the arguments."""
    found = sorted((argument, FORMS[form]) for form, argument in ARGUMENT.findall(text))
    return [form for _argument, form in found]


def reading(operation):
    """Returns the text that reads the arguments of an operation: its row's, or that of what the row names, or of what names the row's definition."""
    of = [(name, it) for name, clauses in definitions().items() for it in clauses if it.has(f"op.{operation}") and name.startswith("with")]
    if not of:
        raise NoDefinition(f"{pages.SPECS} reads no operation {operation}")
    name, row = of[0]
    named = [it.right for word in re.findall(r"\w+", row.right) for it in definitions().get(word, ()) if word.startswith("with_") and word != name]
    naming = [it.right for clauses in definitions().values() for it in clauses if re.search(rf"\b{name}\b", it.right)]
    return next((it for it in [row.right, *named, *naming] if read_forms(it)), "")


def kept_at(operation):
    """Returns which arguments of an operation, counted from 0, are registers that keep its result."""
    row = next((it for it in clauses_of("result_registers") if it.has(f"op.{operation}")), None)
    kept = re.findall(r"\w+", row.right) if row else []
    return [at for at, it in enumerate(re.findall(r"[\w']+", row.left.partition(f"op.{operation}")[2])) if it != "_" and it in kept] if row else []


def operation_forms(operation):
    """Returns the forms of the arguments of an operation, with those of the registers that keep its result."""
    found, kept = read_forms(reading(operation)), kept_at(operation)
    return [KEPT.get(form, form) if at in kept else form for at, form in enumerate(found)]


@functools.cache
def forms():
    """Returns the forms of the arguments of each operation of an addon by its name."""
    of_addons = re.findall(r"\bop\.(\w+)", clauses_of("operations")[0].right)
    asks = [(re.search(r"op\.(\w+)", it.left)[1], VARIANT.search(it.right)) for it in clauses_of("operation_ask")]
    return {names()[call[1]]: operation_forms(op) for op, call in asks if call and op in of_addons}


@functools.cache
def thread_forms():
    """Returns the forms of the arguments of each operation of a thread by its name."""
    asks = {re.search(r"op\.(\w+)", it.left)[1]: VARIANT.search(it.right) for it in clauses_of("operation_ask")}
    read = [it.right for name, clauses in definitions().items() for it in clauses if name.startswith("thread_")]
    found = {re.search(r"\bop\.(\w+)", it)[1]: read_forms(it) for it in read if re.search(r"\bop\.\w+", it)}
    return {names()[asks[op][1]]: forms for op, forms in found.items()}


# WHAT AN `OUT` IS
def out_text(out):
    """Returns what a trace has for an `Out`, where that is a word: a number in it is written as N. Of every other one it is None."""
    text = right_of("out_text", f"out.{out}")
    parts = [it.strip() for it in text.split("++")]
    if not parts[0].startswith("codes") or any(not it.startswith(("codes", "decimal")) for it in parts):
        return None
    return "".join("N" if it.startswith("decimal") else it.partition('"')[2].rstrip('"') for it in parts)


def kept_count(out):
    """Returns how many registers keep an `Out`."""
    text = right_of("register_values", f"out.{out}")
    return 0 if text.strip() == "[]" else text.count("∷") + len(re.findall(r"\bsingleton\b", text))
