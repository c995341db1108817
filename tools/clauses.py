"""What the tools read in the code and in the definitions: functions and types with their docstrings and clauses, and records with their fields. It is
no command."""
import functools
import glob
import os
import re

import pages

FUNCTION = re.compile(r"( *)(?:pub(?:\([a-z]+\))? )?fn (\w+)")
OWNER = re.compile(r"(?:pub(?:\([a-z]+\))? )?(?:impl\b(?P<impl>.*)|trait (?P<trait>\w+))")
CLAUSE = re.compile(r" +(requires|ensures)\*?(?: (\w+))? \{")
DOCUMENT = re.compile(r" */// ?(.*)")
SIGNED = re.compile(r"[{;}]$|\)(?: -> .*[^,(<])?$")
HEAD = re.compile(r"(?://!|--) ?(.*)")
DEFINITION = re.compile(r"(?:abbrev|unfoldable) pub (\S+)|pub (?:record|data) (\S+)")
FIELD = re.compile(r"  pub (\w+) :")


class Function:
    """A function: its crate, the type or the trait that has it, the trait whose method it is, its name, its docstring, its place in the file, the lines of its
    signature and of its contract, and the names of its clauses, of which one may be None: those that it asks for, those that it promises, and all."""

    def __init__(self, crate, owner, trait, name, text):
        self.crate, self.owner, self.trait, self.name, self.text, self.at = crate, owner, trait, name, text, 0
        self.signature, self.contract, self.asked, self.promised, self.clauses = [], [], [], [], []
        self.is_open = True

    def __str__(self):
        return f"{self.owner}::{self.name}" if self.owner else self.name

    def is_public(self):
        """Returns whether the function itself is marked as public, or is one of a trait."""
        return self.signature[0].startswith("pub fn") or self.owner is not None and self.owner == self.trait

    def take(self, line):
        """Takes in a line behind the name: one more of the signature, of the contract, or of the body, which is left aside."""
        clause, line = CLAUSE.match(line), line.strip()
        if clause and self.is_open:
            self.clauses.append(clause[2])
            (self.asked if clause[1] == "requires" else self.promised).append(clause[2])
        if self.clauses and self.is_open and not line.startswith("//"):
            self.contract.append(line)
        elif not self.clauses and not SIGNED.search(self.signature[-1]):
            self.signature.append(line)
        self.is_open = self.is_open and line != "{" and not line.endswith("};")


def owner_of(head):
    """Returns the type and the trait of an `impl`, or the name of a trait as both."""
    if head["trait"]:
        return head["trait"], head["trait"]
    text, depth, plain = head["impl"], 0, ""
    for letter in text:
        depth += letter == "<"
        plain += letter if depth == 0 else ""
        depth -= letter == ">"
    words = re.findall(r"\w+", plain)
    return (words[2], words[0]) if words[1:2] == ["for"] else (words[0], None)


def functions_in(crate, path):
    """Returns the functions of a file of code."""
    found, owner, trait, now, text = [], None, None, None, []
    for at, line in enumerate(pages.text_of(path).split("\n")):
        head, begun, document = OWNER.match(line), FUNCTION.match(line), DOCUMENT.match(line)
        if head:
            owner, trait = owner_of(head)
        elif line == "}":
            owner, trait = None, None
        if begun:
            now = Function(crate, owner, trait, begun[2], text)
            now.signature.append(line.strip())
            now.at = at
            found.append(now)
        elif now:
            now.take(line)
        text = text + [document[1]] if document else text if line.lstrip().startswith("#[") else []
    return found


def files_of(crate, side, ending):
    """Returns the files of a crate on one side, as `src`, named from the top on."""
    paths = glob.glob(f"{pages.TOP}/crates/{crate}/{side}/**/*.{ending}", recursive=True)
    return sorted(os.path.relpath(it, pages.TOP) for it in paths)


@functools.cache
def uses():
    """Returns on what each crate stands, by its name, in the order of crates.txt."""
    lines = [line.partition("#")[0].partition(":") for line in pages.text_of("crates.txt").split("\n")]
    return {name.split()[0]: used.split() for name, _colon, used in lines if name.strip()}


def crates():
    """Returns the names of all crates."""
    return list(uses())


@functools.cache
def functions():
    """Returns all functions of the code. A method without clauses has those of its trait."""
    found = [it for crate in crates() for path in files_of(crate, "src", "rt") for it in functions_in(crate, path)]
    of_traits = {(it.trait, it.name): it.clauses for it in found if it.owner and it.owner == it.trait}
    for it in found:
        it.clauses = it.clauses or of_traits.get((it.trait, it.name), [])
    return found


@functools.cache
def definitions():
    """Returns the fields of each record of specs/ and the lack of fields of each other definition, by crate and name."""
    found = {}
    for crate in crates():
        for path in files_of(crate, "specs", "antt"):
            name = None
            for line in pages.text_of(path).split("\n"):
                head, field = DEFINITION.match(line), FIELD.match(line)
                name = (head[1] or head[2]) if head else name
                if head:
                    found.setdefault((crate, name), [])
                elif field and name:
                    found[crate, name].append(field[1])
    return found


def floors_of(crate):
    """Returns the folders of lemmas of a crate: those that its list in proofs/ names. The other folders hold answers."""
    path = f"crates/{crate}/proofs/Lib.antt"
    return re.findall(r"(?m)^(?:pub )?mod (\w+)$", pages.text_of(path)) if os.path.exists(f"{pages.TOP}/{path}") else []


def lemma_files(crate):
    """Returns the files of lemmas of a crate, named from the top on."""
    found = [it for it in files_of(crate, "proofs", "antt") if it.count("/") == 3 or it.split("/")[3] in floors_of(crate)]
    return [it for it in found if os.path.basename(it) != "Lib.antt"]
