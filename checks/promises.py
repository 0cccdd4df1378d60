"""The rows of docs/PROMISES.md beside the crates: what a row names is in the crate that the row is of.

A table of calls has their names in one column, and clauses and definitions in the next. The head of the first says whose the
calls are, `CRATE`; a row whose first name is `CRATE::NAME` is of that crate. A name has to be a function, a method or a type of
the row's crates; a method may come without its type after another of that type. Each word of the next column has to be in their
code or their definitions. So have the words of a last column whose head names a crate.
"""
import re
from functools import cache

from calls import TOP, groups

PAGE = TOP / "docs" / "PROMISES.md"
CODE = re.compile(r"`([^`]+)`")
CRATES = {crate.name: crate for _, crates in groups() for crate in crates}


@cache
def source(crate):
    """The code and the definitions of a crate, as one text."""
    specs = sorted((TOP / "crates" / crate / "specs").glob("**/*.antt"))
    return "\n".join([file.text for file in CRATES[crate].files] + [path.read_text(encoding="utf-8") for path in specs])


@cache
def calls(crate):
    return {function.full_name() for file in CRATES[crate].files for function in file.functions}


def has_call(crate, name, owners):
    """Whether the crate has a function or a type of that name, or one of these types has such a method."""
    names = {name} | {f"{owner}::{name}" for owner in owners}
    return bool(names & calls(crate)) or bool(re.search(rf"\b(?:struct|enum|trait) {name}\b", source(crate)))


def has_word(crate, word):
    """Whether a clause or a definition of the crate has that name; of `IsReply.history` the last part."""
    return bool(re.search(rf"(?<!\w){re.escape(word.rpartition('.')[2])}(?!\w)", source(crate)))


def crates_of(text):
    return [name for name in CODE.findall(text) if name in CRATES]


def rows():
    """The rows that name calls, or words of a crate: the line, the crates, the names, and the words of the next column."""
    column, crates = None, []
    for number, line in enumerate(PAGE.read_text(encoding="utf-8").splitlines(), 1):
        cells = [cell.strip() for cell in line.strip("|").split("|")]
        if not line.startswith("|"):
            column = None
        elif column is None:
            column = next((place for place, cell in enumerate(cells) if crates_of(cell) or cell == "Calls"), -1)
            crates = crates_of(cells[column])
            if column < 0 and cells[0] != "Crate":
                yield number, [], [], []
        elif column >= 0 and not cells[0].startswith("-"):
            yield number, *row_of(crates, [CODE.findall(cell) for cell in cells[column:]])


def row_of(crates, cells):
    """The crates, the names without their crate, and the words of a row, from the codes of its cells."""
    names, words = cells if len(cells) > 1 else ([], cells[0])
    first = names[0].partition("::")[0] if names else ""
    own = [first] if first in CRATES else crates
    return own, [name.removeprefix(f"{first}::") if first in CRATES else name for name in names], words


def faults():
    """What a row names that its crates do not have, and the rows that are of no crate."""
    for number, crates, names, words in rows():
        place, whose = f"docs/PROMISES.md:{number}", " or ".join(crates)
        owners = {name.partition("::")[0] for name in names if "::" in name}
        if not crates or not names + words:
            yield f"{place}: the row, or the head of the table, names no crate"
        for name in names:
            if not any(has_call(crate, name, owners) for crate in crates):
                yield f"{place}: {name} is no call of {whose}"
        for word in words:
            if not any(has_word(crate, word) for crate in crates):
                yield f"{place}: {word} is in no clause and no definition of {whose}"
