"""The functions of the crates: of each file its functions, with their comments, clauses and bodies.

The files are in `rt fmt`'s layout: a body ends at a brace as deep as its function. The lines of a comment are joined, so nothing
here depends on how it is wrapped.
"""
import re
from pathlib import Path

TOP = Path(__file__).resolve().parent.parent
FUNCTION = re.compile(r"(?P<indent> *)(?P<seen>pub |pub\(\w+\) )?(?:const |unsafe )*fn (?P<name>\w+)")
OWNER = re.compile(r"(?:pub(?:\(\w+\))? )?(?P<form>impl|trait)\b(?P<rest>.*)")
DECLARED = re.compile(r"^pub (?:struct|enum|trait|type|const|fn) (\w+)", re.M)
EXPORTED = re.compile(r"^pub use (\w+)((?:::\w+)*)::(?:\{([^}]*)\}|(\w+(?: as \w+)?));", re.M)
DESCRIBED = re.compile(r"^((?:///.*\n)+)((?:#\[.*\n)*)pub(?:\(\w+\))? (?:struct|enum|trait)\b", re.M)
CLAUSE = re.compile(r" *(?:requires|ensures)\b")


class Function:
    """A function or a method: `owner` is its type or trait, `head` its signature with the clauses, `body` its code."""

    def __init__(self, owner, of_trait, seen, name, comment, head, body):
        self.owner, self.of_trait, self.seen, self.name = owner, of_trait, seen, name
        self.comment, self.head, self.body = comment, head, body

    def full_name(self):
        return f"{self.owner}::{self.name}" if self.owner else self.name


class File:
    def __init__(self, crate, path):
        self.crate, self.path = crate, path
        self.text = path.read_text(encoding="utf-8")
        self.functions = list(functions_in(self.text.splitlines()))

    def short(self):
        return self.path.relative_to(TOP / "crates").as_posix()

    def head_comment(self):
        """The comment that the file begins with, on one line."""
        lines = []
        for line in self.text.splitlines():
            if not re.match(r"//(?!/)", line):
                break
            lines.append(line)
        return joined(lines)

    def first_sentence(self):
        """What the file begins by saying; without a head comment what its first type says, its first function, or its fault."""
        types = [(joined(said.splitlines()), "Error" in attributes) for said, attributes in DESCRIBED.findall(self.text)]
        functions = [function.comment for function in self.functions if function.comment and function.seen]
        said = [said for said, is_fault in types if not is_fault] + functions + [said for said, _ in types]
        return sentence(self.head_comment() or next(iter(said), ""))


class Crate:
    def __init__(self, name, uses):
        self.name, self.uses = name, uses
        folder = TOP / "crates" / name / "src"
        self.files = [File(self, path) for path in sorted(folder.glob("**/*.rt"))]
        library = next((file.text for file in self.files if file.path.name == "lib.rt"), "")
        # The names that the library gives to others: its own, and with their crates those that it re-exports.
        self.own, self.passed_on = set(DECLARED.findall(library)), {}
        for first, _, listed, single in EXPORTED.findall(library):
            for word in filter(None, (word.strip() for word in (listed or single).split(","))):
                name, _, renamed = word.partition(" as ")
                if first in uses:
                    self.passed_on[renamed or name] = (first, name)
                else:
                    self.own.add(renamed or name)

    def is_public(self, function):
        """Whether others may call the function by its own name, or by that of its type."""
        if function.owner:
            return function.owner in self.own and (function.seen == "pub " or function.of_trait == "declared")
        return function.seen == "pub " and function.name in self.own


def joined(lines):
    """The lines of a comment as one, up to its first empty line."""
    words = [line.strip().lstrip("/!").strip() for line in lines]
    return " ".join(words[:words.index("")] if "" in words else words)


def sentence(text):
    """The first sentence of a text."""
    return re.split(r"(?<=\.)\s+(?=[A-Z`*])", text.strip())[0].rstrip(".")


def functions_in(lines):
    """The functions of a file, in its order."""
    owner, of_trait, comment = None, None, []
    position = 0
    while position < len(lines):
        line = lines[position]
        if line and not line.startswith(" "):
            around = OWNER.match(line) if line.endswith("{") or OWNER.match(line) else None
            if around:
                owner, of_trait = owner_of(around["form"], around["rest"])
            elif not line.startswith(("//", "#")):
                owner, of_trait = None, None
        match = FUNCTION.match(line)
        if match and (not match["indent"] or owner):
            head, body, position = parts_of(lines, position, match["indent"])
            yield Function(owner if match["indent"] else None, of_trait, match["seen"], match["name"], joined(comment), head, body)
            comment = []
        elif line.strip().startswith("///"):
            comment.append(line)
        elif not line.strip().startswith("#["):
            comment = []
        position += 1


def owner_of(form, rest):
    """The type or the trait that a head `impl ..` or `trait ..` is of; and of a trait, whether it is declared or given."""
    rest = without_generics(rest)
    if form == "trait":
        return re.match(r"\s*(\w+)", rest)[1], "declared"
    before, _, after = rest.partition(" for ")
    name = re.search(r"(\w+)\s*(?:\{|where|$)", (after or before).strip())
    return (name[1] if name else None), ("given" if after else None)


def without_generics(text):
    """The text without the parts between `<` and `>`."""
    found, depth = [], 0
    for letter in text:
        depth += (letter == "<") - (letter == ">" and depth > 0)
        if depth == 0 and letter != ">":
            found.append(letter)
    return "".join(found)


def parts_of(lines, begin, indent):
    """The head and the body of the function that begins at that line, and its last line."""
    has_clauses, head = False, []
    for position in range(begin, len(lines)):
        line = lines[position]
        has_clauses |= bool(CLAUSE.match(line))
        if line in (f"{indent}{{}}", f"{indent}{{ }}") or line.endswith(";"):
            return "\n".join([*head, line] if line.endswith(";") else head), "", position
        if not has_clauses and line.endswith("{}"):
            return "\n".join([*head, line]), "", position
        if line == f"{indent}{{" or (not has_clauses and line.endswith(" {")):
            end = lines.index(f"{indent}}}", position)
            head += [] if line == f"{indent}{{" else [line.removesuffix("{")]
            return "\n".join(head), "\n".join(lines[position + 1:end]), end
        head.append(line)
    return "\n".join(head), "", len(lines)


def groups():
    """The groups of crates.txt: of each its heading and its crates, those of tests left out."""
    found = []
    for line in (TOP / "crates.txt").read_text(encoding="utf-8").splitlines():
        if line.startswith("#"):
            found.append((line.lstrip("# "), []))
        elif line.strip():
            name, _, uses = line.partition(":")
            if not name.split()[0].endswith("_tests"):
                found[-1][1].append(Crate(name.split()[0], uses.split()))
    return [(heading, crates) for heading, crates in found if crates]
