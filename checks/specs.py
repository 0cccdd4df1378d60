"""The definitions of the crates, and what of the code counts as one.

A definition is in a file crates/CRATE/specs/*.antt. A type or a constant of the code counts too: as the definition by
which clauses see it (the `Value` of its `Model`), or else by its own declaration, with its ghost fields. A trait of the code
counts as a definition, with its ghost members and the clauses on its methods, wherever it bounds a type; so do the ghost
members that an impl gives to a trait, wherever its type is named. The heads of a function and of the impl around it count
with the clauses.

Words of std and of the kit's crates are not followed. A name counts wherever it is, so a variable with the name of a
definition counts as that definition. Lines are those that are neither empty nor comments.
"""
import re
import sys
from collections import defaultdict
from pathlib import Path

TOP = Path(__file__).resolve().parent.parent

WORD = re.compile(r"(?:\b\w+\.)?[A-Za-z_][\w'\-]*")
HEAD = re.compile(
    r"(?P<indent> *)(?P<words>(?:abbrev |unfoldable |pub )*)(?P<form>record |data )?(?P<name>[\w'\-◌>=]+)(?P<rest>.*)")
USE = re.compile(r"(?m)^ *(?:pub )?(?:ghost )?use Rattle\.([\w.]+?)(?:\.\{([^}]*)\}| as (\w+))?;? *$")
CODE_USE = re.compile(r"(?m)^ *(?:pub(?:\(crate\))? )?use (\w+)(?:::\w+)*::(?:\{([^}]*)\}|(\w+(?: as \w+)?));$")
MODEL = re.compile(r"(impl[^\n]*) Model for (\w+)[^\n]*\{\n(.*?)\n\}", re.S)
TYPE = re.compile(r"^(?:pub(?:\(crate\))? )?(?:struct|enum|const|type) (\w+).*?(?:;|\n\}|\{\})$", re.S | re.M)
TRAIT = re.compile(r"^(?:pub(?:\(crate\))? )?trait (\w+)(?:[^{]*\{\}$|.*?^\})", re.S | re.M)
IMPL = re.compile(r"^impl(?:<[^{]*?>)? (?:\w+::)*(\w+)(?:<[^{]*?>)? for ([^{]*)\{(.*?)^\}", re.S | re.M)
GIVEN = re.compile(r"^ *ghost \w+ = \{.*?\};$", re.S | re.M)
# The trait of a quote, `⟦<TYPE as TRAIT>⟧`, which speaks of the ghost members of an impl.
QUOTED = re.compile(r" as (\w+)[^⟦⟧]*>⟧")
CODE_WORD = re.compile(r"\b[A-Z]\w*")
HANDED_ON = re.compile(r"(?m)^pub use Rattle\.([\w.]+)(?: as (\w+))?$")
# What may enclose definitions, which are then indented by two more.
BLOCK = re.compile(r" *(?:module .* where|(?:abbrev )?mutual *)$")


class Imports:
    """The names that a file brings in: `names` gives the module and the name there, `modules` those under another name."""

    def __init__(self, text):
        self.names, self.modules = {}, {}
        for module, listed, other in USE.findall(text):
            if other:
                self.modules[other] = module
            for word in filter(None, (word.strip() for word in listed.split(","))):
                name, _, renamed = word.partition(" as ")
                self.names[renamed or name] = (module, name)


class Definition:
    """A definition; of the code a type, a trait or what an impl gives to one. Names of code are looked for in `code`."""

    def __init__(self, path, place, name, text, imports, own, code="", is_type=False):
        self.path, self.place, self.name, self.text = path, place, name, code_of(text)
        self.lines = len(self.text.splitlines())
        self.imports, self.own, self.code, self.is_type = imports, own, code_of(code), is_type


def code_of(text):
    """Its lines without those that are empty, comments, attributes or imports."""
    marks = ("--", "//", "#[", "use ", "pub use ", "ghost use ")
    return "\n".join(line for line in text.splitlines() if line.strip() and not line.strip().startswith(marks))


def is_head(match, line):
    """Whether the line begins a definition: it says so, or gives a name its type."""
    others = ("--", "use ", "pub use ", "pub mod ", "mod ", "infix")
    return not line.strip().startswith(others) and bool(match["words"] or match["form"] or match["rest"].startswith(" : "))


def definitions_in(path, text, module):
    """The definitions of a file of specs, by name; a constructor of a `data` stands for its type."""
    lines, imports = text.splitlines(), Imports(text)
    heads, around = [], []
    for place, line in enumerate(lines):
        match = HEAD.fullmatch(line)
        if not match:
            continue
        indent = len(match["indent"])
        around = [other for other in around if other < indent]
        if indent != (around[-1] + 2 if around else 0):
            continue
        if BLOCK.match(line):
            around.append(indent)
        elif is_head(match, line):
            heads.append((place, match))
    found = {}
    for (place, match), end in zip(heads, [place for place, _ in heads[1:]] + [len(lines)]):
        definition = Definition(path, place, match["name"], "\n".join(lines[place:end]), imports, module)
        found[match["name"]] = definition
        if match["form"] == "data ":
            for constructor in re.findall(r"(?m)^  (?:pub )?([\w'\-]+) :", definition.text):
                found.setdefault(constructor, definition)
    return found


def crate_of(path):
    return path.relative_to(TOP / "crates").parts[0]


def place_of(match):
    return match.string[: match.start()].count("\n")


def types_in(path, text, crate):
    """The types and constants of a file of code, by name, each with the words by which clauses see it."""
    value_of = re.compile(r"ghost Value = \{(.*?)\};", re.S)
    seen = {name: (head, value_of.search(body), Imports(body)) for head, name, body in MODEL.findall(text)}
    found = {}
    for match in TYPE.finditer(text):
        name, place = match[1], place_of(match)
        head, value, imports = seen.get(name, (None, None, None))
        if value:
            found[name] = Definition(path, place, name, value[1].strip(), imports, crate, head, True)
            found[name].lines = 0
        else:
            fields = re.sub(r"(?m)^    [A-Z]\w*", "", match[0].partition(name)[2])
            # Of its own words, only those in ghost fields are definitions'.
            imports = Imports(text if re.search(r"(?m)^    (?:pub )?ghost ", match[0]) else "")
            found[name] = Definition(path, place, name, match[0], imports, crate, fields, True)
    return found


def traits_in(path, text, crate):
    """The traits of a file of code, by name. One without ghost members and clauses has no lines."""
    imports, found = Imports(text), {}
    for match in TRAIT.finditer(text):
        name, words = match[1], match[0].partition(match[1])[2]
        found[name] = Definition(path, place_of(match), name, match[0], imports, crate, words)
        if not re.search(r"(?m)^ *(?:ghost \w+:|requires|ensures)", match[0]):
            found[name].lines = 0
    return found


def impls_in(path, text, crate):
    """What the impls of a file of code give to traits: the name of each impl's type, and its ghost members."""
    imports = Imports(text)
    for match in IMPL.finditer(text):
        type_name, given = CODE_WORD.search(match[2]), GIVEN.findall(match[3])
        if type_name and given:
            name, head = f"{match[1]} for {type_name[0]}", match[0].partition("{")[0]
            yield type_name[0], Definition(path, place_of(match), name, "\n".join(given), imports, crate, head)


def code_uses(text):
    """The names of code that a file brings in: of each the first word of its path, and the name there."""
    found = {}
    for first, listed, single in CODE_USE.findall(text):
        for word in filter(None, (word.strip() for word in (listed or single).split(","))):
            name, _, renamed = word.partition(" as ")
            found[renamed or name] = (first, name)
    return found


class Repository:
    def __init__(self):
        self.definitions, self.imports, self.types, self.handed_on = {}, {}, {}, {}
        self.uses, self.given, impls = {}, defaultdict(list), []
        lines = [line for line in (TOP / "crates.txt").read_text().splitlines() if line and not line.startswith("#")]
        listed = (line.partition(":") for line in lines)
        self.stands_on = {name.split()[0]: crates.split() for name, _, crates in listed}
        for path in sorted(TOP.glob("crates/*/specs/**/*.antt")):
            text = path.read_text(encoding="utf-8")
            module = ".".join(path.relative_to(TOP / "crates").with_suffix("").parts)
            self.imports[module] = Imports(text)
            self.definitions[module] = definitions_in(path, text, module)
            for other, name in HANDED_ON.findall(text) if path.name == "Lib.antt" else []:
                self.handed_on[module.removesuffix("Lib") + (name or other.split(".")[-1])] = other
        for path in sorted(TOP.glob("crates/*/src/**/*.rt")):
            crate = crate_of(path)
            if crate.endswith("_tests"):
                continue
            text = path.read_text(encoding="utf-8")
            self.uses[path] = code_uses(text)
            for name, definition in (types_in(path, text, crate) | traits_in(path, text, crate)).items():
                self.types.setdefault(name, {})[crate] = definition
            impls += impls_in(path, text, crate)
        for type_name, definition in impls:
            self.given[self.coded(definition.path, type_name) or type_name].append(definition)

    def declared(self, module, name):
        """What of the code, as a type or a constant, a name of `CRATE.specs.declared.FILE.TYPE` stands for."""
        parts = module.split(".")
        if parts[-1] != "TheConstants":
            name = parts[-2] if parts[-1].startswith("The") else parts[-1]
        return self.types.get(name, {}).get(parts[0])

    def named(self, module, name):
        """What a name of that module is, followed through the modules that re-export it; of std and the kit nothing."""
        while module.split(".")[0] in self.stands_on:
            module = self.handed_on.get(module, module)
            is_code = ".specs.declared." in module
            found = self.declared(module, name) if is_code else self.definitions.get(module, {}).get(name)
            if found:
                return [found]
            if module not in self.imports or name not in self.imports[module].names:
                sys.exit(f"checks/definitions: there is no {name} in {module}")
            module, name = self.imports[module].names[name]
        return []

    def words_of(self, text, imports, module):
        """The definitions that a text names."""
        for word in dict.fromkeys(WORD.findall(text)):
            before, _, after = word.rpartition(".")
            if before in imports.modules:
                yield from self.named(imports.modules[before], after)
            elif after in self.definitions.get(module, {}):
                yield self.definitions[module][after]
            elif after in imports.names:
                yield from self.named(*imports.names[after])
        for name, (there, original) in imports.names.items():
            sign = name.strip("◌")
            if name.startswith("◌") and (f" {sign} " in text or (sign == ">>=" and re.search(r"\bdo$", text, re.M))):
                yield from self.named(there, original)

    def reaches(self, crate, other):
        """Whether a crate is the other one, or depends on it, even through others."""
        return crate == other or any(self.reaches(below, other) for below in self.stands_on.get(crate, []))

    def coded(self, path, name):
        """What a name in a file of code stands for, if its crate or another declares it; of std and the kit nothing."""
        crate = crate_of(path)
        first, there = self.uses.get(path, {}).get(name, (crate, name))
        owner = first if first in self.stands_on and self.reaches(crate, first) else crate
        library = TOP / "crates" / owner / "src" / "lib.rt"
        return self.types.get(there, {}).get(owner) or (self.coded(library, there) if path != library else None)

    def coded_in(self, path, text):
        """What a text in a file of code names of the code, and what impls for its types give to traits, std's where quoted."""
        quoted = QUOTED.findall(text)
        for word in dict.fromkeys(CODE_WORD.findall(text)):
            found = self.coded(path, word)
            if found:
                yield found
            for given in self.given[found or word]:
                trait = given.name.partition(" ")[0]
                if self.reaches(crate_of(path), given.own) and (self.coded(given.path, trait) or trait in quoted):
                    yield given

    def parts_of(self, definition):
        """The definitions that a definition, or a type, names."""
        yield from self.words_of(definition.text, definition.imports, definition.own)
        yield from self.coded_in(definition.path, definition.code)

    def contract(self, function):
        """The clauses of a function, after the heads; the file that they are in, and what that brings in."""
        crate, *owner, name = function.split("::")
        for path in sorted((TOP / "crates" / crate / "src").glob("**/*.rt")):
            text = path.read_text(encoding="utf-8")
            places = re.findall(rf"(?ms)^impl[^{{]*\b{owner[0]}\b[^{{]*\{{$.*?^\}}", text) if owner else [text]
            for place in places:
                match = re.search(rf"(?ms)^( *)pub fn {name}\b.*?^\1\{{", place)
                if match:
                    head = place.partition("{")[0] if owner else ""
                    return head + match[0], path, Imports(text)
        sys.exit(f"checks/definitions: there is no public function {function}")

    def resting(self, functions):
        """What the clauses of these functions name, and all that it rests on, each with what it names."""
        contracts, rests = [self.contract(function) for function in functions], {}

        def follow(named):
            waiting = list(named)
            while waiting:
                definition = waiting.pop()
                if definition not in rests:
                    rests[definition] = [part for part in self.parts_of(definition) if part is not definition]
                    waiting += rests[definition]

        named = [found for clauses, _, imports in contracts for found in self.words_of(clauses, imports, None)]
        follow(named)
        # What only words of code name is read last.
        coded = [found for clauses, path, _ in contracts for found in self.coded_in(path, clauses) if found not in rests]
        follow(coded)
        return named + coded, rests
