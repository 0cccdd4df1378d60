"""The `match`es over the cases of a type, and the definitions that take its cases apart.

Of a function each `match`, `matches!`, `if let`, `while let` and `let .. else` counts whose patterns name a case. What names each
case, with no pattern for all others, no longer compiles once a case is added. All else is silent.
"""
import re

LITERAL = re.compile(r"""//[^\n]*|b?"(?:[^"\\]|\\.)*"|b?'(?:[^'\\]|\\.)'""")
CLOSING = {"(": ")", "[": "]", "{": "}"}


def bare(code):
    """The code without comments and texts, which may hold braces."""
    return LITERAL.sub("''", code)


def closing(code, begin):
    """The index at which the bracket at `begin` is closed."""
    depth = 0
    for position in range(begin, len(code)):
        depth += (code[position] in "([{") - (code[position] in ")]}")
        if depth == 0:
            return position
    return len(code)


def until(code, begin, stops):
    """The index of the first of these texts that is outside all brackets."""
    position = begin
    while position < len(code):
        if any(code.startswith(stop, position) for stop in stops):
            return position
        position = closing(code, position) + 1 if code[position] in CLOSING else position + 1
    return len(code)


def arms(block):
    """The patterns of a `match`, from the text between its braces."""
    position = 0
    while block[position:].strip():
        arrow = until(block, position, ["=>"])
        yield re.split(r"\bif\b", block[position:arrow])[0].strip()
        position = arrow + 2
        position += len(block[position:]) - len(block[position:].lstrip())
        if block.startswith("{", position):
            position = closing(block, position) + 1
            position += len(block[position:]) - len(block[position:].lstrip(" \n,"))
        else:
            position = until(block, position, [","]) + 1


def patterns(body):
    """The patterns of a function, those of one `match` together; of all else than a `match` `_` is the other case."""
    code = bare(body)
    for match in re.finditer(r"\bmatch\b", code):
        begin = until(code, match.end(), ["{"])
        yield list(arms(code[begin + 1:closing(code, begin)]))
    for match in re.finditer(r"\bmatches!\(", code):
        inside = code[match.end():closing(code, match.end() - 1)]
        yield [inside[until(inside, 0, [","]) + 1:], "_"]
    for match in re.finditer(r"\blet\b", code):
        equals = until(code, match.end(), ["=", ";"])
        if "::" in code[match.end():equals]:
            yield [code[match.end():equals], "_"]


def is_for_all(pattern):
    """Whether a pattern fits all values that no other does: it names no case of anything."""
    return not re.search(r"[A-Z\d'\[]", pattern) and "true" not in pattern and "false" not in pattern


def named_in(found, kind):
    """The cases of a type that the patterns name."""
    return [case for case in re.findall(rf"\b{kind}::(\w+)", " ".join(found))]


def places(crates, kind, cases):
    """Of each function that takes the cases of a type apart: file, name and the cases; all of them if nothing is silent."""
    for crate in crates:
        for file in crate.files:
            if f"{kind}::" not in file.text:
                continue
            for function in file.functions:
                named = set()
                is_silent = False
                for found in patterns(function.body):
                    here = named_in(found, kind)
                    named |= set(here)
                    is_silent |= bool(here) and (not set(cases) <= set(here) or any(map(is_for_all, found)))
                if named:
                    yield file, function, [case for case in cases if case in named], is_silent


def defined(repository, module, cases):
    """The definitions whose clauses take the cases of a type apart, each with those that it names."""
    for file, definitions in repository.definitions.items():
        imports = repository.imports[file]
        renamed = {name: original for name, (there, original) in imports.names.items() if there == module}
        others = {name for name, there in imports.modules.items() if there == module}
        for definition in dict.fromkeys(definitions.values()) if renamed or others else ():
            named, has_rest = set(), False
            for left in left_sides(definition):
                has_rest |= is_for_all(left)
                for word in re.findall(r"(?:\b\w+\.)?\b\w+", left):
                    before, _, after = word.rpartition(".")
                    if before in others:
                        named.add(after)
                    elif not before and word in renamed:
                        named.add(renamed[word])
            if named:
                yield definition, [case for case in cases if case in named], has_rest or not set(cases) <= named


def left_sides(definition):
    """The text between a definition's name and the `=`, of each of its clauses."""
    for line in definition.text.splitlines():
        name, _, rest = line.strip().partition(" ")
        if name == definition.name and " = " in rest:
            yield rest.partition(" = ")[0]


def declares(file, kind):
    """Whether the file declares the enum."""
    return bool(re.search(rf"(?m)^pub(?:\(crate\))? enum {kind} \{{", file.text))


def cases_of(file, kind):
    """The cases that an enum declares."""
    match = re.search(rf"(?ms)^pub(?:\(crate\))? enum {kind} \{{\n(.*?)^\}}", file.text)
    return re.findall(r"(?m)^    (\w+)", match[1])
