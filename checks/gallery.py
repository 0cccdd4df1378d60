"""The gallery of docs/PLANS.md against its examples: what a row says is planned or refused has to be, and nothing else.

For pods the order of all actions counts, for claims that of each kind. Other words, as `the failed one`, mean nothing.
"""
import json
import re
import string

from transcripts import EXAMPLES, TOP, read

KINDS = ["CreatePod|DeletePod|Wait", "CreateClaim", "UpdateClaim"]
# Ordinals, as 2 or 5–2, or a name; the revision of a new pod, or the new owner of a claim.
ITEM = re.compile(r"(?:(\d+)(?:–(\d+))?|`([\w-]+)`)(?:,? (?:at|to(?: the| its| their)?) (a|b|set|pod|none)\b)?")
PLACES = ["first", "second", "third", "fourth"]
COUNTS = {"two": 2, "three": 3, "four": 4, "older": 1, "oldest": 1}


def told_by(cell):
    """The actions in a cell: their kind, an ordinal or a name, and the revision or owner, if it is there."""
    parts = re.split(f"({'|'.join(KINDS)})", cell)
    for kind, text in zip(parts[1::2], parts[2::2]):
        for first, last, name, mark in ITEM.findall(text):
            begin, end = int(first or 0), int(last or first or 0)
            step = -1 if end < begin else 1
            yield from ((kind, name or str(ordinal), mark) for ordinal in range(begin, end + step, step))


def mark_of(kind, name, written, revisions):
    """The revision of a new pod, or whether the set or its pod owns a claim from now on."""
    if kind == "CreatePod":
        return dict(zip(revisions, string.ascii_lowercase)).get(written["metadata"]["labels"]["controller-revision-hash"], "")
    entries = [(one.get("kind"), one.get("name")) for one in written.get("metadata", {}).get("ownerReferences", [])]
    owners = [owner for owner, of in entries if owner == "StatefulSet" or owner == "Pod" and name.endswith(f"-{of}")]
    return {"": "none", "StatefulSet": "set", "Pod": "pod"}.get("".join(owners), "both")


def deleted_by(cell, revisions):
    """The revisions that a cell says are deleted. In these examples an older one has a lower name."""
    count = next((count for word, count in COUNTS.items() if re.search(rf"\b{word}\b", cell)), 0)
    return re.findall(r"`([\w-]+)`", cell) or revisions[:count] or [revisions[place] for place, word in enumerate(PLACES) if word in cell]


def is_told(cell, written, there):
    """Whether a cell names a revision that is written: whether it is new, its name, and its number."""
    name, space, number = written["metadata"]["name"], written["metadata"]["namespace"], str(written["revision"])
    names, numbers = re.findall(r"`([\w-]+)`", cell), re.findall(r"(?<!count) (\d+)\b", cell) + ["1"] * cell.startswith("the first")
    is_new = (name, space) not in [(one["name"], one.get("namespace", "default")) for one in there]
    return is_new == cell.startswith(("a new", "the first")) and name in (names or [name]) and number in (numbers or [number])


def plan_faults(column, cell, example, is_alone):
    """How the plan of an example differs from its row."""
    listed, actions = ([json.loads(line) for line in read(f"{EXAMPLES}/plan/{example}.{end}").splitlines()] for end in ("jsonl", "out"))
    there = [one["metadata"] for one in listed if one["kind"] == "ControllerRevision"]
    revisions = sorted({one["name"] for one in there})
    plan = [(one["do"], one.get("name") or one["object"]["metadata"]["name"], one.get("object", {})) for one in actions]
    for kinds in KINDS:
        told = [one for one in told_by(cell) if re.match(kinds, one[0])]
        planned = [(kind, name, mark_of(kind, name, of, revisions)) for kind, name, of in plan if re.match(kinds, kind)]
        fitting = [
            next((one for one in told if one[0] == kind and f"-{name}".endswith(f"-{one[1]}") and one[2] in ("", mark)), None)
            for kind, name, mark in planned
        ]
        if list(dict.fromkeys(fitting)) != told:
            yield f"planned is {planned}"
    deleted = [name for kind, name, _ in plan if kind == "DeleteRevision"]
    if deleted != (deleted_by(cell, revisions) if column == "DeleteRevision" else []):
        yield f"deleted are the revisions {deleted}"
    written = [of for kind, _, of in plan if kind == "WriteRevision"]
    if [is_told(cell, of, there) for of in written] != [True] * (column == "WriteRevision"):
        yield f"written is {[(of['metadata']['name'], of['revision']) for of in written]}"
    if ([kind for kind, _, _ in plan][-1:] == ["WriteStatus"]) == is_alone:
        yield f"the status is {'' if is_alone else 'not '}written"


def gallery_faults():
    """How the gallery differs from its examples. A cell may have a part for each of several."""
    lines, column, above = read(f"{TOP}/docs/PLANS.md").decode().splitlines(), "", ""
    for number, line in list(enumerate(lines, 1))[lines.index("## Gallery"):]:
        cells = [cell.strip() for cell in line.strip("|").split("|")]
        if row := re.match(r"(?:\||-) (`[\w-]+`(?:, `[\w-]+`)*)(?: \||:) (.*)", line):
            names, cell = re.findall(r"[\w-]+", row[1]), cells[2] if line.startswith("|") else row[2]
            parts = cell.split("; ")
            for name, part in zip(names, parts if len(parts) == len(names) else [cell] * len(names)):
                said, told = read(f"{EXAMPLES}/plan/{name}.err").decode().strip(), f"refused: {re.match('[A-Za-z]*', part)[0]}"
                refused = [said] if said != told else []
                faults = refused if above.startswith("Refused") else plan_faults(column, part, name, "*alone*" in above + cell)
                yield from (f"docs/PLANS.md:{number}: {name}: {fault}" for fault in faults)
        elif line.startswith("| Example"):
            column = cells[2]
        elif line and not line.startswith("|"):
            column, above = "", line
