"""Ends of a race in words, by docs/LITMUS.md: those that are the same but for versions and UIDs are one line; of an object that
differs between ends is said how.
"""
from collections import Counter

from store_of_maps import number_of, text_of

NOT_SENT = "not sent"  # what became of a request that its caller leaves out
HELD = ("name", "namespace", "uid", "resourceVersion", "deletionTimestamp", "generation")


def key_of(held):
    meta = held["metadata"]
    return held["kind"], meta["namespace"], meta["name"]


def leaves(value, path):
    """Each member that is no object, or an empty one, with the names that lead to it."""
    if isinstance(value, dict) and value:
        for name in sorted(value):
            yield from leaves(value[name], f"{path}.{name}" if path else name)
    else:
        yield f"{path} {text_of(value)}"


def members(held):
    """All that is not the object's name, its version or its UID, nor its mark."""
    meta = held["metadata"]
    body = {**held, "metadata": {name: value for name, value in meta.items() if name not in HELD}}
    return [*leaves(body, ""), f"metadata.generation {meta['generation']}"]


def objects_of(reply):
    if reply is None or reply is NOT_SENT:
        return []
    return reply.get("items", [reply["object"]] if "object" in reply else [])


class Words:
    """What is said of the objects that ends show; each end is a list of objects. Those of the beginning are known too."""

    def __init__(self, begun, ends):
        self.begun, self.count = self.firsts(begun), Counter()
        for held in (held for end in ends for held in end):
            key, mark = key_of(held), held["metadata"].get("deletionTimestamp")
            self.count.update([key, *((key, member) for member in members(held))])
            if mark is not None:
                self.count.update([(key, "marked"), (key, "marked", mark)])

    @staticmethod
    def firsts(objects):
        """The lowest UID of each name."""
        found = {}
        for held in objects:
            uid = number_of(held["metadata"]["uid"])
            found[key_of(held)] = min(uid, found.get(key_of(held), uid))
        return found

    def is_anew(self, held, end):
        """Whether an object of its name was there before it."""
        uid = number_of(held["metadata"]["uid"])
        return any(firsts.get(key_of(held), uid) < uid for firsts in (self.begun, self.firsts(end)))

    def marks(self, held, end):
        key, mark = key_of(held), held["metadata"].get("deletionTimestamp")
        said = ["made anew"] if self.is_anew(held, end) else []
        if mark is not None:
            said.append("marked")
            if self.count[key, "marked"] != self.count[key, "marked", mark]:
                said.append(f"metadata.deletionTimestamp {text_of(mark)}")
        said += [member for member in members(held) if self.count[key, member] != self.count[key]]
        return f" ({', '.join(said)})" if said else ""

    def alike(self, held, end):
        """The object without its version and its UID, but for whether it is made anew."""
        meta = {name: value for name, value in held["metadata"].items() if name not in ("uid", "resourceVersion")}
        return {**held, "metadata": meta}, self.is_anew(held, end)


def lines_of(noun, said):
    """The lines of ends, each given by what is compared of it and its words."""
    numbers = {}
    for number, (compared, words) in enumerate(said, 1):
        numbers.setdefault(text_of(compared), f"{number}:{words}")
    return [*numbers.values(), f"{len(numbers)} {noun}{'s' * (len(numbers) != 1)}, {len(said)} with their versions"]


def asked_words(line):
    request = line.get("request") or line["ask"]
    verb, version = request["do"], request.get("resourceVersion")
    if "last" in request:
        return f"{verb} last"
    if verb == "compact":
        return f"compact to {version}"
    held = request.get("object", request)
    meta = held.get("metadata", held)
    words = f"{verb} {held['kind']}/{meta.get('namespace', 'default')}"
    if verb != "list":
        words += f"/{meta['name']}"
    if verb in ("update", "status"):
        version = meta.get("resourceVersion")
    return words if verb in ("create", "get") or version is None else f"{words} at {version}"


def word_told(reply):
    """The one word for what became of a request."""
    if reply is None or reply is NOT_SENT:
        return reply or "no reply"
    return reply.get("result") or reply["reason"]


def told_words(words, reply, end):
    if reply is not None and "items" in reply:
        names = (held["metadata"]["name"] + words.marks(held, end) for held in reply["items"])
        return "Listed " + (", ".join(names) or "no object")
    return word_told(reply) + "".join(words.marks(held, end) for held in objects_of(reply))


def named(words, held, end):
    kind, namespace, name = key_of(held)
    return f"{kind} {'' if namespace == 'default' else namespace + '/'}{name}{words.marks(held, end)}"


def ends_lines(noun, begun, asks, ends):
    """The lines of ends, after a beginning with these objects. An end is what became of each line of a caller, or None if that
    is not asked for, and the objects of its store in their order, or None."""
    shown = [[held for reply in told or [] for held in objects_of(reply)] + (store or []) for told, store in ends]
    words = Words(begun, shown)

    def compared(told, store, end):
        replies = [[word_told(reply), [words.alike(held, end) for held in objects_of(reply)]] for reply in told or []]
        return [replies, [words.alike(held, end) for held in store or []]]

    def said(told, store, end):
        parts = [f"caller {ask['caller']}: {asked_words(ask)}: {told_words(words, reply, end)}" for ask, reply in zip(asks, told or [])]
        if store is not None:
            lead = "" if told is None else "store: "
            parts.append(lead + (", ".join(named(words, held, end) for held in store) or "no object"))
        return ";".join(f" {part}" for part in parts)

    return lines_of(noun, [(compared(*end, all_shown), said(*end, all_shown)) for end, all_shown in zip(ends, shown)])
