"""The trace of a run, and its writes, by docs/REFERENCE.md: a line for each event, with its caller's state after it; and a line for
each write, at its reply or at the crash of its caller."""
from contextlib import contextmanager

from judging import Fault
from store_of_maps import WRITES, key_of


def version_words(text):
    """The version in a write's precondition. Only the text of a version is repeated."""
    if text in (None, ""):
        return ""
    is_version = text.isascii() and text.isdigit() and text[0] != "0" and int(text) < 2**64
    return f" at {text}" if is_version else " at an unknown version"


def request_words(request):
    verb = request["do"]
    if verb == "compact":
        return f"compact to {int(request['resourceVersion'])}"
    if verb == "list":
        at = int(request.get("resourceVersion") or 0)
        return f"list {request['kind']}/{request.get('namespace') or 'default'}" + (f" at {at}" if at else "")
    asked = request if verb == "delete" else request.get("object", {}).get("metadata", {})
    version = asked.get("resourceVersion") if verb in ("update", "status", "delete") else None
    return f"{verb} {'/'.join(key_of(request))}" + version_words(version)


def reply_words(reply):
    if "object" in reply:
        return f"{reply['result']}, version {reply['object']['metadata']['resourceVersion']}"
    if "items" in reply:
        return f"Listed {len(reply['items'])}, version {reply['resourceVersion']}"
    return f"Compacted, version {reply['resourceVersion']}" if "result" in reply else reply["reason"]


def standing_words(world, phase):
    """A caller's state, and what has to come before it moves on."""
    name = phase[0]
    if name == "called":
        request = world.calls[phase[1]][1]
        shard = world.places[key_of(request)] if request["do"] in WRITES else None
        held = ", which is held" if shard in world.held else ""
        return f"next is {world.first_step(phase[1])}" + ("" if shard is None else f", in shard {shard}{held}")
    if name == "holding":
        return f"holds shard {world.places[phase[1]]}"
    if name == "drawn":
        return f"holds shard {world.places[phase[1]]}, has drawn {phase[2]}"
    if name == "waiting":
        return "next is reply" if phase[1] <= world.frontier else f"waits for the frontier to reach {phase[1]}"
    if name == "reading":
        return f"reads at {phase[2]}, parts left: {phase[3]}" if phase[3] else f"has read at {phase[2]}, next is reply"
    if len(phase) > 1:
        return f"gone, {phase[2]} is still to be published in shard {world.places[phase[1]]}"
    return name


# The steps after which a caller may wait for its reply at once, and what is said of it then: a write was not accepted, no number
# was left for it, or a list at a version was denied.
DENIED = {"check": "not accepted, ", "reserve": "no number is left, ", "readat": "denied, "}


class Traced:
    """Watches a world, and keeps a line for each event, and for each write."""

    def __init__(self, world, role=lambda caller: ""):
        self.world, self.role, self.lines, self.writes = world, role, [], []
        self.taken = {"call": world.call, "step": world.step}
        world.call, world.step = self.call, self.step

    @contextmanager
    def section(self, number):
        """What happens within is under the line of a script of that number."""
        had = len(self.lines)
        yield
        self.lines.insert(had, f"line {number}:" if len(self.lines) > had else f"line {number}: nothing")

    def call(self, caller, request):
        self.trace(caller, request_words(request), lambda: self.taken["call"](caller, request))

    def step(self, event, caller=None):
        self.trace(caller, event, lambda: self.taken["step"](event, caller))

    def trace(self, caller, words, take):
        world, place = self.world, self.world.count
        before, replies = (world.phases.get(caller), world.frontier), len(world.replies)
        asked = world.calls[world.opened[caller]][1] if world.is_open(caller) else None
        take()
        was_enabled = before != (world.phases.get(caller), world.frontier)
        who = "" if caller is None else f"{self.role(caller)}caller {caller}: "
        end = words if words == "crash" else None
        if len(world.replies) > replies:
            end = reply_words(next(reply for at, reply in world.replies.values() if at == place))
            words += " " + end
        if end and asked and asked["do"] in WRITES:
            self.writes.append(f"{place}: {who}{request_words(asked)}: {end}")
        phase = world.phases.get(caller, ("idle",))
        where = standing_words(world, phase)
        if was_enabled and phase[0] == "waiting":
            where = DENIED.get(words, "") + where
        if caller is None:
            where = f"the frontier is {world.frontier}" + ("" if was_enabled else f", and {world.frontier + 1} is not filled")
        self.lines.append(f"{place}: {who}{words}: {'' if was_enabled else 'not enabled: '}{where}")


def check_lines(what, said, lines):
    for one, other in zip(said, lines):
        if one != other:
            raise Fault(f"the {what} says {one!r}, where {other!r} is to come")
    if len(said) != len(lines):
        raise Fault(f"a {what} of {len(said)} lines, where {len(lines)} are to come")


def check_trace(traced, said, writes):
    """The printed lines are those of the model, and those of the writes."""
    check_lines("trace", said, traced.lines)
    check_lines("list of writes", writes, traced.writes)
