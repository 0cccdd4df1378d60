"""Scripts of controllers, by docs/REFERENCE.md and docs/CLUSTERS.md. What a controller sends is read from the program; that its
rounds follow the state diagram, and that the store keeps its promises, is checked in the printed order."""
import json

from interleaved import Interleaved
from judging import Fault, check_replies, places_of, said_by, taken_in, word_of
from store_of_maps import WRITES, key_of, text_of
from traced import Traced, check_trace


def shown(request):
    """A request as it is printed: all that identifies it, and nothing else."""
    verb = request["do"]
    if "object" in request:
        held = request["object"]
        return {"do": verb, "object": {**held, "metadata": {**held["metadata"], "namespace": key_of(request)[1]}}}
    if verb == "compact":
        return {"do": verb, "resourceVersion": request["resourceVersion"]}
    names = ("name", "at", "resourceVersion", "uid") if verb == "delete" else ("name",) if verb == "get" else ("resourceVersion",)
    given = {name: request[name] for name in names if request.get(name) not in (None, "", "0")}
    return {"do": verb, "kind": request["kind"], "namespace": request.get("namespace") or "default", **given}


class Cluster:
    """The world of a script of controllers, whose requests are those that the program prints at their indices."""

    def __init__(self, size, turns, said, places):
        self.world = Interleaved(size["shards"], size["capacity"], places)
        self.callers = list(range(len(size["sets"])))
        self.owners = {caller: caller for caller in self.callers}
        self.names = [one["name"] for one in size["sets"]]
        self.namespaces = list(dict.fromkeys(one.get("namespace", "default") for one in size["sets"]))
        self.kubelet = None
        self.clients = {line["caller"] for line in turns if line["event"] in ("outside", "ask")}
        self.asked = {line["at"]: line for line in said if "controller" in line}

    def role(self, caller):
        """The words before a caller's number."""
        owner = self.owners.get(caller)
        if owner is None:
            return "" if caller in self.clients else "kubelet, "
        return f"{self.names[owner]}, controller {owner}, "

    def take(self, line):
        event, caller, controller = line["event"], line.get("caller"), line.get("controller")
        if event == "settle":
            self.settle(line["rounds"])
        elif controller is not None:
            if controller < len(self.callers):
                getattr(self, event)(controller)
        elif event == "run":
            self.world.run(caller)
        elif event == "ask":
            self.ask(caller, line["request"])
        elif event == "outside":
            self.outside(caller, line["request"])
        elif event == "raise" or caller in self.owners and (event != "crash" or caller not in self.callers):
            self.world.step(event, caller)

    def next(self, controller):
        caller = self.callers[controller]
        if caller in self.world.phases:
            return
        asked = self.asked.pop(self.world.count, {})
        if (asked.get("caller"), asked.get("controller")) != (caller, controller):
            raise Fault(f"controller {controller} does not ask as caller {caller} at {self.world.count}")
        self.world.call(caller, asked["request"])

    def run(self, controller):
        self.world.run(self.callers[controller])

    def crash(self, controller):
        self.world.step("crash", self.callers[controller])
        caller = self.unused()
        self.callers[controller], self.owners[caller] = caller, controller

    def unused(self):
        return next(number for number in range(len(self.owners) + 1) if number not in self.owners)

    def comes_next(self, controller):
        """The verb of what a controller sends by now, as it is printed, or None if it sends nothing."""
        asked = self.asked.get(self.world.count, {})
        is_its = asked.get("caller") == self.callers[controller] and self.callers[controller] not in self.world.phases
        return asked["request"]["do"] if is_its else None

    def ask_next(self, controller):
        self.next(controller)
        self.run(controller)

    def round(self, controller):
        """Until the next request is a get, which begins a round, or no reply comes."""
        self.ask_next(controller)
        while self.comes_next(controller) not in (None, "get"):
            self.ask_next(controller)

    def approach(self, controller):
        """The same, but no write is called."""
        if self.callers[controller] in self.world.phases or self.comes_next(controller) in ("get", "list"):
            self.ask_next(controller)
            while self.comes_next(controller) == "list":
                self.ask_next(controller)

    def outside(self, caller, request):
        if self.owners.get(caller) is None:
            self.owners[caller] = None
            self.world.call(caller, request)

    def ask(self, caller, request):
        """The reply to it, or None if it has none, for example because the caller is a controller's or waits for another reply."""
        if caller in self.world.phases or self.owners.get(caller) is not None:
            return None
        self.outside(caller, request)
        self.world.run(caller)
        return self.world.reply_of(caller)

    def settle(self, rounds):
        """The kubelet is the lowest caller that was not used before the first such line."""
        self.kubelet = self.unused() if self.kubelet is None else self.kubelet
        for _ in range(rounds):
            for controller in range(len(self.callers)):
                self.round(controller)
            self.world.run(self.kubelet)
            for namespace in self.namespaces:
                self.tend(namespace)

    def tend(self, namespace):
        listed = self.ask(self.kubelet, {"do": "list", "kind": POD, "namespace": namespace}) or {}
        for pod in listed.get("items", []):
            for request in turn_of(pod):
                self.ask(self.kubelet, request)

    def check_calls(self, said):
        """Each call is printed, with its caller."""
        wanted = []
        for at, (caller, request) in sorted(self.world.calls.items()):
            owner = self.owners[caller]
            named = {} if owner is None else {"controller": owner}
            wanted.append({"at": at, "caller": caller, **named, "request": shown(request)})
        for one, other in zip([line for line in said if "request" in line], wanted, strict=True):
            if text_of(one) != text_of(other):
                raise Fault(f"the call {text_of(one)}, where {text_of(other)} is to come")


READY = {"conditions": [{"status": "True", "type": "Ready"}], "phase": "Running"}


def turn_of(pod):
    """What the kubelet of a script sends for a pod."""
    meta = pod["metadata"]
    if "deletionTimestamp" in meta:
        yield {"do": "delete", "kind": POD, "name": meta["name"], "namespace": meta["namespace"], "uid": meta["uid"]}
    elif not is_ready(pod) and pod.get("status", {}).get("phase") not in ("Failed", "Succeeded"):
        yield {"do": "status", "object": {**pod, "status": READY}}


WRITTEN = ("Updated", "Unchanged")
ACCEPTED = {"create": ("Created",), "update": WRITTEN, "status": WRITTEN, "delete": ("Removed", "Marked", "Unchanged")}
# What a controller sends next: at 0 a get of its set, at 1 to 8 a list of these kinds, but at 4 the writes of its plan come
# first, and at 9 deletes of claims, or its set again.
SET, POD, REVISION, CLAIM = "StatefulSet", "Pod", "ControllerRevision", "PersistentVolumeClaim"
LISTS = ("", REVISION, POD, CLAIM, CLAIM, SET, POD, REVISION, CLAIM, "")
PLAN, COLLECTION = 4, 9


class Round:
    """A controller's state in its round, and what it listed there."""

    def __init__(self):
        self.begin(0, False)

    def begin(self, at, plans):
        self.at, self.plans, self.heard, self.pods = at, plans, set(), {}

    def hears(self, request, reply):
        verb, word = request["do"], word_of(reply)
        kind = request.get("kind") or request["object"]["kind"]
        if (verb, kind) == ("get", SET) and self.at in (0, COLLECTION):
            self.begin(1 if word == "Found" else PLAN, word == "Found")
        elif verb == "list" and kind == LISTS[self.at]:
            self.at += 1
            self.heard |= {held["metadata"]["uid"] for held in reply["items"]}
            if kind == POD:
                self.pods = {key_of({"object": held}): held for held in reply["items"]}
        elif verb in WRITES and self.at == PLAN and self.plans:
            self.at = PLAN if word in ACCEPTED[verb] else 0
        elif (verb, kind, self.at) != ("delete", CLAIM, COLLECTION):
            raise Fault(f"a controller asks {verb} {kind} where it stands at {self.at} of its round")


def is_ready(pod):
    status = pod.get("status", {})
    ready = any((one.get("type"), one.get("status")) == ("Ready", "True") for one in status.get("conditions", []))
    return ready and status.get("phase") == "Running"


def is_marked(pod):
    return "deletionTimestamp" in pod["metadata"]


def is_healthy(pod):
    return is_ready(pod) and not is_marked(pod)


def check_create(key, round, lives):
    """What a controller creates has a free name, and for a pod each lower one is healthy in its last list."""
    if key in lives:
        raise Fault(f"{key} lives twice")
    if round and key[0] == POD:
        name, ordinal = key[2].rsplit("-", 1)
        lower = [round.pods.get((POD, key[1], f"{name}-{number}")) for number in range(int(ordinal))]
        if key in round.pods or not all(pod and is_healthy(pod) for pod in lower):
            raise Fault(f"{key} is created out of turn")


def check_taken(held, round, objects):
    """What a controller marks or removes was in its lists; and no owner of a claim that it removes lives."""
    if held["metadata"]["uid"] not in round.heard:
        raise Fault(f"a controller takes {held['metadata']['name']}, which was not listed to it")
    owners = {owner["uid"] for owner in held["metadata"].get("ownerReferences", [])}
    here = {other["metadata"]["uid"] for key, other in objects.items() if key[1] == held["metadata"]["namespace"]}
    if held["kind"] == CLAIM and owners & here:
        raise Fault(f"claim {held['metadata']['name']} is removed beside an owner")


def check_promises(cluster, order, capacity):
    """Each round follows the state diagram, and the store keeps its promises in that order."""
    rounds, lives = {caller: Round() for caller, owner in cluster.owners.items() if owner is not None}, {}
    for caller, request, reply, objects in taken_in(cluster.world, order, capacity):
        round, word = rounds.get(caller), word_of(reply)
        if word == "Created":
            check_create(key_of(request), round, lives)
            lives[key_of(request)] = reply["object"]["metadata"]["uid"]
        elif word in ("Marked", "Removed"):
            if lives.get(key_of(request)) != reply["object"]["metadata"]["uid"]:
                raise Fault(f"{key_of(request)} is removed by another UID")
            if round:
                check_taken(reply["object"], round, objects)
            if word == "Removed":
                del lives[key_of(request)]
        if round:
            round.hears(request, reply)
        yield ("controller " if round else "") + f"{request['do']} {word} {request.get('kind') or request['object']['kind']}"


def run_cluster(program, lines):
    """Runs a script of controllers: what is printed, and in short what a plain store handles in the printed order."""
    said = [json.loads(line) for line in said_by(program, ["cluster"], lines)]
    requests = [line["request"] for line in [*lines, *said] if "request" in line]
    keys = {key_of(request) for request in requests if request["do"] not in ("list", "compact")}
    cluster = Cluster(lines[0], lines[1:], said, places_of(program, lines[0]["shards"], keys))
    traced = Traced(cluster.world, cluster.role)
    for number, line in enumerate(lines[1:], 2):
        with traced.section(number):
            cluster.take(line)
    if cluster.asked:
        raise Fault(f"a request at {min(cluster.asked)} that no line calls for")
    trace, writes = (said_by(program, ["cluster", form], lines) for form in ("--trace", "--writes"))
    check_trace(traced, [line for line in trace if "plan refused" not in line], writes)
    cluster.check_calls(said)
    check_replies(cluster.world, said)
    return said, list(check_promises(cluster, said[-1]["order"], lines[0]["capacity"]))
