"""The interleaved store, by docs/INTERLEAVINGS.md, and the runs of docs/REFERENCE.md: slow, and with every number kept."""
from store_of_maps import WRITES, answered, denied, drawn, key_of, listed, refused, verdict


class Interleaved:
    """Callers that race over shards. `places` gives the shard of each key."""

    def __init__(self, shards, capacity, places):
        self.shards, self.capacity, self.places = shards, capacity, places
        self.count, self.counter, self.frontier, self.floor = 0, 0, 0, 0
        self.filled, self.held, self.phases = {}, {}, {}
        # The callers and requests by the indices of their calls; the indices of open calls; and by the indices of calls the
        # replies, each with its index.
        self.calls, self.opened, self.replies = {}, {}, {}

    def objects_at(self, number):
        """What was there at that number, if all those up to it are filled."""
        found = {}
        for at in sorted(at for at in self.filled if at <= number):
            found[self.filled[at][0]] = self.filled[at][1]
        return {key: held for key, held in found.items() if held is not None}

    def newest(self, key):
        """The greatest number of a key, 0 if it has none, and what is there."""
        number = max((at for at, (name, _) in self.filled.items() if name == key), default=0)
        return number, self.filled[number][1] if number else None

    def is_open(self, caller):
        return caller in self.phases and self.phases[caller][0] != "gone"

    def call(self, caller, request):
        if caller not in self.phases:
            self.calls[self.count], self.opened[caller] = (caller, request), self.count
            self.phases[caller] = "called", self.count
        self.count += 1

    def step(self, event, caller=None):
        """One event; if it is not enabled it changes nothing, and still has an index."""
        phase = self.phases.get(caller, ("idle",))
        if event == "raise":
            self.frontier += self.frontier + 1 in self.filled
        elif event == "crash":
            self.crash(caller, phase)
        elif phase[0] == "called" and event == self.first_step(phase[1]):
            self.phases[caller] = getattr(self, event)(caller, phase[1], self.calls[phase[1]][1]) or phase
        elif (phase[0], event) == ("holding", "reserve"):
            self.reserve(caller, phase)
        elif phase[0] in ("drawn", "gone") and event == "publish" and len(phase) > 1:
            self.publish(caller, phase)
        elif (phase[0], event) == ("reading", "part") and phase[3] > 0:
            self.phases[caller] = (*phase[:3], phase[3] - 1)
        elif event == "reply" and (reply := self.ready(phase)):
            self.replies[self.opened[caller]] = self.count, reply
            del self.phases[caller]
        self.count += 1

    def first_step(self, place):
        request = self.calls[place][1]
        if request["do"] in WRITES:
            return "check"
        if request["do"] == "list" and int(request.get("resourceVersion") or 0):
            return "readat"
        return "compact" if request["do"] == "compact" else "read"

    def check(self, caller, place, request):
        key = key_of(request)
        shard = self.places[key]
        if shard in self.held:
            return None
        number, current = self.newest(key)
        reply, change = verdict(request, current)
        if reply:
            return "waiting", number, reply
        self.held[shard] = caller
        return "holding", key, change

    def reserve(self, caller, phase):
        if self.counter == self.capacity:
            del self.held[self.places[phase[1]]]
            self.phases[caller] = "waiting", self.capacity, refused("StoreFull")
        else:
            self.counter += 1
            self.phases[caller] = "drawn", phase[1], self.counter, *drawn(phase[2], self.counter)

    def publish(self, caller, phase):
        was, key, number, held, reply = phase
        self.filled[number] = key, held
        del self.held[self.places[key]]
        self.phases[caller] = ("gone",) if was == "gone" else ("waiting", number, reply)

    def read(self, caller, place, request):
        parts = 1 if request["do"] == "get" else self.shards
        return "reading", request, self.frontier, parts

    def readat(self, caller, place, request):
        number = int(request["resourceVersion"])
        reply = denied(number, self.frontier, self.floor)
        return ("waiting", 0, reply) if reply else ("reading", request, number, self.shards)

    def compact(self, caller, place, request):
        number = int(request["resourceVersion"])
        reply = denied(number, self.frontier, self.floor)
        if reply is None:
            self.floor = number
            reply = {"code": 200, "resourceVersion": str(number), "result": "Compacted"}
        return "waiting", 0, reply

    def ready(self, phase):
        """The reply that may be given now, or None."""
        if phase[0] == "waiting" and phase[1] <= self.frontier:
            return phase[2]
        if phase[0] != "reading" or phase[3] > 0:
            return None
        objects = self.objects_at(phase[2])
        if phase[1]["do"] == "list":
            return listed(phase[1], objects, phase[2])
        found = objects.get(key_of(phase[1]))
        return answered("Found", found) if found else refused("NotFound")

    def crash(self, caller, phase):
        if phase[0] == "holding":
            del self.held[self.places[phase[1]]]
        left = phase[1:] if phase[0] in ("drawn", "gone") else ()
        self.phases[caller] = ("gone", *left)

    def reply_of(self, caller):
        """The reply to the caller's last request, or None if it has none."""
        if caller in self.phases:
            return None
        last = max(place for place, (by, _) in self.calls.items() if by == caller)
        return self.replies[last][1]

    def next_step(self, caller):
        """The step that helps the caller while no other caller moves, or None."""
        phase = self.phases[caller]
        if phase[0] == "called":
            step = self.first_step(phase[1])
            return None if step == "check" and self.places[key_of(self.calls[phase[1]][1])] in self.held else step
        if phase[0] == "waiting" and phase[1] > self.frontier:
            return "raise" if self.frontier + 1 in self.filled else None
        if phase[0] == "reading" and phase[3]:
            return "part"
        return {"holding": "reserve", "drawn": "publish"}.get(phase[0], "reply")

    def run(self, caller):
        """The steps of a caller up to its reply, or as far as steps help."""
        while self.is_open(caller) and (step := self.next_step(caller)):
            self.step(step, None if step == "raise" else caller)
