"""A slow store that keeps every map that there ever was, written from docs/REFERENCE.md alone: the result of each request, as
the members of its reply line. checks/model compares it with what `serve` replies, checks/races with what an order of requests
gives.
"""
import json

CODES = {"NotFound": 404, "AlreadyExists": 409, "Conflict": 409, "Invalid": 422, "StoreFull": 507, "Expired": 410, "TooLarge": 504}
WRITES = ("create", "update", "status", "delete")


def refused(reason):
    return {"code": CODES[reason], "reason": reason}


def answered(result, held):
    return {"code": 201 if result == "Created" else 200, "object": held, "result": result}


def text_of(value):
    """The compact text of a JSON value, keys in order; two values are the same if their texts are."""
    return json.dumps(value, ensure_ascii=False, separators=(",", ":"), sort_keys=True)


def same_member(name, left, right):
    """Whether both have the same value there, or neither has one."""
    return text_of([left[name]] if name in left else []) == text_of([right[name]] if name in right else [])


def uid_of(number):
    return f"00000000-0000-4000-8000-{number:012x}"


def number_of(uid):
    """The number of a UID that a store gave."""
    return int(uid.rpartition("-")[2], 16)


def key_of(request):
    """The kind, the namespace and the name that a request names."""
    named = request.get("object", request)
    meta = named.get("metadata", named)
    return named["kind"], meta.get("namespace") or "default", meta["name"]


def with_meta(held, **members):
    """The same object with these members of its metadata; one that is None is removed."""
    others = {name: value for name, value in held["metadata"].items() if name not in members}
    return {**held, "metadata": {**others, **{name: value for name, value in members.items() if value is not None}}}


def with_status(held, other):
    """The same object with the status of another, or with none."""
    rest = {name: value for name, value in held.items() if name != "status"}
    return {**rest, "status": other["status"]} if "status" in other else rest


def made(request):
    """What a create makes, before its number is allocated."""
    given = request["object"]
    body = given if given["kind"] == "ControllerRevision" else with_status(given, {})
    return with_meta(body, namespace=key_of(request)[1], deletionTimestamp=None, generation=1)


def replaced(current, given):
    """What an update makes of an object, before its number is allocated."""
    body = given if given["kind"] == "ControllerRevision" else with_status(given, current)
    kept = {name: current["metadata"].get(name) for name in ("deletionTimestamp", "namespace", "resourceVersion", "uid")}
    rises = not same_member("spec", current, given)
    return with_meta(body, generation=current["metadata"]["generation"] + rises, **kept)


def conflicts(current, handed):
    """Whether a UID or a version is given that is not the current one."""
    return any(handed.get(name) and handed[name] != current["metadata"][name] for name in ("uid", "resourceVersion"))


def verdict(request, current):
    """The result of a write over the object that its key has: a reply, or the result and the object of a change."""
    verb, given = request["do"], request.get("object")
    kind = key_of(request)[0]
    if verb == "create":
        if given["metadata"].get("resourceVersion"):
            return refused("Invalid"), None
        return (refused("AlreadyExists"), None) if current else (None, ("Created", made(request)))
    if verb == "status" and kind == "ControllerRevision":
        return refused("Invalid"), None
    if not current:
        return refused("NotFound"), None
    if conflicts(current, given["metadata"] if given else request):
        return refused("Conflict"), None
    if verb == "delete":
        if kind != "Pod" or not request.get("at"):
            return None, ("Removed", current)
        if "deletionTimestamp" in current["metadata"]:
            return answered("Unchanged", current), None
        return None, ("Marked", with_meta(current, deletionTimestamp=request["at"]))
    if verb == "update" and kind == "ControllerRevision" and not same_member("data", current, given):
        return refused("Invalid"), None
    new = replaced(current, given) if verb == "update" else with_status(current, given)
    return (answered("Unchanged", current), None) if text_of(new) == text_of(current) else (None, ("Updated", new))


def drawn(change, number):
    """What a change leaves under its key at the number that it allocates, and its reply."""
    result, held = change
    held = with_meta(held, resourceVersion=str(number))
    if result == "Created":
        held = with_meta(held, uid=uid_of(number))
    return None if result == "Removed" else held, answered(result, held)


def listed(request, objects, number):
    """The reply to a list over what was there at that number."""
    wanted = request["kind"], request.get("namespace") or "default"
    items = [objects[key] for key in sorted(objects) if key[:2] == wanted]
    return {"code": 200, "items": items, "resourceVersion": str(number), "result": "Listed"}


def denied(number, newest, floor):
    """Why a number cannot be read, or None."""
    if number > newest:
        return refused("TooLarge")
    return refused("Expired") if number < floor else None


class Store:
    """Handles whole requests, one after another. What was there at each number is kept."""

    def __init__(self, capacity):
        self.capacity, self.floor, self.past = capacity, 0, [{}]

    @property
    def objects(self):
        return self.past[-1]

    def take(self, request):
        newest, verb = len(self.past) - 1, request["do"]
        if verb == "get":
            found = self.objects.get(key_of(request))
            return answered("Found", found) if found else refused("NotFound")
        if verb in WRITES:
            return self.write(request, newest + 1)
        number = int(request.get("resourceVersion") or 0)
        if verb == "list":
            at = number or newest
            return number and denied(number, newest, self.floor) or listed(request, self.past[at], at)
        reply = denied(number, newest, self.floor)
        if reply is None:
            self.floor = number
            reply = {"code": 200, "resourceVersion": str(number), "result": "Compacted"}
        return reply

    def write(self, request, number):
        key = key_of(request)
        reply, change = verdict(request, self.objects.get(key))
        if reply:
            return reply
        if number > self.capacity:
            return refused("StoreFull")
        held, reply = drawn(change, number)
        self.past.append({name: value for name, value in {**self.objects, key: held}.items() if value is not None})
        return reply
