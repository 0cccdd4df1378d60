"""Compact lines of each kind that `serve` answers without a tree of them, and the same lines with a space, for checks/costs."""
import json

COUNT = 300  # lines of a load
LONG = 20  # lines of a load of long ones
TEXT = 100_000  # bytes of a text in a long line
SPEC = {"containers": [{"args": ["-c", "port=5432"], "image": "postgres:16", "name": "db"}], "text": "t" * 300}
KINDS = ("Pod", "StatefulSet", "PersistentVolumeClaim")
OTHER = '{"do":"list","kind":"Pod","namespace":"other"}\n'


def line(request):
    return json.dumps(request, separators=(",", ":"), sort_keys=True) + "\n"


def spaced(text):
    """The lines with a space in each, so that none is compact."""
    return text.replace("}\n", " }\n")


def written(verb, kind, name, members, **meta):
    return line({"do": verb, "object": {"kind": kind, "metadata": {"name": name, **meta}, **members}})


def creates(kind, spec=SPEC, count=COUNT, **meta):
    members = {} if spec is None else {"spec": spec}
    return "".join(written("create", kind, f"x{number}", members, **meta) for number in range(count))


def updates(kind):
    """Each object gets another spec."""
    return "".join(written("update", kind, f"x{number}", {"spec": {**SPEC, "number": number}}) for number in range(COUNT))


def statuses(kind):
    return "".join(written("status", kind, f"x{number}", {"status": {"number": number}}) for number in range(COUNT))


def gets(kind):
    return "".join(line({"do": "get", "kind": kind, "name": f"x{number}", "namespace": "default"}) for number in range(COUNT))


def owners(length):
    owner = {"apiVersion": "apps/v1", "controller": True, "kind": "StatefulSet", "name": "w" * length}
    return [{**owner, "uid": "00000000-0000-4000-8000-000000000001"}]


def turns_of_one():
    """Updates of one object, of one generation after another."""
    return "".join(written("update", "Pod", "x0", {"spec": {**SPEC, "number": number}}) for number in range(COUNT))


def loads():
    """For each what its lines are, the lines before it, and its lines."""
    for kind in KINDS:
        yield f"creates of {kind}s", "", creates(kind)
        yield f"updates of {kind}s", creates(kind), updates(kind)
        yield f"status requests of {kind}s", creates(kind), statuses(kind)
    yield "creates with labels", "", creates("Pod", labels={"app": "db", "zone": "a"})
    yield "creates with an owner", "", creates("Pod", ownerReferences=owners(3))
    yield "creates with an owner of 300 bytes", "", creates("Pod", ownerReferences=owners(300))
    yield "creates of 100,000 bytes", "", creates("Pod", {"text": "t" * TEXT}, LONG)
    yield "creates without a spec", "", creates("Pod", None)
    yield "updates of later generations", creates("Pod"), turns_of_one()
    yield "creates after a line that is not compact", spaced(OTHER), creates("Pod")
