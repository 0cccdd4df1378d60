"""What the callers of a race send, by docs/RUNNING.md: each a generator of requests, which gets the reply to each."""
import math

from clusters import ACCEPTED, CLAIM, COLLECTION, LISTS, PLAN, POD, REVISION, SET, is_marked, is_ready
from judging import get_of, word_of
from plans import claim_templates, delete_of, planned
from store_of_maps import number_of, uid_of

WEB = SET, "default", "web"
READY = {"conditions": [{"status": "True", "type": "Ready"}], "phase": "Running"}
TURNS = 64  # of the kubelet, for each round
LEFT_OUT = "left out"  # in place of a read whose reply would change nothing that is sent after it


def set_of(replicas, template, **members):
    kind, namespace, name = WEB
    spec = {"replicas": replicas, "template": template, **members}
    return {"apiVersion": "apps/v1", "kind": kind, "metadata": {"name": name, "namespace": namespace}, "spec": spec}


def list_of(kind, namespace="default"):
    return {"do": "list", "kind": kind, "namespace": namespace}


def creator(replicas):
    yield {"do": "create", "object": set_of(replicas, {})}


def controller(rounds):
    for _ in range(rounds):
        yield from a_round()


def a_round(web=WEB, spares=False):
    """From the read of the set to the next one (docs/CLUSTERS.md). A refused delete of a claim is skipped. It may spare reads whose
    replies change nothing: the claims for the plan of a set without claim templates, and owners where no claim can be collected."""
    read = yield get_of(web)
    if word_of(read) == "Found":
        listed = {CLAIM: []}
        for kind in LISTS[1:PLAN]:
            if spares and kind == CLAIM and not claim_templates(read["object"]):
                yield LEFT_OUT
            else:
                listed[kind] = (yield list_of(kind, web[1]))["items"]
        for request in planned(read["object"], listed[REVISION], listed[POD], listed[CLAIM]):
            reply = yield request
            if word_of(reply) not in ACCEPTED[request["do"]]:
                return
    lists = []
    for kind in LISTS[PLAN:COLLECTION]:
        if spares and lists and not any(collection(*lists)):
            yield LEFT_OUT
        else:
            lists.append((yield list_of(kind, web[1])))
    if not spares or len(lists) == COLLECTION - PLAN:
        yield from collection(*lists)


def is_gone(uid, here, read_at):
    """Whether no owner has the UID any more: its number, which is that of its create, was allocated before all these lists of owners
    were read, and none of them has it; or no store gives it."""
    try:
        number = number_of(uid)
    except ValueError:
        return True
    return uid != uid_of(number) or uid not in here and number <= read_at


def collection(claims, *owners):
    """The deletes of the listed claims whose every owner is gone for good, by these lists of owners."""
    read_at = min((int(reply["resourceVersion"]) for reply in owners), default=math.inf)
    here = {held["metadata"]["uid"] for reply in owners for held in reply["items"]}
    for claim in claims["items"]:
        uids = [owner["uid"] for owner in claim["metadata"].get("ownerReferences", [])]
        if uids and all(is_gone(uid, here, read_at) for uid in uids):
            yield delete_of(claim, resourceVersion=claim["metadata"]["resourceVersion"])


def kubelet():
    while True:
        listed = yield list_of(POD)
        for pod in listed["items"]:
            if is_marked(pod):
                yield delete_of(pod)
            elif not is_ready(pod):
                yield {"do": "status", "object": {**pod, "status": READY}}


def operator(replicas, rounds):
    """Four requests for each release of the template, by turns."""
    for turn in range(rounds):
        release, step = divmod(turn, 4)
        template = {"metadata": {"labels": {"release": str(release + (step > 0))}}}
        web = set_of(replicas if step == 3 else replicas + 1, template)
        pod = {"apiVersion": "v1", "kind": POD, "metadata": {"name": "web-0", "namespace": "default"}, "status": {"phase": "Failed"}}
        yield {"do": "status", "object": pod} if step == 2 else {"do": "update", "object": web}
