"""What a controller plans, by docs/PLANS.md: for a set whose pods come in order from 0 on, and are updated by a RollingUpdate with
no partition.
"""
import hashlib
import itertools

from clusters import CLAIM, POD, REVISION, SET, is_healthy, is_marked, is_ready
from store_of_maps import text_of

MOMENT = "2024-01-01T00:00:00Z"
DIGITS, KEPT = 10, 10  # of a revision's name; old revisions
HASH = "controller-revision-hash"


def name_of(held):
    return held["metadata"]["name"]


def is_failed(pod):
    return pod.get("status", {}).get("phase") in ("Failed", "Succeeded")


def is_at(pod, revision):
    return pod["metadata"].get("labels", {}).get(HASH) == name_of(revision)


def uid_in(held):
    return held["metadata"]["uid"]


def owners_of(held):
    return held["metadata"].get("ownerReferences", [])


def is_owned(web, held):
    """Whether the set controls it."""
    return any(owner.get("controller") is True and owner["uid"] == uid_in(web) for owner in owners_of(held))


def owner_entry(owner):
    return {"apiVersion": "v1" if owner["kind"] == POD else "apps/v1", "kind": owner["kind"], "name": name_of(owner), "uid": uid_in(owner)}


def owned(web, kind, name, **members):
    """A new object that the set controls."""
    owner = {**owner_entry(web), "blockOwnerDeletion": True, "controller": True}
    metadata = {"name": name, "namespace": web["metadata"]["namespace"], "ownerReferences": [owner]}
    version = "v1" if kind == POD else "apps/v1"
    return {"apiVersion": version, "kind": kind, "metadata": {**metadata, **members.pop("metadata", {})}, **members}


def delete_of(held, **members):
    named = {"kind": held["kind"], "name": name_of(held), "namespace": held["metadata"]["namespace"], "uid": uid_in(held)}
    return {"do": "delete", **named, **members}


def revision_write(web, revisions, data):
    """The write of a revision, if the newest of these, which is the last, does not have that data."""
    same = [held for held in revisions if text_of(held["data"]) == text_of(data)]
    if revisions and same[-1:] == revisions[-1:]:
        return None
    number = revisions[-1]["revision"] + 1 if revisions else 1
    if same:
        return {"do": "update", "object": {**same[-1], "revision": number}}
    counts = itertools.count(web.get("status", {}).get("collisionCount", 0))
    hashes = (hashlib.sha256(f"{text_of(data)}{count}".encode()).hexdigest() for count in counts)
    names = (f"{name_of(web)}-{digits[:DIGITS]}" for digits in hashes)
    name = next(name for name in names if name not in map(name_of, revisions))
    return {"do": "create", "object": owned(web, REVISION, name, data=data, revision=number)}


# Pods and their claims.


def claim_templates(web):
    return web["spec"].get("volumeClaimTemplates") or []


def claim_name(template, pod):
    """The name of the claim of a pod of this name."""
    return f"{name_of(template)}-{pod}"


def creation(web, name, revision):
    template, claims = revision["data"]["spec"]["template"], claim_templates(web)
    meta, spec = template.get("metadata", {}), {**template.get("spec", {}), "hostname": name}
    ordinal = name.rpartition("-")[2]
    labels = {"apps.kubernetes.io/pod-index": ordinal, HASH: name_of(revision), "statefulset.kubernetes.io/pod-name": name}
    given = {"annotations": meta["annotations"]} if "annotations" in meta else {}
    if web["spec"].get("serviceName"):
        spec["subdomain"] = web["spec"]["serviceName"]
    if claims:
        others = [volume for volume in spec.get("volumes", []) if volume["name"] not in map(name_of, claims)]
        spec["volumes"] = [{"name": name_of(one), "persistentVolumeClaim": {"claimName": claim_name(one, name)}} for one in claims] + others
    metadata = {**given, "labels": {**meta.get("labels", {}), **labels}}
    return {"do": "create", "object": owned(web, POD, name, metadata=metadata, spec=spec)}


def goes(web, when):
    return web["spec"].get("persistentVolumeClaimRetentionPolicy", {}).get(when) == "Delete"


def owners_wanted(web, name, entries, condemned=None):
    """The owners that a claim of the pod of this name is to have, where it has these. A pod that is condemned is given."""
    owner = condemned if condemned and goes(web, "whenScaled") else web if goes(web, "whenDeleted") else None

    def stays(entry):
        is_owner = owner is not None and entry["uid"] == uid_in(owner)
        if (entry.get("kind"), entry.get("name")) == (POD, name):
            return is_owner and owner is condemned
        return is_owner or entry["uid"] != uid_in(web)

    kept = [entry for entry in entries if stays(entry)]
    return kept if owner is None or any(entry["uid"] == uid_in(owner) for entry in kept) else [*kept, owner_entry(owner)]


def with_owners(claim, entries):
    metadata = {**claim["metadata"], "ownerReferences": entries}
    return {**claim, "metadata": {name: value for name, value in metadata.items() if name != "ownerReferences" or value}}


def claim_made(web, template, name):
    meta, more = template["metadata"], {"spec": template["spec"]} if "spec" in template else {}
    labels = {**meta.get("labels", {}), **web["spec"].get("selector", {}).get("matchLabels", {})}
    metadata = {"name": claim_name(template, name), "namespace": web["metadata"]["namespace"], **({"labels": labels} if labels else {})}
    metadata.update({"annotations": meta["annotations"]} if "annotations" in meta else {})
    made = {"apiVersion": "v1", "kind": CLAIM, "metadata": metadata, **more}
    return {"do": "create", "object": with_owners(made, owners_wanted(web, name, []))}


def claim_writes(web, name, claims, makes=False, condemned=None):
    """The updates of the claims of a pod with other owners than wanted; and, before it is made, the creates of those it lacks."""
    for template in claim_templates(web):
        claim = claims.get(claim_name(template, name))
        if claim is None:
            if makes:
                yield claim_made(web, template, name)
            continue
        wanted = owners_wanted(web, name, owners_of(claim), condemned)
        if wanted != owners_of(claim):
            yield {"do": "update", "object": with_owners(claim, wanted)}


def pod_steps(web, pods, claims, update):
    """What is done with claims and one pod, and whether no pod is made, deleted or waited for."""
    count, asks = web["spec"]["replicas"], []
    for ordinal in range(count):
        pod, name = pods.get(ordinal), f"{name_of(web)}-{ordinal}"
        if pod is None:
            return [*asks, *claim_writes(web, name, claims, makes=True), creation(web, name, update)], False
        if not is_healthy(pod):
            return [*asks, *([delete_of(pod, at=MOMENT)] if is_failed(pod) and not is_marked(pod) else [])], False
        asks += claim_writes(web, name, claims)
    condemned = [pods[ordinal] for ordinal in sorted(pods) if ordinal >= count]
    if condemned:
        *others, last = condemned
        if is_marked(last) or not all(map(is_healthy, others)):
            return asks, False
        return [*asks, *claim_writes(web, name_of(last), claims, condemned=last), delete_of(last, at=MOMENT)], False
    outdated = [pods[ordinal] for ordinal in range(count) if not is_at(pods[ordinal], update)]
    return [*asks, *(delete_of(pod, at=MOMENT) for pod in outdated[-1:])], not outdated


# The rest of a plan.


def history_deletes(revisions, pods, live):
    """The deletes of old revisions: all but the last ones that are neither live nor a pod's."""
    spare = [held for held in revisions if held not in live and not any(is_at(pod, held) for pod in pods)]
    return [delete_of(held, resourceVersion=held["metadata"]["resourceVersion"]) for held in spare[:-KEPT]]


def status_write(web, pods, current, update):
    """The write of the set's status, if it has changed."""
    staying = [pod for pod in pods if not is_marked(pod)]
    old = web.get("status", {})
    status = {
        **old,
        "collisionCount": old.get("collisionCount", 0),
        "currentReplicas": sum(is_at(pod, current) for pod in staying),
        "currentRevision": name_of(current),
        "observedGeneration": web["metadata"]["generation"],
        "readyReplicas": sum(map(is_ready, pods)),
        "replicas": len(pods),
        "updateRevision": name_of(update),
        "updatedReplicas": sum(is_at(pod, update) for pod in staying),
    }
    return [] if text_of(status) == text_of(old) else [{"do": "status", "object": {**web, "status": status}}]


def ordinal_of(web, held):
    """The ordinal that a name of a pod has, or None if it is not one of the set's names."""
    name, _, ordinal = name_of(held).rpartition("-")
    return int(ordinal) if name == name_of(web) and ordinal.isdecimal() and str(int(ordinal)) == ordinal else None


def planned(web, revisions, pods, claims=()):
    """The requests of the plan over these lists; none if a pod in range is not the set's."""
    numbered = [(ordinal_of(web, pod), pod) for pod in pods if ordinal_of(web, pod) is not None]
    if any(ordinal < web["spec"]["replicas"] and not is_owned(web, pod) for ordinal, pod in numbered):
        return []
    ordinals = {ordinal: pod for ordinal, pod in numbered if is_owned(web, pod)}
    pods = [ordinals[ordinal] for ordinal in sorted(ordinals)]
    revisions = sorted((held for held in revisions if is_owned(web, held)), key=lambda held: (held["revision"], name_of(held)))
    write = revision_write(web, revisions, {"spec": {"template": web["spec"]["template"]}})
    if write:
        return [write]
    named = web.get("status", {}).get("currentRevision")
    update = revisions[-1]
    current = next((held for held in revisions if name_of(held) == named), update)
    steps, is_done = pod_steps(web, ordinals, {name_of(claim): claim for claim in claims}, update)
    if set(ordinals) == set(range(web["spec"]["replicas"])) and all(is_healthy(pod) and is_at(pod, update) for pod in pods):
        current = update
    deletes = history_deletes(revisions, pods, (current, update)) if is_done else []
    return [*steps, *deletes, *status_write(web, pods, current, update)]
