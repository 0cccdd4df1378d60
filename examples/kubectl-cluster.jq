# A script of `stsctl cluster` over a list of kubectl: its objects are created, each set has a controller, and these and a
# kubelet settle. The kubelet makes each pod ready that has not failed, also one that is stuck:
# jq -c [--arg delete POD] [--arg rounds N] -f kubectl-cluster.jq LIST.json
# POD is deleted first, as by `kubectl delete pod`. N is the rounds of settling, else 20; with 0 there is none.
# The n-th write of a store gives the UID n. So the objects are created first, each with the number of its place, and an owner
# that is not listed gets a UID that no store gives: it is gone. For one of a kind that is never listed a claim of its name is
# created, so that the claims that it owns stay.
include "kubectl-list" {search: "./"};

def asked: {caller: 9999, event: "ask", request: .};
def is_set: .kind == "StatefulSet";

# Stands for an owner of claims of another kind than those of the list.
def stand_ins:
    [.[] | select(.kind == "PersistentVolumeClaim") | namespace as $namespace | owners
        | select((is_of_sets | not) and (.uid | type) == "string")
        | {kind: "PersistentVolumeClaim", metadata: {name: "\(.kind).\(.name)" | ascii_downcase, namespace: $namespace, uid}}]
    | unique_by(.metadata.uid);

# As the object is created: without a status, and with the UIDs of its owners as the store gives them.
def created($numbers):
    (owners.uid | strings) |= (. as $uid | $numbers[$uid] // "unlisted-\($uid)")
    | del(.metadata.uid, .metadata.resourceVersion, .status)
    | {do: "create", object: .} | asked;

# The status as it is written, of the first generation if it is of the newest.
def status_written:
    if is_set and (.status.observedGeneration | numbers) then
        .status.observedGeneration = if .status.observedGeneration == .metadata.generation then 1 else 0 end
    else . end
    | {do: "status", object: {kind, metadata: {name: .metadata.name, namespace: namespace}, status}} | asked;

def marked($at): {do: "delete", kind, name: .metadata.name, namespace: namespace, at: $at} | asked;

# What is wrong with objects that are listed, but not with the list; also if the pod that is to be deleted is not one.
def unfit($delete; $deleted):
    (.[] | select(is_set) | select(.metadata.name | test("^[a-z0-9]([-a-z0-9]{0,61}[a-z0-9])?$") | not)
        | "the name of \(called) is no DNS label"),
    (twice(called) | "\(.[0] | called) is there twice"),
    (select($delete != null and ($deleted | length) != 1) | "\($deleted | length) pods are called \($delete)");

whole
| [.items[] | select(is_of_sets) | plain]
| . + stand_ins
| $ARGS.named.delete as $delete
| [.[] | select(.kind == "Pod" and .metadata.name == $delete)] as $deleted
| first(unfit($delete; $deleted), null) as $fault
| if $fault then $fault | refuse else . end
| (to_entries | map({key: .value.metadata.uid, value: (.key + 1 | store_uid)}) | from_entries) as $numbers
| {capacity: 1048576, sets: [.[] | select(is_set) | {name: .metadata.name, namespace: namespace}], shards: 1},
  (.[] | created($numbers)),
  (.[] | select(.status and .kind != "ControllerRevision") | status_written),
  (.[] | select(.kind == "Pod" and .metadata.deletionTimestamp) | marked(.metadata.deletionTimestamp)),
  ($deleted[] | marked("2024-01-01T00:00:00Z")),
  ($ARGS.named.rounds // 20 | tonumber | select(. > 0) | {event: "settle", rounds: .})
