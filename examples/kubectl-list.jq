# What kubectl.jq, kubectl-back.jq and kubectl-cluster.jq share: the objects of a list as kubectl prints it, or a sentence on
# what is wrong with the list.
def is_of_sets: .kind | IN("StatefulSet", "Pod", "PersistentVolumeClaim", "ControllerRevision");
def namespace: .metadata.namespace // "default";
def called: "\(.kind) \(namespace)/\(.metadata.name)";
def owners: .metadata.ownerReferences[]?;

# The UID that a store gives by the number n, and n again.
def store_uid:
    [recurse(. / 16 | floor; . > 0) % 16 | "0123456789abcdef"[.:. + 1]] | reverse | add
    | "00000000-0000-4000-8000-" + ("00000000000" + .)[-12:];
def store_number: reduce (.[-12:] | explode[]) as $c (0; . * 16 + if $c < 58 then $c - 48 else $c - 87 end);

# All UIDs of a list, in order.
def uids: [.items[] | .metadata.uid?, (owners.uid?) | strings] | unique;

# Without what Kubernetes adds to one of two equal templates, who wrote which member, and a number that no plan keeps up to date.
def plain:
    ((.spec.template?, .data.spec.template?) | objects) |= del(.["$patch"], (.metadata | objects | .creationTimestamp | nulls))
    | (.status | objects) |= del(.availableReplicas)
    | del(.metadata.managedFields);

def refuse: "refused: \(.)\n" | halt_error(3);
def typed($namespace): "type: kubectl get sts,po,pvc,controllerrevision -n \($namespace) -o json";
def keyed(f): map({key: f, value: true}) | from_entries;
def twice(f): group_by(f)[] | select(length > 1);

# What an object says to be there, and is not listed.
def forgotten:
    keyed(called) as $named
    | keyed("\(.kind) \(namespace)") as $listed
    | (map(select(.kind == "StatefulSet")) | keyed(.metadata.uid)) as $sets
    | ([.[] | select(.kind == "ControllerRevision") | owners.uid | strings] | keyed(.)) as $revised
    | .[] | namespace as $namespace | called as $called
    | if .kind == "StatefulSet" then
        .status | objects
        | (select((.replicas | numbers) > 0 and ($listed["Pod \($namespace)"] | not)) | "pods, and none is listed"),
          (.updateRevision, .currentRevision | strings
            | select(. != "" and ($named["ControllerRevision \($namespace)/\(.)"] | not))
            | "the revision \(.), which is not listed")
    elif .kind == "Pod" then
        (select(.metadata.labels["controller-revision-hash"]?)
            | select(any(owners | select(.controller) | .uid | strings; $sets[.] and ($revised[.] | not)))
            | "a revision, and none of its set is listed"),
        (select(any(.spec.volumes[]?; .persistentVolumeClaim?) and ($listed["PersistentVolumeClaim \($namespace)"] | not))
            | "a claim, and none is listed")
    else empty end
    | "\($called) has \(.); \(typed($namespace))";

def faults:
    if (.items? // null | type) != "array" then "this is no list; \(typed("NAMESPACE"))" else
        (.items[] | select(.kind? // null | type != "string") | "no kind is in \(tojson[:60])"),
        (.items | map(select(is_of_sets))
            | (.[] | select(.metadata.name? // null | type != "string") | "no name is in \(tojson[:60])"),
              (.[] | select(.metadata.uid | type != "string") | "\(called) has no UID"),
              (select(any(.[]; .kind == "StatefulSet") | not) | "no StatefulSet is listed; \(typed("NAMESPACE"))"),
              (twice(called) | "\(.[0] | called) is listed twice"),
              (twice(.metadata.uid) | "\(.[0] | called) and \(.[1] | called) have one UID"),
              forgotten)
    end;

# The list, if nothing is wrong with it; else a sentence, and status 3.
def whole:
    ([inputs] | length) as $behind
    | first(if $behind > 0 then "a second list follows" else empty end, faults, null) as $fault
    | if $fault then $fault | refuse else . end;
