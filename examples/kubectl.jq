# The objects of `kubectl get sts,po,pvc,controllerrevision -o json`, one a line, as `stsctl plan` reads them:
# jq -c -f kubectl.jq LIST.json
# The n-th UID of the list, of all of them in order, becomes the one that a store gives by the number n.
include "kubectl-list" {search: "./"};

whole
| (uids | to_entries | map({key: .value, value: (.key + 1 | store_uid)}) | from_entries) as $numbered
| .items[]
| select(is_of_sets)
| ((.metadata, owners) | objects | .uid | strings) |= $numbered[.]
| plain
