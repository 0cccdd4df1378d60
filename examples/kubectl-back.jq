# The actions of a plan over the lines of kubectl.jq, with the UIDs of the list again. A revision that is written gets "$patch"
# in its template and the labels of the template, by which `kubectl rollout` finds it:
# jq -c --slurpfile list LIST.json -f kubectl-back.jq
include "kubectl-list" {search: "./"};

($list[0] | uids) as $uids
| ((., (.object | objects | .metadata, owners)).uid | strings | select(. != "")) |= $uids[store_number - 1]
| if .do == "WriteRevision" then
    .object |= (.data.spec.template["$patch"] = "replace"
        | .metadata.labels = (.data.spec.template.metadata.labels // {}) + (.metadata.labels // {}))
else . end
