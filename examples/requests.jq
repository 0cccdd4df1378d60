# The requests that the actions of `stsctl plan` are, for a set in the namespace `default`. A pod is marked at the time
# $at: jq -c --arg at 2024-01-01T00:00:00Z -f examples/requests.jq
if .do == "CreateClaim" or .do == "CreatePod" then {do: "create", object}
elif .do == "UpdateClaim" then {do: "update", object}
elif .do == "WriteRevision" then {do: (if .object.metadata.uid then "update" else "create" end), object}
elif .do == "WriteStatus" then {do: "status", object}
elif .do == "DeletePod" then {do: "delete", kind: "Pod", name, uid, at: $at}
elif .do == "DeleteRevision" then {do: "delete", kind: "ControllerRevision", name, uid, resourceVersion}
else empty end
