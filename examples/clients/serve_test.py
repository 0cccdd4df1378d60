"""A test over `stsctl serve`: STSCTL=PATH python3 serve_test.py"""
import json
import os
import subprocess

with subprocess.Popen([os.environ["STSCTL"], "serve"], stdin=subprocess.PIPE, stdout=subprocess.PIPE, text=True) as server:
    def ask(do, **members):
        print(json.dumps({"do": do, **members}), file=server.stdin, flush=True)
        return json.loads(server.stdout.readline())

    pod = {"kind": "Pod", "metadata": {"name": "web-0"}}
    assert ask("create", object=pod)["code"] == 201
    found = ask("get", kind="Pod", name="web-0")["object"]
    found["metadata"]["labels"] = {"by": "them"}
    assert ask("update", object=found)["result"] == "Updated"
    found["metadata"]["labels"] = {"by": "me"}
    assert ask("update", object=found) == {"code": 409, "reason": "Conflict"}
    assert [one["metadata"]["labels"] for one in ask("list", kind="Pod")["items"]] == [{"by": "them"}]
    server.stdin.close()
