"""What random runs are judged by: the program's output, the replies of the model, and a plain store that handles an order."""
import json
import subprocess

from store_of_maps import Store, text_of


class Fault(Exception):
    pass


def said_by(program, words, lines):
    """The lines that the program prints for these."""
    text = "".join(json.dumps(line, separators=(",", ":")) + "\n" for line in lines)
    done = subprocess.run([program, *words], input=text, capture_output=True, text=True, timeout=60)
    if done.returncode or done.stderr:
        raise Fault(f"exit status {done.returncode}: {done.stderr.strip()}")
    return done.stdout.splitlines()


def get_of(key):
    return {"do": "get", "kind": key[0], "namespace": key[1], "name": key[2]}


def places_of(program, shards, keys):
    """The shard of each key, as the picture of a get of each shows it. All that matters is that a key has one."""
    keys, lines = sorted(keys), [{"capacity": 1, "shards": shards}]
    for caller, key in enumerate(keys):
        lines.append({"caller": caller, "event": "call", "request": get_of(key)})
        lines += [{"caller": caller, "event": step} for step in ("read", "part", "reply")]
    parts = [line.split("-->>")[0].strip() for line in said_by(program, ["replay", "--picture"], lines) if ": part at" in line]
    return {key: int(part[1:]) for key, part in zip(keys, parts, strict=True)}


def word_of(reply):
    return reply.get("result") or reply["reason"]


def check_replies(world, said):
    """The printed replies are those of the model, at their indices."""
    found = [(line["at"], line["caller"], line["reply"]) for line in said if "reply" in line]
    wanted = sorted((at, world.calls[call][0], reply) for call, (at, reply) in world.replies.items())
    for one, other in zip(found, wanted):
        if one != other:
            raise Fault(f"the reply {json.dumps(one)}, where {json.dumps(other)} is to come")
    if len(found) != len(wanted):
        raise Fault(f"{len(found)} replies of {len(wanted)}")


def taken_in(world, order, capacity):
    """What a plain store handles in a legal order: for each call its caller, its request, the reply, and what is there then."""
    if len(set(order)) < len(order) or not set(world.replies) <= set(order) <= set(world.calls):
        raise Fault("the order has a request twice, or one that was not called, or it lacks one that was answered")
    latest, store = 0, Store(capacity)
    for call in order:
        caller, request = world.calls[call]
        at, wanted = world.replies.get(call, (world.count, None))
        latest = max(latest, call)
        if at < latest:
            raise Fault(f"request {call} stands behind one that was called after its reply")
        before, reply = store.objects, store.take(request)
        if wanted and text_of(reply) != text_of(wanted):
            raise Fault(f"request {call} is answered {text_of(wanted)}, and in the order {text_of(reply)}")
        yield caller, request, reply, before
