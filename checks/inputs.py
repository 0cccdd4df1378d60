"""Makers of inputs: request lines, scripts and lists of objects, for checks/costs and checks/bench."""
import hashlib
import itertools
import json
import random

NAMES = 10_000  # that are created and removed, and as many lists
QUOTES = 50_000  # in a text of a line, each followed by so many letters
LETTERS = 18
SHORTER = 1_000  # pods of one set, each shorter than the one before
TURNS = 300  # in which two pods change
PARTED = 400  # versions of a pod, one with a part and one without
APART = 100  # versions of a pod, whose members have other names in each
SETS = 64  # of as many pods each
LINES = 4_000  # that allocate memory; then four times as many
WIDE = 60_000  # bytes of a text whose object is not read back
WIDE_LINES = 100
LABELS = 2_000  # of a claim template, and of a selector
LABELLED = 150  # pods that have such a claim
VOLUMES = 10_000  # of a pod, and as many claim templates
HEALTHY = 1_000  # pods, each with one of its claims
PIECE = 2_000  # lists of a text of 10,000 bytes, in one piece of the input
FEW = 6  # of them, whose replies are just fewer than are written together
TRIES = 1_024  # names that a new revision may get, of two hexadecimal digits
PODS = 64  # that callers of a replay write, get and list
SHARDS = 64  # of its store
OPERATOR = 4_000  # the caller that is no controller of a cluster
CRASHES = 5  # of controllers, after each line of the operator
OWNED = 1_500  # claims, and as many owners
LOOKS = 5  # of a controller at these claims
RAISE = '{"event":"raise"}\n'
STEPS = {  # of a request, between its call and its reply
    "write": ["check", "reserve", "publish"], "get": ["read", "part"], "list": ["read", *["part"] * SHARDS], "compact": ["compact"],
}


def uid(number):
    return f"{0:08}-0000-4000-8000-{number:012x}"


def created(name, text=""):
    return f'{{"do":"create","object":{{"kind":"Pod","metadata":{{"name":"{name}"}},"spec":{{"text":"{text}"}}}}}}\n'


def updated(text):
    return created("x", text).replace("create", "update")


def unlike(mark):
    """Updates of one object, back and forth between two texts that have nothing alike, and in which that mark often stands."""
    first, second = ((mark + letter * LETTERS) * QUOTES for letter in "ab")
    return created("x", first) + (updated(second) + updated(first)) * 3


def without_quotes(mark):
    """Updates of one object, back and forth between a text without quotes and one in which that mark often stands."""
    plain, marked = "t" * (QUOTES * (LETTERS + 2)), (mark + "a" * LETTERS) * QUOTES
    return created("x", plain) + (updated(marked) + updated(plain)) * 3


def version(number, name, members):
    """A line that creates a pod, if the number is 0, or else updates it."""
    do, meta = "update" if number else "create", f'"kind":"Pod","metadata":{{"name":"{name}"}}'
    return f'{{"do":"{do}","object":{{{meta},"spec":{{{members}}}}}}}\n'


def shorter():
    """Pods of one set, each shorter than the one before, down to a quarter of the first."""
    return "".join(created(f"db-{number}", "t" * (8 * SHORTER - 6 * number)) for number in range(SHORTER))


def two_in_turn():
    """Two pods, by their names of one set, that have nothing alike and change in turn."""
    kinds = [("db-0", "a" * 8_000), ("db-1", "b" * 8_000)]
    turns = itertools.product(range(TURNS), kinds)
    return "".join(version(turn, name, f'"number":{turn},"text":"{text}"') for turn, (name, text) in turns)


def parted():
    """A pod that has, in turn, five members of some length or two short ones before a long text."""
    five, two = "".join(f'"a{each}":"{"x" * 700}",' for each in range(5)), '"b0":"x","b1":"x",'
    rest = f'"text":"{"t" * 8_000}"'
    return "".join(version(turn, "x", f'"a":{turn},{two if turn % 2 else five}{rest}') for turn in range(PARTED))


def apart():
    """A pod that gets other members at each change, 200 of them, before a long text."""

    def members(turn):
        letter = chr(ord("a") + turn % 20)
        return "".join(f'"{letter}{each:04}":"x",' for each in range(200))

    return "".join(version(turn, "x", f'{members(turn)}"text":"{"t" * 40_000}"') for turn in range(APART))


def sets_in_turn():
    """Pods of sets that have nothing alike, one of each set and then the next."""
    pods = itertools.product(range(SETS), range(SETS))
    return "".join(created(f"set{each:02}-{number}", f"{each:02}" * 500) for number, each in pods)


def removed(lists_first):
    """Names that are created and then removed, after as many lists or before them."""
    names = [f"x{number}" for number in range(NAMES)]
    writes = [created(name) for name in names]
    writes += [f'{{"do":"delete","kind":"Pod","name":"{name}"}}\n' for name in names]
    lists = ['{"do":"list","kind":"Pod"}\n'] * NAMES
    return "".join([*lists, *writes] if lists_first else [*writes, *lists])


def forgotten(lists_first, count=NAMES):
    """The same with lists of the past, and one object that stays; the removals are compacted away."""
    names = [f"x{number}" for number in range(count)]
    writes = [created(name) for name in names]
    writes += [f'{{"do":"delete","kind":"Pod","name":"{name}"}}\n' for name in names]
    at = 1 if lists_first else len(writes) + 1
    lists = [f'{{"do":"list","kind":"Pod","resourceVersion":"{at}"}}\n'] * count
    compaction = f'{{"do":"compact","resourceVersion":"{len(writes) + 1}"}}\n'
    parts = [*lists, *writes, compaction] if lists_first else [*writes, compaction, *lists]
    return "".join([created("y"), *parts])


def whole(request, steps):
    """A request of one caller, from its call to its reply; a write is visible at once."""
    call = f'{{"caller":1,"event":"call","request":{request.strip()}}}\n'
    return "".join([call, *(event(word, 1) for word in steps), RAISE if "publish" in steps else "", event("reply", 1)])


def gone(lists_first, count=NAMES):
    """A script of pods that are created, removed and compacted away, before as many lists or after them."""
    keys = [f'"kind":"Pod","name":"x{number}"' for number in range(count)]
    writes = [whole(created(f"x{number}"), STEPS["write"]) for number in range(count)]
    writes += [whole(f'{{"do":"delete",{key}}}', STEPS["write"]) for key in keys]
    lists = [whole('{"do":"list","kind":"Pod"}', ("read", "part"))] * count
    compaction = whole(f'{{"do":"compact","resourceVersion":"{len(writes)}"}}', STEPS["compact"])
    parts = [*lists, *writes, compaction] if lists_first else [*writes, compaction, *lists]
    return f'{{"capacity":{4 * count},"shards":1}}\n' + "".join(parts)


def creations(count):
    return "".join(created(f"x{number:06}") for number in range(count))


def lists_of_a_text(count):
    return created("x", "t" * 10_000) + '{"do":"list","kind":"Pod"}\n' * count


def come_and_go(keys):
    """Pods that are created and removed, one after another; at each hundredth all is compacted away."""

    def stay(number, space, name):
        yield f'{{"do":"create","object":{{"kind":"Pod","metadata":{{"name":"{name}","namespace":"{space}"}}}}}}\n'
        yield f'{{"do":"delete","kind":"Pod","name":"{name}","namespace":"{space}"}}\n'
        if number % 100 == 0:
            yield f'{{"do":"compact","resourceVersion":"{2 * number}"}}\n'

    return "".join(line for number, key in enumerate(keys, 1) for line in stay(number, *key))


def fresh_namespaces(count):
    """Each pod in a namespace of its own."""
    return come_and_go((f"space-{number:06}", "x") for number in range(count))


def fresh_names(count):
    return come_and_go(("default", f"x{number:06}") for number in range(count))


def changes(count):
    """Updates of one object, each of which changes it."""
    return created("x", "0") + "".join(updated(f"{number:06}") for number in range(count))


def script(count, request, events):
    """A caller that calls so many requests, and makes the same steps for each."""
    steps = "".join(f'{{"caller":1,"event":"{event}"}}\n' for event in events)
    calls = (f'{{"caller":1,"event":"call","request":{request(number).strip()}}}\n{steps}' for number in range(count))
    return f'{{"capacity":{4 * LINES},"shards":1}}\n' + "".join(calls)


def gets(count):
    return script(count, lambda number: '{"do":"get","kind":"Pod","name":"x"}', ("read", "part", "reply"))


def writes(count):
    return script(count, lambda number: created(f"x{number:06}"), ("check", "reserve", "publish", "reply"))


def wide(line):
    return "".join(line(number, chr(ord("a") + number % 25) * WIDE) for number in range(WIDE_LINES))


def planned(names_are_taken):
    """A set of a long template that has no revision yet, and revisions of others with all names but one that it may get: the
    one that is tried last. Or with other names."""
    template = {"spec": {"text": "t" * 8 * WIDE}}
    text = json.dumps({"spec": {"template": template}}, separators=(",", ":")).encode()
    tried = [hashlib.sha256(text + str(count).encode()).hexdigest()[:2] for count in range(TRIES)]
    last = max(set(tried), key=tried.index)
    taken = [f"web-{name}" if names_are_taken else f"web.{name}" for name in sorted(set(tried) - {last})]
    web = {"kind": "StatefulSet", "metadata": {"name": "web", "uid": uid(1)}, "spec": {"template": template}}
    others = ({"kind": "ControllerRevision", "metadata": {"name": name}, "revision": 1} for name in taken)
    return "".join(json.dumps(each) + "\n" for each in (web, *others))


def web_of(replicas, template, claim_templates, selector, policy="Parallel"):
    """A set that creates its pods at once, or in order."""
    spec = {"podManagementPolicy": policy, "replicas": replicas, "selector": selector, "template": template}
    spec["volumeClaimTemplates"] = claim_templates
    return {"kind": "StatefulSet", "metadata": {"generation": 1, "name": "web", "uid": uid(1)}, "spec": spec}


def owner_of(web):
    return {"apiVersion": "apps/v1", "controller": True, "kind": "StatefulSet", "name": "web", "uid": web["metadata"]["uid"]}


def revision_of(web):
    """The revision of the set's template, in place, so that pods are created."""
    data = {"spec": {"template": web["spec"]["template"]}}
    metadata = {"name": "web-1", "ownerReferences": [owner_of(web)], "uid": uid(2)}
    return {"apiVersion": "apps/v1", "data": data, "kind": "ControllerRevision", "metadata": metadata, "revision": 1}


def listed(*objects):
    return "".join(json.dumps(each, separators=(",", ":")) + "\n" for each in objects)


def labelled(labels_are_matched, count=LABELS):
    """A claim template and a selector with many labels each, for some pods; or a selector with a text as long."""
    labels = {f"label-{number:05}": "a" for number in range(count)}
    selected = {f"match-{number:05}": "b" for number in range(count)}
    selector = {"matchLabels": selected} if labels_are_matched else {"text": json.dumps(selected)}
    web = web_of(LABELLED, {}, [{"metadata": {"labels": labels, "name": "data"}}], selector)
    return listed(web, revision_of(web))


def mounted(volumes_are_named, count=VOLUMES):
    """Claim templates whose claims are there, and as many volumes of the pod; or as many volumes under another member."""
    volumes = [{"emptyDir": {}, "name": f"volume-{number:05}"} for number in range(count)]
    template = {"spec": {"volumes" if volumes_are_named else "volumez": volumes}}
    names = [f"claim-{number:05}" for number in range(count)]
    web = web_of(1, template, [{"metadata": {"name": name}} for name in names], {})
    claims = ({"kind": "PersistentVolumeClaim", "metadata": {"name": f"{name}-web-0"}} for name in names)
    return listed(web, revision_of(web), *claims)


def healthy_pod(web, number):
    labels = {"controller-revision-hash": "web-1"}
    metadata = {"labels": labels, "name": f"web-{number}", "ownerReferences": [owner_of(web)]}
    metadata["uid"] = uid(number + 3)
    status = {"conditions": [{"status": "True", "type": "Ready"}], "phase": "Running"}
    return {"kind": "Pod", "metadata": metadata, "status": status}


def kept(claims_are_made, count=HEALTHY):
    """Healthy pods of a set with many claim templates, each with one of its claims; or the templates under another member."""
    web = web_of(count, {}, [{"metadata": {"name": f"claim-{number:05}"}} for number in range(VOLUMES)], {})
    if not claims_are_made:
        web["spec"]["volumeClaimTemplatez"] = web["spec"].pop("volumeClaimTemplates")
    pods = (healthy_pod(web, number) for number in range(count))
    names = (f"claim-{number:05}-web-{number}" for number in range(count))
    claims = ({"kind": "PersistentVolumeClaim", "metadata": {"name": name}} for name in names)
    return listed(web, revision_of(web), *pods, *claims)


def small_pod(chance, name, namespace):
    """A pod of a name and three labels."""
    labels = {"app": "db", "number": str(chance.randrange(1_000)), "role": chance.choice(("leader", "follower"))}
    return {"kind": "Pod", "metadata": {"labels": labels, "name": name, "namespace": namespace}}


def large_pod(chance, name, namespace):
    """A pod of some 2 KB: three containers with variables, ports and limits, a volume and annotations."""

    def container(number):
        variables = [{"name": f"V{each}", "value": str(chance.randrange(1_000_000))} for each in range(6)]
        limits = {"limits": {"cpu": "2", "memory": "4Gi"}}
        ports = [{"containerPort": 5432, "protocol": "TCP"}]
        image = "registry.example/db:1.2.3"
        return {"env": variables, "image": image, "name": f"part-{number}", "ports": ports, "resources": limits}

    pod = {"apiVersion": "v1", **small_pod(chance, name, namespace)}
    pod["metadata"]["annotations"] = {f"example.com/note-{number}": "n" * 40 for number in range(8)}
    volumes = [{"name": "data", "persistentVolumeClaim": {"claimName": f"data-{name}"}}]
    containers = [container(number) for number in range(3)]
    pod["spec"] = {"containers": containers, "terminationGracePeriodSeconds": 30, "volumes": volumes}
    return pod


def traffic(count, pod, has_lists=False):
    """Request lines: of a hundred, 20 create a pod, 50 get one, 15 update it, 12 write its status and 3 delete it, at random,
    but the same on each run. If there are lists, two of the gets are one, of a namespace of some hundred pods."""
    chance, pods = random.Random(1), []
    for number in range(count):
        of_hundred = chance.randrange(100)
        if not pods or of_hundred < 20:
            pods.append((f"db-{number}", f"space-{number // 500}" if has_lists else "default"))
            request = {"do": "create", "object": pod(chance, *pods[-1])}
        else:
            name, namespace = chance.choice(pods)
            key = {"kind": "Pod", "name": name, "namespace": namespace}
            if has_lists and of_hundred < 22:
                request = {"do": "list", "kind": "Pod", "namespace": namespace}
            elif of_hundred < 70:
                request = {"do": "get", **key}
            elif of_hundred < 85:
                request = {"do": "update", "object": pod(chance, name, namespace)}
            elif of_hundred < 97:
                ready = [{"status": chance.choice(("True", "False")), "type": "Ready"}]
                status = {"conditions": ready, "phase": "Running"}
                metadata = {"name": name, "namespace": namespace}
                request = {"do": "status", "object": {"kind": "Pod", "metadata": metadata, "status": status}}
            else:
                request = {"do": "delete", **key}
        yield json.dumps(request, separators=(",", ":")) + "\n"


def relabelled(count, compacts_at=0):
    """Updates of a pod of some 2 KB, each of its label; with a compaction after each so many, unless that is 0."""
    pod = large_pod(random.Random(1), "db-0", "default")
    yield json.dumps({"do": "create", "object": pod}, separators=(",", ":")) + "\n"
    for number in range(1, count + 1):
        pod["metadata"]["labels"]["number"] = f"{number:06}"
        yield json.dumps({"do": "update", "object": pod}, separators=(",", ":")) + "\n"
        if compacts_at and number % compacts_at == 0:
            yield f'{{"do":"compact","resourceVersion":"{number + 1}"}}\n'


def served():
    """A container with a port, a volume and some variables, as the StatefulSet documentation has it."""
    variables = [{"name": letter, "value": "1"} for letter in "AB"]
    mounts = [{"mountPath": "/usr/share/nginx/html", "name": "www"}]
    container = {"env": variables, "image": "registry.k8s.io/nginx-slim:0.24", "name": "nginx", "volumeMounts": mounts}
    container["ports"] = [{"containerPort": 80, "name": "web"}]
    return {"metadata": {"labels": {"app": "nginx"}}, "spec": {"containers": [container], "terminationGracePeriodSeconds": 10}}


def healthy(policy, replicas, pods):
    """A set, its revision, and so many healthy pods of it, the last first."""
    web = web_of(replicas, served(), [], {}, policy)
    yield listed(web, revision_of(web))
    for number in reversed(range(pods)):
        yield listed(healthy_pod(web, number))


def texts_copied(is_in_a_container):
    """A set of many pods whose template has a long text, in a container or in its spec."""
    text = {"text": "t" * 400_000}
    web = web_of(1_024, {"spec": {"containers": [text]} if is_in_a_container else text}, [], {})
    return listed(web, revision_of(web))


def event(word, caller):
    return f'{{"caller":{caller},"event":"{word}"}}\n'


def asked(kind, number):
    """The request of that number, for a kind of traffic. A mix has of eight requests three writes, four gets and a list, and
    one compaction in 1,024."""
    if kind != "mix":
        return kind
    if number % 1_024 == 1_023:
        return "compact"
    return ("write", "get", "get", "write", "get", "get", "write", "list")[number % 8]


def request_of(kind, number):
    """A request over one of the pods in turn. An update changes the pod."""
    name = f"web-{number * 37 % PODS}"
    if kind == "write":
        spec = f'{{"nodeName":"node-{number}"}}'
        return f'{{"do":"update","object":{{"kind":"Pod","metadata":{{"name":"{name}"}},"spec":{spec}}}}}'
    if kind == "get":
        return f'{{"do":"get","kind":"Pod","name":"{name}"}}'
    return '{"do":"list","kind":"Pod"}' if kind == "list" else '{"do":"compact","resourceVersion":"1"}'


def rounds_of(kind, callers):
    """The events of callers that all call, make their steps one after another, and then all get their replies; again and again,
    after one of them has created all pods."""
    for number in range(PODS):
        request = created(f"web-{number}").strip()
        yield f'{{"caller":0,"event":"call","request":{request}}}\n'
        yield from (event(word, 0) for word in STEPS["write"])
        yield from (RAISE, event("reply", 0))
    first = 0
    while True:
        kinds = [asked(kind, first + caller) for caller in range(callers)]
        for caller, each in enumerate(kinds):
            yield f'{{"caller":{caller},"event":"call","request":{request_of(each, first + caller)}}}\n'
        for caller, each in enumerate(kinds):
            yield from (event(word, caller) for word in STEPS[each])
        yield from [RAISE] * kinds.count("write")
        yield from (event("reply", caller) for caller in range(callers))
        first += callers


def replayed(kind, callers, count):
    """A script of so many events."""
    yield f'{{"capacity":1048576,"shards":{SHARDS}}}\n'
    yield from itertools.islice(rounds_of(kind, callers), count)


def outside(request, caller):
    """A caller that is no controller, and whose write is accepted."""
    yield f'{{"caller":{caller},"event":"outside","request":{request.strip()}}}\n'
    yield from (event(word, caller) for word in STEPS["write"])
    yield from (RAISE, event("reply", caller))


def turns(controllers, count):
    """All controllers send whole requests in turn, so many times."""
    for _ in range(count):
        for each in range(controllers):
            yield from (f'{{"controller":{each},"event":"{word}"}}\n' for word in ("next", "run"))


def settled(replicas, image, verb, controllers, rounds):
    """An operator writes the set. The controllers race, round by round: all have read before one of them writes, and then a
    `settle` ends their rounds. At first some crash within their requests."""
    template = {"spec": {"image": image}}
    web = {"kind": "StatefulSet", "metadata": {"name": "web"}, "spec": {"replicas": replicas, "template": template}}
    yield from outside(json.dumps({"do": verb, "object": web}, separators=(",", ":")), OPERATOR)
    yield from turns(controllers, 4)
    for each in range(CRASHES):
        yield from (f'{{"controller":{each},"event":"{word}"}}\n' for word in ("next", "crash"))
    for _ in range(rounds):
        yield from turns(controllers, 5)
        yield '{"event":"settle","rounds":1}\n'


def race_of(controllers, replicas):
    """A set is scaled up, has each pod replaced, and is scaled down to none."""
    sets = ",".join(['{"name":"web"}'] * controllers)
    yield f'{{"capacity":1048576,"sets":[{sets}],"shards":4}}\n'
    yield from settled(replicas, "web:1", "create", controllers, replicas + 4)
    yield from settled(replicas, "web:2", "update", controllers, 2 * replicas + 4)
    yield from settled(0, "web:2", "update", controllers, replicas + 4)


def claimed(number, uids, namespace="default"):
    """A line that creates a claim with these owners."""
    owners = [{"uid": each} for each in uids]
    metadata = {"name": f"data-{number}", "namespace": namespace, "ownerReferences": owners}
    claim = {"kind": "PersistentVolumeClaim", "metadata": metadata}
    return json.dumps({"do": "create", "object": claim}, separators=(",", ":"))


def orphaned(claims):
    """So many claims with three owners each, one in ten of which has no owner that exists, and a controller that makes a round
    and deletes those."""
    yield '{"capacity":1048576,"sets":[{"name":"web"}],"shards":4}\n'
    owned = [number for number in range(claims) if number % 10]
    for number in range(3 * len(owned)):
        yield from outside(created(f"x{number}"), OPERATOR)
    first = {number: 3 * place + 1 for place, number in enumerate(owned)}
    for number in range(claims):
        uids = [uid(first[number] + each) if number in first else "gone" for each in range(3)]
        yield from outside(claimed(number, uids), OPERATOR)
    yield from turns(1, 6 + claims // 10)


def owned(claims_are_near):
    """As many claims as owners, one each, and a controller that checks again and again which claims to delete, and finds none.
    Or the claims are in another namespace."""
    yield '{"capacity":1048576,"sets":[{"name":"web"}],"shards":1}\n'
    for number in range(OWNED):
        yield from outside(created(f"x{number}"), OPERATOR)
    namespace = "default" if claims_are_near else "another"
    for number in range(OWNED):
        yield from outside(claimed(number, [uid(number + 1)], namespace), OPERATOR)
    yield from turns(1, 6 * LOOKS)
