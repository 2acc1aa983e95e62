"""A random node, as a script of its pods. Pods stay, or go and come again under their names. Some are deleted while
their objects stay, some are evicted, and some are not admitted."""

BEGIN = 1767225600
SECONDS = 60


def instances(chance, life, name, first):
    """The instances of one container, one after the other, from a moment on."""
    made, moment = [], first
    for attempt in range(chance.randint(1, 7)):
        each = {"id": f"{life['uid'].replace('-', '')}{name}x{attempt}", "uid": life["uid"], "pod": life["key"],
                "name": name, "attempt": attempt, "created": moment}
        started = moment + chance.uniform(0.05, 0.5)
        made.append(each)
        if chance.random() < 0.1:
            each.update(exited=started, code=128)
        else:
            each["started"] = started
            if chance.random() < 0.15:
                break
            each.update(exited=started + chance.choice([chance.uniform(0.1, 1), chance.uniform(1, 9)]),
                        code=chance.choice([0, 1, 2, 137, 137, 143]))
        moment = each["exited"] + chance.choice([chance.uniform(0.05, 0.6), chance.uniform(1, 8)])
    return made


def results(chance, each, container):
    """Results of the probes of one instance, at their periods."""
    made = []
    for field, probe in (("livenessProbe", "liveness"), ("readinessProbe", "readiness")):
        period = container.get(field, {}).get("periodSeconds")
        run_seconds = each["exited"] - each["started"] if {"started", "exited"} <= set(each) else 0
        count = int(run_seconds / period) if period else 0
        made += [{"uid": each["uid"], "pod": each["pod"], "container": each["name"], "probe": probe,
                  "at": [each["started"] + period * turn], "result": chance.choice(["success", "success", "failure"])}
                 for turn in range(1, count + 1)]
    return made


def container_of(chance, name):
    container = {"name": name}
    if chance.random() < 0.6:
        container["livenessProbe"] = {"periodSeconds": chance.randint(1, 3), "failureThreshold": chance.randint(1, 3)}
        container["readinessProbe"] = {"periodSeconds": chance.randint(1, 3), "successThreshold": chance.randint(1, 2)}
    return container


def faults(chance):
    """Sources that are silent for a while."""
    made = []
    for kind in ("ps", "probes", "summary", "pods"):
        since = chance.uniform(3, 30)
        if chance.random() < 0.2:
            made.append({"kind": kind, "from": since, "until": since + chance.uniform(1, chance.choice([5, 40])),
                         "text": "failed with status 1: no answer"})
    return made


def end_of(made):
    """When the last instance of a pod that goes has exited."""
    return max(each["exited"] for each in made)


def let_go(chance, life, made, look):
    """A pod goes: its last instances exit, and then or some seconds before its source lists it no more; by then all are
    made. The runtime keeps its containers long enough to be asked for their codes, but for some of a pod that is
    deleted and still listed, whose status has them."""
    for each in made:
        if "exited" not in each:
            each.update(exited=each["started"] + chance.uniform(1, 9), code=chance.choice([0, 137, 143]))
    least = max(life["from"] + 2 * look + 3, *(each["created"] + 0.5 for each in made))
    life["until"] = max(least, end_of(made) + chance.choice([chance.uniform(-3, 0), chance.uniform(0, 5)]))
    removed = max(life["until"], end_of(made)) + look + chance.uniform(0.1, 10)
    for each in made:
        each["removed"] = removed
    if chance.random() < 0.5:
        life["deleted"] = chance.uniform(max(each["created"] for each in made), end_of(made))
        life["until"] = max(life["until"], end_of(made)) + chance.uniform(3, 30)
        for each in made:
            each.update(removed=life["until"] + 1, told=each["exited"] + chance.uniform(0, 1.5))
            # one that comes and goes between two looks is not seen
            is_seen = "started" in each and each["exited"] - each["created"] > look
            if is_seen and each["exited"] > life["deleted"] and chance.random() < 0.5:
                each["removed"] = each["exited"] + chance.uniform(0.05, 1)


def evict(chance, life, made):
    """A pod is evicted: what runs is killed, and nothing starts any more; its source still lists it."""
    life["evicted"] = max(life["from"], 0) + chance.uniform(5, 20)
    made[:] = [each for each in made if each["created"] < life["evicted"] - 1]
    for each in made:
        if each.get("exited", SECONDS) > life["evicted"]:
            each.update(exited=life["evicted"] + chance.uniform(0.1, 2), code=137)


def live(chance, play, life, look, fate):
    """Adds the life of one pod to a script: its containers and the results of their probes."""
    made_of = {}
    for container in life["spec"]["containers"]:
        first = life["from"] + chance.uniform(0.1, 3) if life["from"] else chance.uniform(-20, 3)
        made_of[container["name"]] = instances(chance, life, container["name"], first)
    made = [each for of_container in made_of.values() for each in of_container]
    if fate == "goes":
        let_go(chance, life, made, look)
    elif fate == "evicted":
        evict(chance, life, made)
    play["containers"] += made
    for container in life["spec"]["containers"]:
        play["probes"] += [result for each in made if each["name"] == container["name"]
                           for result in results(chance, each, container)]
    return made


def lives_of(chance, play, number, look):
    """The lives of the pods of one name, one after the other."""
    lives, since = [], chance.choice([0, 0, 0, chance.uniform(1, 20)])
    while since < SECONDS / 2:
        containers = [container_of(chance, name) for name in ("app", "side")[:chance.randint(1, 2)]]
        life = {"uid": f"uid-{number}-{len(lives)}", "key": f"shop/p{number}", "from": since,
                "spec": {"containers": containers}}
        fate = chance.choice(["stays", "stays", "goes", "goes", "evicted"])
        made = live(chance, play, life, look, fate)
        lives.append(life)
        # where a source is silent the first of them may not be seen
        if fate != "goes" or play["fails"] or chance.random() < 0.4:
            break
        since = max(life["until"], end_of(made)) + chance.uniform(0.1, 4)
    return lives


def play_of(chance, look):
    """A script of some pods, for a recorder that polls each this many seconds."""
    play = {"begin": BEGIN, "pods": {}, "containers": [], "probes": [], "fails": faults(chance),
            # a kubelet takes a new sample once a pod that it evicted is cleaned up
            "samples": {str(moment): {"memory": 4294967296 - moment} for moment in range(-1, SECONDS, 3)}}
    for number in range(chance.randint(1, 4)):
        play["pods"][f"shop/p{number}"] = lives_of(chance, play, number, look)
    for number in range(chance.randint(0, 2)):
        since = chance.uniform(-5, SECONDS / 2)
        play["pods"][f"shop/r{number}"] = [{"uid": f"uid-r{number}", "key": f"shop/r{number}", "from": since,
                                            "refused": since, "message": "Pod The node had condition: [DiskPressure]. ",
                                            "spec": {"containers": [{"name": "app"}]}}]
    return play
