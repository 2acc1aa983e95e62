"""The thirteen pods that bench/real_node runs: a crash loop, each probe, each policy, an init container that fails
first, a memory limit, two containers, an image and a command that are missing."""

COUNT = "n=$(cat /s/{0} 2>/dev/null || echo 0); n=$(expr $n + 1); echo $n > /s/{0}; sleep 5; test $n -gt 2 || exit 4"


def container(name, command, **fields):
    return {"name": name, "image": "localhost/busybox:1", "imagePullPolicy": "Never",
            "command": ["sh", "-c", command], **fields}


def probe(command, **fields):
    return {"exec": {"command": ["sh", "-c", command]}, **fields}


def pod(name, containers, inits=(), policy="Always", has_volume=False):
    every = [*inits, *containers]
    if has_volume:
        every = [{**each, "volumeMounts": [{"name": "s", "mountPath": "/s"}]} for each in every]
    spec = {"hostNetwork": True, "restartPolicy": policy, "terminationGracePeriodSeconds": 3,
            "initContainers": every[:len(inits)], "containers": every[len(inits):],
            "volumes": [{"name": "s", "emptyDir": {}}] if has_volume else []}
    return {"apiVersion": "v1", "kind": "Pod", "metadata": {"name": name, "namespace": "shop"}, "spec": spec}


def pods():
    """The manifests. Each pod shows one thing that the rules speak of, within the minutes of a run."""
    few = {"requests": {"cpu": "10m", "memory": "16Mi"}, "limits": {}}
    tight = {"limits": {"cpu": "100m", "memory": "24Mi"}}
    flag = "while :; do touch /tmp/ok; sleep 25; rm /tmp/ok; sleep 25; done"
    steady, missing = probe("true", periodSeconds=4), {"image": "localhost/none:1"}
    alive = probe("test ! -f /tmp/bad", periodSeconds=5, failureThreshold=3)
    seen = probe("test -f /tmp/ok", periodSeconds=4, failureThreshold=2, successThreshold=2)
    up = probe("test -f /tmp/up", periodSeconds=4, failureThreshold=10)
    return [
        pod("crash", [container("app", "sleep 6; exit 1", resources=few)]),
        pod("live", [container("app", "sleep 40; touch /tmp/bad; sleep 1000", livenessProbe=alive)]),
        pod("ready", [container("app", flag, readinessProbe=seen)]),
        pod("nostart", [container("app", "sleep 1000", readinessProbe=steady,
                                  startupProbe=probe("false", periodSeconds=4, failureThreshold=5))]),
        pod("slowstart", [container("app", "sleep 22; touch /tmp/up; sleep 1000", startupProbe=up,
                                    readinessProbe=steady)]),
        pod("once-ok", [container("app", "sleep 20; exit 0")], policy="Never"),
        pod("once-bad", [container("app", "sleep 15; exit 3")], policy="Never"),
        pod("retry", [container("app", COUNT.format("a"))], policy="OnFailure", has_volume=True),
        pod("init", [container("app", "sleep 1000", readinessProbe=probe("true", periodSeconds=5))],
            [container("fetch", COUNT.format("i")), container("setup", "sleep 3")], has_volume=True),
        pod("oom", [container("app", "sleep 8; yes | tail", resources=tight)]),
        pod("two", [container("main", "sleep 1000", resources=few), container("side", "sleep 30; exit 0")]),
        pod("noimage", [{**container("app", "true"), **missing}]),
        pod("nocommand", [{**container("app", "true"), "command": ["/bin/nothing"]}]),
    ]
