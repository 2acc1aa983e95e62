"""The trace of bench/workers, line by line: many pods that change in each tick, for workers that update them."""

NODE = ('{"kind":"node","name":"n1","capacity":{"nodefs.available":"100Gi"},'
        '"evictionHard":{"memory.available":"100Mi","nodefs.available":"10%"},'
        '"evictionSoft":{"memory.available":"1Gi"},"evictionSoftGracePeriod":{"memory.available":"1m"}}')
POD = ('{"kind":"pod","pod":{"metadata":{"name":"p%d"},"spec":{"priority":%d,"containers":[{"name":"app",'
       '"resources":{"requests":{"memory":"64Mi"}},"readinessProbe":{"failureThreshold":2},"livenessProbe":{}},'
       '{"name":"log"}]}}}')
TICK = ('{"kind":"tick","at":%d,"signals":{"memory.available":"%dMi","nodefs.available":"%dGi"},'
        '"pods":[%s]}')


def entry(pod, tick):
    """What a tick shows of a pod: its container `app` runs 15 ticks of 20 and is then restarted."""
    attempt, at = divmod(tick + 7 * pod, 20)
    state = '"CONTAINER_RUNNING"' if at < 15 else '"CONTAINER_EXITED","exitCode":%d' % (1 + pod % 3)
    ready = "failure" if (tick + pod) % 9 in (3, 4) else "success"
    alive = "failure" if at > 11 and pod % 5 == 0 else "success"
    memory = 1 + (pod * 7919 + tick * 104729) % 1_000_003
    return ('{"pod":"default/p%d","containers":[{"name":"app","attempt":%d,"state":%s},{"name":"log","state":1}],'
            '"probes":[{"container":"app","probe":"readiness","result":"%s"},'
            '{"container":"app","probe":"liveness","result":"%s"}],"usage":{"memory":%d}}'
            % (pod, attempt, state, ready, alive, 1000 * memory))


def lines(pods, ticks, calm):
    """Each `calm`-th tick is below a hard threshold, so that a pod is evicted; a soft one is active next to it."""
    yield NODE
    yield from (POD % (pod, pod % 7 - 3) for pod in range(pods))
    for tick in range(ticks):
        free = 50 if tick % calm == calm - 1 else 700 if tick % calm == calm - 2 else 2_000
        shown = ",".join(entry(pod, tick) for pod in range(pods))
        yield TICK % (10 * tick, free, 5 if tick % (3 * calm) == 1 else 60, shown)
