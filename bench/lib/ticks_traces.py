"""The traces of bench/ticks, line by line: how the costs of a replay grow with the ticks."""

FIRST = '{"kind":"node","name":"n1"}'
POD = '{"kind":"pod","pod":{"metadata":{"name":"%s"},"spec":{"containers":[%s]}}}'
ONE = '{"name":"c"}'
# Two of every hundred ticks are below a threshold, so pods are evicted now and then.
THRESHOLDS = ('{"kind":"node","name":"n1","capacity":{"nodefs.available":"100Gi"},'
              '"evictionHard":{"memory.available":"100Mi","nodefs.available":"10%"},'
              '"evictionSoft":{"memory.available":"1Gi"},"evictionSoftGracePeriod":{"memory.available":"1h"}}')
EXITS = ('{"kind":"tick","at":%d,"pods":[{"pod":"default/a","containers":'
         '[{"name":"c","attempt":%d,"state":%s}]}]}')
# The pause is over at each tick.
PAUSE = ('{"kind":"node","name":"n1","version":3,"evictionPauseSeconds":1,"capacity":{"memory.available":"8Gi"},'
         '"evictionHard":{"memory.available":"1Gi"}}')
PRESSED = '{"kind":"tick","at":%d,"signals":{"memory.available":"50Mi"}}'
RANKS = '{"kind":"tick","at":%d,"signals":{"memory.available":"%dMi"},"pods":[%s]}'
SHOWN = '{"pod":"default/p%d","containers":[{"name":"c","state":1}],"usage":{"memory":%d}}'


def one_pod(ticks):
    """One pod with one container, which runs 15 ticks of 20 and is then restarted."""
    yield from (FIRST, POD % ("a", ONE))
    for tick in range(ticks):
        attempt, at = divmod(tick, 20)
        state = '"CONTAINER_RUNNING"' if at < 15 else '"CONTAINER_EXITED","exitCode":1'
        yield EXITS % (10 * tick, attempt, state)


def unseen_pods(pods, containers, ticks):
    """Pods of which no tick shows anything."""
    names = ",".join('{"name":"c%d"}' % number for number in range(containers))
    yield FIRST
    yield from (POD % (f"p{pod}", names) for pod in range(pods))
    yield from ('{"kind":"tick","at":%d}' % (10 * tick) for tick in range(ticks))


def ranked_pods(pods, ticks):
    """Pods whose usage changes in every tick, on a node with thresholds and signals, so that each tick ranks them
    again."""
    yield THRESHOLDS
    yield from (POD % (f"p{pod}", ONE) for pod in range(pods))
    for tick in range(ticks):
        shown = ",".join(SHOWN % (pod, 1 + (pod * 7919 + tick * 104729) % 1_000_003) for pod in range(pods))
        yield RANKS % (10 * tick, 50 if tick % 100 in (49, 99) else 2_000, shown)


def paused_pod(ticks):
    """One pod on a node whose evictions pause, with a threshold that is served in every tick."""
    yield from (PAUSE, POD % ("a", ONE))
    yield from (PRESSED % (10 * tick) for tick in range(ticks))
