"""The tests of what reads the program's command `causes` and writes its lines as sentences: the hand-written cases of
bench/causes, and lines that no program prints."""

import glob
import io
import re

import cases
from causes_form import FORMS, ORDERS
from checks import TOP, expect, read

from replay_tools import causes_text, traces
from replay_tools.record import causes, explained_events

load_tests = cases.loaded(__name__)

CASES = f"{TOP}/bench/causes"
NEVER_READ = "it was read"


def explained_in(text):
    return list(explained_events.read(io.StringIO(text, newline="\n")))


def fault_of(text):
    try:
        explained_in(text)
    except causes.CausesFault as fault:
        return str(fault)
    return NEVER_READ


def test_each_case_is_written_as_it_was_read():
    paths = sorted(glob.glob(f"{CASES}/*.causes"))
    expect("there are cases", len(paths) > 50, True)
    for path in paths:
        text = read(path)
        written = "".join(f"{line}\n" for one in explained_in(text) for line in one.lines())
        expect(f"{path}: the same bytes", written, text)


def test_kinds_are_those_of_the_page():
    """bench/tests compares the kinds of bench/lib with docs/why.md."""
    kinds = map(causes.line_of, causes.KINDS.values())
    expect("the kinds and their keys", {(kind.name, *kind.keys) for kind in kinds}, set(FORMS))
    expect("the causes of each event", explained_events.OF_EVENTS, ORDERS)


def test_examples_of_the_page():
    text = "".join(re.findall(r"^    ((?:event|because) [a-z0-9].*\n)", read(f"{TOP}/docs/why.md"), re.MULTILINE))
    found = explained_in(text)
    expect("the page has examples", len(found) > 10, True)
    expect("they are written as they were read", "".join(f"{line}\n" for one in found for line in one.lines()), text)


def test_values_of_each_form():
    for line, wanted in (
        ("because exited pod=0 attempt=2 code=-5 start=- run=0", causes.Exited(0, 2, -5, None, 0)),
        ("because failures pod=1 attempt=0 probe=liveness threshold=2 at=10,30 start=0 delay=1 passed=4",
         causes.Failures(1, 0, "liveness", 2, (10, 30), 0, 1, 4)),
        ("because left pod=0 attempt=0 code=137 listed=false", causes.Left(0, 0, 137, False)),
        ("because newer pod=0 attempt=1 state=running lacks=startup,readiness",
         causes.Newer(0, 1, "running", ("startup", "readiness"))),
        ("because awaited pod=0 container=set for=completion", causes.Awaited(0, "set", "completion")),
        ("because unfinished pod=0 container=app is=restarting code=1", causes.Unfinished(0, "app", "restarting", 1)),
        ("because sample value=125 limit=125125m capacity=1001 percent=12.50% since=-",
         causes.Sample(125000, 125125, 1001000, 1250, None)),
        ("because sample value=0 limit=1 capacity=10 percent=7% since=-", causes.Sample(0, 1000, 10000, 700, None)),
        ("because candidate pod=3 key=default/d.e unsampled=true exceeds=- priority=-7 usage=0 request=- excess=-500m "
         "failed=false", causes.Candidate(3, "default/d.e", True, None, -7, 0, None, -500, False)),
        ("because grace pod-period=45 greatest=20", causes.Grace(45, 20)),
    ):
        cause = causes.cause_of(1, line)
        expect(f"the value of {line}", cause, wanted)
        expect(f"the line of {wanted}", cause.line(), line)


STARTED = "event 5 shop/web app started 0\n"
LISTED = "because listed pod=0 attempt=0 before=- was=- other=-\n"
WRONG = (
    # lines of no kind, and with other keys
    ("because gone pod=0\n", "line 1 of the causes is of no known kind: because gone pod=0"),
    ("because\n", "line 1 of the causes is of no known kind: because"),
    ("because listed\n", "line 1 of the causes is of no known kind: because listed"),
    ("totals updates=0 events=0 orders=0\n", "line 1 of the causes is of no known kind: totals updates=0"),
    ("\n", "line 1 of the causes is of no known kind: "),
    (STARTED + LISTED + "because up pod=0 attempt=0\n",
     "line 3 of the causes has other keys or values than pod= attempt= start= passed=: because up pod=0 attempt=0"),
    ("because same since=1 since=1\n", "line 1 of the causes has other keys or values than since="),
    ("because left attempt=0 pod=0 code=1 listed=true\n", "line 1 of the causes has other keys"),
    ("because same  since=1\n", "line 1 of the causes has other keys"),
    # values of another form, which would be written in another way
    ("because same since=01\n", "line 1 of the causes has other keys or values"),
    ("because same since=-\n", "line 1 of the causes has other keys or values"),
    ("because same since=" + "1" * 31 + "\n", "line 1 of the causes has other keys or values"),
    ("because reclaimed value=2000m enough=1\n", "line 1 of the causes has other keys or values"),
    ("because reclaimed value=0m enough=1\n", "line 1 of the causes has other keys or values"),
    ("because left pod=0 attempt=0 code=-0 listed=true\n", "line 1 of the causes has other keys or values"),
    ("because left pod=0 attempt=0 code=1 listed=yes\n", "line 1 of the causes has other keys or values"),
    ("because sample value=1 limit=1 capacity=1 percent=10.00% since=-\n", "line 1 of the causes has other keys"),
    ("because newer pod=0 attempt=1 state=created lacks=readiness,startup\n", "line 1 of the causes has other keys"),
    ("because successes pod=0 attempt=0 threshold=1 at= start=0 delay=0\n", "line 1 of the causes has other keys"),
    # events
    ("event 5 shop/web app stopped 0\n", "line 1 of the causes is no event: event 5 shop/web app stopped 0"),
    ("event 5 node started 0\n", "line 1 of the causes is no event"),
    ("event 5 shop/web app threshold memory.available hard active\n", "line 1 of the causes is no event"),
    ("event 5 shop/web app started 0\x1b\n", "line 1 of the causes is no event: event 5 shop/web app started 0\\x1b"),
    # causes of another event, and none
    (LISTED, "line 1 of the causes has no event in front of it: because listed pod=0"),
    (STARTED, "line 1 of the causes: the event started has not these causes: none"),
    (STARTED + LISTED + LISTED, "line 1 of the causes: the event started has not these causes: listed listed"),
    (STARTED + LISTED + STARTED + "because unprobed pod=0 attempt=0\n",
     "line 3 of the causes: the event started has not these causes: unprobed"),
    (STARTED + LISTED + "because nobody at=5 signal=pid.available kind=hard ended=0 exempt=0\n" + LISTED,
     "line 4 of the causes has no event in front of it"),
    # cut
    (STARTED + LISTED[:-1], "line 2 of the causes is cut"),
    (STARTED + LISTED + "event", "line 3 of the causes is cut"),
)


def test_what_no_program_prints_is_a_fault():
    for text, fault in WRONG:
        expect(f"the fault of {text!r}", fault_of(text)[: len(fault)], fault)
    expect("no line at all", explained_in(""), [])


# a case, a line of it, and the sentence of that line
SENTENCES = (
    ("died_unlisted_with_nothing_instead", "unlisted pod=0 attempt=0 instead=- before=5 state=running",
     "this tick did not list it; the tick at 5 listed attempt 0 as CONTAINER_RUNNING"),
    ("died_unlisted_with_a_later_attempt_instead", "unlisted pod=0 attempt=0 instead=2 before=0 state=created",
     "this tick listed attempt 2 as CONTAINER_RUNNING instead; the tick at 0 listed attempt 0 as CONTAINER_CREATED"),
    ("died_unlisted_with_nothing_instead", "listed pod=0 attempt=0 before=- was=- other=-",
     "this tick listed attempt 0 as CONTAINER_RUNNING; it is the pod's first tick"),
    ("started_after_nothing", "listed pod=0 attempt=0 before=0 was=nothing other=-",
     "this tick listed attempt 0 as CONTAINER_RUNNING; the tick at 0 listed nothing of the container"),
    ("started_after_created_and_unknown", "listed pod=0 attempt=0 before=3 was=unknown other=-",
     "this tick listed attempt 0 as CONTAINER_RUNNING; the tick at 3 listed it as CONTAINER_UNKNOWN"),
    ("started_as_a_later_attempt_of_an_init_container", "listed pod=0 attempt=1 before=4 was=other other=0",
     "this tick listed attempt 1 as CONTAINER_RUNNING; the tick at 4 listed attempt 0 as CONTAINER_EXITED with code 1"),
    ("died_of_a_late_pod_with_a_code_below_0", "exited pod=0 attempt=0 code=-5 start=100 run=700",
     "this tick listed attempt 0 as CONTAINER_EXITED with code -5; it started at 100 and ran for 700 s"),
    ("died_without_a_start", "exited pod=0 attempt=0 code=127 start=- run=0",
     "this tick listed attempt 0 as CONTAINER_EXITED with code 127; no tick listed it as CONTAINER_RUNNING, so its run "
     "counts as 0 s"),
    ("startup_passed_after_its_delay_and_two_failures",
     "success pod=0 attempt=0 at=18 number=3 threshold=5 start=10 delay=3",
     "result 3 of the startup probe is its first success (failureThreshold 5, initialDelaySeconds 3; the instance "
     "started at 10)"),
    ("kill_by_startup_while_liveness_fails_too",
     "failures pod=0 attempt=0 probe=startup threshold=2 at=0,5 start=0 delay=0 passed=-",
     "the first 2 results of the startup probe are failures: 0, 5 (failureThreshold 2, initialDelaySeconds 0; the "
     "instance started at 0)"),
    ("kill_by_liveness_after_its_delay",
     "failures pod=0 attempt=0 probe=liveness threshold=3 at=18,19,20 start=5 delay=10 passed=-",
     "the liveness probe failed 3 times in a row: 18, 19, 20 (failureThreshold 3, initialDelaySeconds 10; the instance "
     "started at 5)"),
    ("kill_by_liveness_after_the_pass_of_startup",
     "failures pod=0 attempt=0 probe=liveness threshold=2 at=10,30 start=0 delay=1 passed=4",
     "the liveness probe failed 2 times in a row: 10, 30 (failureThreshold 2, initialDelaySeconds 1; the instance "
     "started at 0, its startup passed at 4)"),
    ("ready_by_successes_after_the_pass_of_startup", "up pod=0 attempt=0 start=0 passed=3",
     "the instance started at 0, and its startup passed at 3"),
    ("ready_by_successes_after_its_delay", "up pod=0 attempt=0 start=100 passed=-",
     "the instance started at 100; it has no startup probe"),
    ("ready_by_successes_after_its_delay",
     "successes pod=0 attempt=0 threshold=3 at=106,107,108 start=100 delay=4",
     "the readiness probe succeeded 3 times in a row: 106, 107, 108 (successThreshold 3, initialDelaySeconds 4)"),
    ("ready_by_a_result_in_the_tick_of_a_start", "successes pod=0 attempt=2 threshold=1 at=9 start=9 delay=0",
     "the readiness probe succeeded: 9 (successThreshold 1, initialDelaySeconds 0)"),
    ("startup_passed_of_a_sidecar", "unprobed pod=0 attempt=0", "it has no readiness probe"),
    ("unready_by_failures_with_an_unknown_result_within", "was-ready pod=0 attempt=0 start=0",
     "attempt 0, which started at 0, was ready"),
    ("unready_by_failures_with_an_unknown_result_within",
     "failures pod=0 attempt=0 probe=readiness threshold=2 at=7,9 start=0 delay=0 passed=0",
     "the readiness probe failed 2 times in a row: 7, 9 (failureThreshold 2, initialDelaySeconds 0; the instance "
     "started at 0, its startup passed at 0)"),
    ("unready_in_the_tick_of_an_exit_while_being_deleted", "left pod=0 attempt=0 code=0 listed=true",
     "it exited in this tick with code 0"),
    ("unready_by_newer_instances_that_lack_something", "left pod=0 attempt=0 code=137 listed=false",
     "this tick no longer listed it, so it counts as exited with code 137"),
    ("died_twice_in_one_tick", "newer pod=0 attempt=1 state=exited lacks=start",
     "this tick listed attempt 1 as CONTAINER_EXITED, which is not ready: it has not started"),
    ("unready_by_newer_instances_that_lack_something",
     "newer pod=0 attempt=1 state=running lacks=startup,readiness",
     "this tick listed attempt 1 as CONTAINER_RUNNING, which is not ready: its startup has not passed and its "
     "readiness probe has not made it ready"),
    ("unready_by_newer_instances_that_lack_something",
     "newer pod=0 attempt=3 state=unknown lacks=start,startup,readiness",
     "this tick listed attempt 3 as CONTAINER_UNKNOWN, which is not ready: it has not started, its startup has not "
     "passed and its readiness probe has not made it ready"),
    ("restart_due_exactly_at_a_tick", "exit pod=0 attempt=1 at=10 code=137",
     "attempt 1 exited with code 137 at 10"),
    ("restart_due_exactly_at_a_tick", "wanted pod=0 role=app by=pod policy=Always rule=-",
     "the pod's restartPolicy Always restarts it"),
    ("restart_by_rules_and_policies_of_containers", "wanted pod=0 role=app by=rule policy=Always rule=1",
     "rule 2 of its restartPolicyRules restarts it"),
    ("restart_by_rules_and_policies_of_containers", "wanted pod=0 role=init by=container policy=OnFailure rule=-",
     "its own restartPolicy OnFailure restarts it, as an init container that failed"),
    ("backoff_in_the_tick_that_ends_the_pod", "wanted pod=0 role=sidecar by=sidecar policy=Always rule=-",
     "it is a sidecar, which always restarts"),
    ("restart_due_exactly_at_a_tick",
     "delay pod=0 number=1 first=0 since=5 why=first doubled=- greatest=- set=-",
     "the restart has no delay: it is the container's first exit"),
    ("restart_after_runs_of_599_and_600_seconds",
     "delay pod=0 number=1 first=1 since=620 why=long doubled=- greatest=- set=-",
     "the restart has no delay: its run was at least 600 s, so exits count from it again"),
    ("restart_after_runs_of_599_and_600_seconds",
     "delay pod=0 number=2 first=1 since=620 why=long doubled=0 greatest=- set=-",
     "exit 2 since attempt 1 exited at 620 after a run of at least 600 s delays the restart by 10 s"),
    ("backoff_up_to_a_greatest_delay_of_300",
     "delay pod=0 number=5 first=0 since=0 why=first doubled=3 greatest=- set=-",
     "exit 5 since attempt 0 exited at 0 delays the restart by 10 s, doubled 3 times"),
    ("backoff_up_to_the_default_delay",
     "delay pod=0 number=7 first=0 since=1 why=first doubled=5 greatest=300 set=default",
     "exit 7 since attempt 0 exited at 1 delays the restart by 10 s, doubled 5 times, but at most 300 s, the default"),
    ("backoff_with_a_greatest_delay_of_10",
     "delay pod=0 number=3 first=0 since=0 why=first doubled=1 greatest=10 set=node",
     "exit 3 since attempt 0 exited at 0 delays the restart by 10 s, doubled once, but at most 10 s, as the node line "
     "sets it"),
    ("restart_due_exactly_at_a_tick", "due pod=0 at=20 before=19",
     "the restart was due from 20 on; the tick before was at 19"),
    ("backoff_with_a_greatest_delay_of_10", "due pod=0 at=0 before=-",
     "the restart was due from 0 on; it is the pod's first tick"),
    ("phase_running_to_pending", "lives pod=0 phase=Pending", "the pod goes on: this tick leaves it Pending"),
    ("phase_failed_by_an_init_container", "case pod=0 now=1 before=2",
     "an init container failed, and no restart follows; the tick before left the pod Pending"),
    ("phase_running_to_pending", "case pod=0 now=2 before=5",
     "a container has not completed, and the pod waits for it; the tick before left the pod Running"),
    ("phase_ended_by_two_app_containers", "case pod=0 now=3 before=5",
     "each app container exited with code 0, and no restart follows; the tick before left the pod Running"),
    ("phase_ended_by_two_app_containers", "case pod=1 now=4 before=2",
     "each app container exited, not all with code 0, and no restart follows; the tick before left the pod Pending"),
    ("phase_failed_by_the_node", "case pod=0 now=5 before=-",
     "the pod waits for no container, and an app container goes on; it is the pod's first tick"),
    ("phase_failed_by_the_node", "case pod=0 now=failed before=5",
     "the node ended the pod; the tick before left the pod Running"),
    ("phase_failed_by_the_node", "failed pod=1 reason=DeadlineExceeded",
     "its reason is DeadlineExceeded (it ran for longer than its activeDeadlineSeconds)"),
    ("phase_failed_by_an_init_container", "init-failed pod=0 container=two attempt=0 code=2",
     "init container two exited with code 2 (attempt 0)"),
    ("phase_running_to_pending", "awaited pod=0 container=set for=completion", "init container set has not completed"),
    ("phase_ended_by_two_app_containers", "completed pod=0 container=b attempt=1",
     "b exited with code 0 (attempt 1)"),
    ("restart_by_rules_and_policies_of_containers", "stopped pod=0 container=learn attempt=2 code=3",
     "learn exited with code 3 (attempt 2)"),
    ("phase_failed_by_the_node", "unfinished pod=0 container=app is=running code=-", "app is running"),
    ("backoff_up_to_the_default_delay", "unfinished pod=0 container=app is=waiting code=-", "app is waiting"),
    ("phase_running_to_pending", "unfinished pod=0 container=app is=restarting code=137",
     "app exited with code 137, and a restart follows"),
    ("phase_running_to_pending", "decided pod=0 container=app by=pod policy=Always rule=-",
     "the pod's restartPolicy Always restarts app"),
    ("phase_failed_by_an_init_container", "decided pod=0 container=two by=pod policy=Never rule=-",
     "the pod's restartPolicy Never does not restart two"),
    ("restart_by_rules_and_policies_of_containers",
     "decided pod=0 container=learn by=container policy=Never rule=-",
     "learn's own restartPolicy Never does not restart it"),
    ("pressure_of_disks_by_two_thresholds", "sample value=9437184 limit=10485760 capacity=- percent=- since=-",
     "9Mi is below 10Mi"),
    ("threshold_as_a_percentage_with_a_reclaim", "sample value=125 limit=125125m capacity=1001 percent=12.50% since=-",
     "125 is below 125.12 (12.50% of 1001)"),
    ("threshold_hard_and_soft_of_one_signal", "sample value=150 limit=150 capacity=- percent=- since=1",
     "150 is at least 150; the threshold was active since 1"),
    ("threshold_without_a_sample_and_a_tick_that_is_no_sync_tick",
     "sample value=- limit=150 capacity=- percent=- since=5",
     "the tick has no sample; the threshold was active since 5"),
    ("pressure_of_disks_by_two_thresholds", "active signal=imagefs.available kind=soft since=0",
     "imagefs.available soft is active since 0"),
    ("pressure_ends_in_a_sync_tick_after_its_period", "met last=10 period=30",
     "no threshold of it was active after the sync tick at 10, and the transition period of 30 s is over"),
    ("reclaim_of_a_soft_threshold", "asks value=96 limit=100 since=0 grace=15 at=20",
     "96 is below 100; active since 0, grace 15 s, due since 20"),
    ("reclaim_of_a_soft_threshold", "reclaimed value=500 enough=100",
     "the reclaim brought it to 500, and 100 is enough"),
    ("evicted_by_hard_and_soft_thresholds_of_one_signal",
     "acted-on signal=memory.available kind=soft value=150 limit=200 since=0 grace=10 at=10",
     "memory.available soft: 150 is below 200; active since 0, grace 10 s, due since 10"),
    ("reclaim_first_and_a_later_threshold_acted_on", "other signal=nodefs.available kind=hard why=reclaimed",
     "nodefs.available hard was due too, but the reclaim was enough for it"),
    ("reclaim_first_and_a_later_threshold_acted_on", "other signal=pid.available kind=hard why=later",
     "pid.available hard was due too, but it comes later in the order"),
    ("names_pods_without_a_sample", "candidates count=3 ended=0 exempt=0",
     "3 candidates; no other pod was present"),
    ("evicted_the_only_candidate_which_the_node_ends_too", "candidates count=1 ended=2 exempt=2",
     "1 candidate; 2 present pods had ended and 2 were exempt"),
    ("evicted_by_a_tie_down_to_the_number",
     "candidate pod=2 key=default/c unsampled=false exceeds=true priority=0 usage=150500m request=100 excess=50500m "
     "failed=false", "default/c: usage 150.5, request 100, above 50.5, priority 0"),
    ("evicted_the_only_candidate_which_the_node_ends_too",
     "candidate pod=1 key=default/web unsampled=false exceeds=true priority=0 usage=1500m request=0 excess=1500m "
     "failed=true", "default/web: usage 1.5, request 0, above 1.5, priority 0, ended by the node"),
    ("names_pods_without_a_sample",
     "candidate pod=1 key=default/y unsampled=true exceeds=- priority=0 usage=0 request=- excess=- failed=false",
     "default/y: no sample, priority 0"),
    ("names_more_than_16_and_the_same_pod_again", "more count=2", "2 more are left out"),
    ("names_pods_without_a_sample", "ordered by=unsampled",
     "default/y comes first: it has no sample, and default/x has one"),
    ("names_by_requests_of_pods_and_after_a_resize", "ordered by=exceeds",
     "default/a comes first: its usage is above its request, and default/c's is not"),
    ("paused_for_some_seconds", "ordered by=priority",
     "default/b comes first: its priority is -2147483648, default/a's is 0"),
    ("names_by_requests_of_pods_and_after_a_resize", "ordered by=excess",
     "default/c comes first: its usage less its request is -10, default/b's is -20"),
    ("names_pods_without_a_sample", "ordered by=usage",
     "default/y comes first: its usage is 7, default/x's is 0"),
    ("evicted_by_a_tie_down_to_the_number", "ordered by=number",
     "default/c comes first: default/d is equal in all else, and its line in the trace is later"),
    ("evicted_the_only_candidate_which_the_node_ends_too", "ordered by=alone",
     "default/web is the only candidate"),
    ("evicted_by_hard_and_soft_thresholds_of_one_signal", "grace pod-period=45 greatest=20",
     "the pod's terminationGracePeriodSeconds is 45, the node's evictionMaxPodGracePeriod is 20; the lesser one "
     "counts"),
    ("evicted_by_a_tie_down_to_the_number", "pause by=2 at=3 until=3 ended=seconds",
     "the eviction before was of default/c at 3; the node line sets no pause"),
    ("paused_for_some_seconds", "pause by=1 at=0 until=10 ended=seconds",
     "the eviction before was of default/b at 0; its pause until 10 was over"),
    ("paused_until_the_pod_has_exited_or_is_gone", "pause by=0 at=0 until=30 ended=exited",
     "the eviction before was of default/a at 0; its pause until 30 ended early: it had exited"),
    ("paused_until_the_pod_has_exited_or_is_gone", "pause by=1 at=10 until=40 ended=gone",
     "the eviction before was of default/b at 10; its pause until 40 ended early: it was gone"),
    ("names_by_requests_of_pods_and_after_a_resize", "same since=20",
     "the rules name the same pod in each sync tick since 20"),
    ("paused_for_some_seconds", "paused at=5 signal=memory.available kind=hard by=1 since=0 until=10",
     "memory.available hard is due, but evictions pause until 10: default/b was evicted at 0"),
    ("nobody_since_all_are_exempt_or_have_ended",
     "nobody at=30 signal=memory.available kind=hard ended=2 exempt=1",
     "memory.available hard is due, but no pod is a candidate: 2 present pods had ended and 1 was exempt"),
    ("threshold_as_a_percentage_with_a_reclaim", "nobody at=3 signal=memory.available kind=hard ended=0 exempt=0",
     "memory.available hard is due, but no pod is a candidate: no pod was present"),
    ("reclaim_of_a_soft_threshold", "nobody at=20 signal=imagefs.available kind=soft ended=0 exempt=1",
     "imagefs.available soft is due, but no pod is a candidate: 1 present pod was exempt"),
)


def told_in(name):
    """What each line of a case says, and the lines of each event."""
    trace = traces.read_trace(f"{CASES}/{name}.trace")
    sentences, texts = {}, {}
    for one in explained_in(read(f"{CASES}/{name}.causes")):
        telling = causes_text.Telling(one, str, trace)
        for cause in one.causes:
            sentences.setdefault(cause.line().removeprefix("because "), causes_text.sentence(cause, telling))
        if one.event is not None:
            texts[one.event.line()] = causes_text.lines_of(one, str, trace)
    return sentences, texts


def test_sentences():
    for name in sorted({name for name, _, _ in SENTENCES}):
        sentences, _ = told_in(name)
        for line, wanted in ((line, wanted) for case, line, wanted in SENTENCES if case == name):
            expect(f"{name}: {line}", sentences.get(line, "(no such line)"), wanted)
    expect("each kind of line has a sentence", {line.split(" ")[0] for _, line, _ in SENTENCES}, set(causes.KINDS))


def test_each_line_of_each_case_has_a_sentence():
    """A sentence is one line that a terminal shows, and names no value that is not there."""
    for path in sorted(glob.glob(f"{CASES}/*.causes")):
        sentences, texts = told_in(path.removeprefix(f"{CASES}/").removesuffix(".causes"))
        odd = [told for told in sentences.values() if not told or not told.isprintable() or "None" in told]
        expect(f"{path}: its sentences", odd, [])
        expect(f"{path}: its events", [event for event, lines in texts.items() if not lines], [])


EVICTED = """\
imagefs.available hard: 5 is below 1000; active since 4, grace 0 s, due since 4
nodefs.available hard was due too, but the reclaim was enough for it
nodefs.inodesFree hard was due too, but the reclaim was enough for it
pid.available hard was due too, but it comes later in the order
2 candidates; no other pod was present:
  place  pod        usage  request  above  priority
      1  default/b      1        0      1         0
      2  default/a      0        0      0        -7
default/b comes first: its usage is above its request, and default/a's is not"""
NAMED = """\
nodefs.inodesFree hard: 9 is below 10; active since 30, grace 0 s, due since 30
3 candidates; no other pod was present:
  place  pod        usage  request  above  priority
      1  default/y      7  -        -             0
      2  default/x      0  -        -             0
      3  default/z      0  -        -             1
default/y comes first: its usage is 7, default/x's is 0"""


def test_texts_of_events():
    for name, event, wanted in (
        ("reclaim_first_and_a_later_threshold_acted_on", "event 4 node evicted default/b imagefs.available hard 0",
         EVICTED),
        ("names_pods_without_a_sample", "event 30 node names default/y nodefs.inodesFree hard", NAMED),
        ("restart_due_exactly_at_a_tick", "event 20 shop/web app restart 1",
         "attempt 1 exited with code 137 at 10\nthe pod's restartPolicy Always restarts it\n"
         "exit 2 since attempt 0 exited at 5 delays the restart by 10 s\n"
         "the restart was due from 20 on; the tick before was at 19\nthe pod goes on: this tick leaves it Running"),
    ):
        expect(f"the lines of {event}", "\n".join(told_in(name)[1][event]), wanted)


# a trace whose pod has neither a known manifest nor a known code
GUESSED = (
    '{"kind":"node","name":"n1"}',
    '{"kind":"pod","pod":{"metadata":{"name":"job"},"spec":{"containers":[{"name":"app"}]}},"guessed":["manifest"]}',
    '{"kind":"tick","at":5,"pods":[{"pod":"default/job","guessed":["phase"],"containers":[{"name":"app","attempt":0,'
    '"state":"CONTAINER_EXITED","exitCode":137,"guessed":["exitCode"]}]}]}',
)
OF_GUESSED = """\
event 5 default/job app died 0 137
because exited pod=0 attempt=0 code=137 start=- run=0
event 5 default/job app ready
because up pod=0 attempt=0 start=5 passed=-
because unprobed pod=0 attempt=0
event 5 default/job app unready
because was-ready pod=0 attempt=0 start=0
because left pod=0 attempt=0 code=137 listed=true
event 5 default/job app backoff 10
because exit pod=0 attempt=0 at=5 code=137
because wanted pod=0 role=app by=pod policy=Always rule=-
because delay pod=0 number=1 first=0 since=5 why=first doubled=- greatest=- set=-
event 5 default/job - phase Failed
because case pod=0 now=4 before=-
because stopped pod=0 container=app attempt=0 code=137
because decided pod=0 container=app by=pod policy=Never rule=-
"""


def test_what_was_guessed_is_not_told():
    trace = traces.trace_of("\n".join(GUESSED).encode(), "it")
    told = [line for one in explained_in(OF_GUESSED) for line in causes_text.lines_of(one, str, trace)]
    expect("no guessed code, and no probe of an unknown manifest", told, [
        "this tick listed attempt 0 as CONTAINER_EXITED with an unknown code; no tick listed it as CONTAINER_RUNNING, "
        "so its run counts as 0 s",
        "the instance started at 5", "its manifest is unknown: whether it has probes is too",
        "attempt 0, which started at 0, was ready", "it exited in this tick with an unknown code",
        "attempt 0 exited with an unknown code at 5", "the pod's restartPolicy Always restarts it",
        "the restart has no delay: it is the container's first exit",
        "each app container exited, and no restart follows; it is the pod's first tick",
        "app exited with an unknown code (attempt 0)", "the pod's restartPolicy Never does not restart app"])
