"""Tests of the cases of `causes` in bench/causes, and of what checks their form."""
import glob
import os
import re

from causes_form import FORMS, ORDERS, WITHOUT_EVENT, check_order, faults_of, read as read_causes
from common import TOP, Case, read

CASES = os.path.join(TOP, "bench/causes")
LISTED = "died_unlisted_with_nothing_instead"
KILLED = "kill_by_liveness_after_its_delay"
DELAYED = "restart_due_exactly_at_a_tick"
CAPPED = "backoff_with_a_greatest_delay_of_5"
SHARE = "threshold_as_a_percentage_with_a_reclaim"
SOFT = "evicted_by_hard_and_soft_thresholds_of_one_signal"
NAMED = "names_more_than_16_and_the_same_pod_again"
NOBODY = "nobody_since_all_are_exempt_or_have_ended"
PAUSED = "paused_for_some_seconds"

WRONG = (
    # a line in another form
    (LISTED, "because up pod=0 attempt=0", "because up attempt=0 pod=0",
     "line 4: no kind has this name and these keys"),
    (LISTED, "before=5 state", "state", "line 10: no kind has this name and these keys"),
    (LISTED, "because lives", "because living", "line 19: no kind has this name and these keys"),
    (LISTED, "state=running", "state=exited", "line 10: unlisted has no such state: exited"),
    (LISTED, "because unprobed", "and unprobed", "line 5: it is no event and no cause"),
    (SHARE, "percent=12.50%", "percent=12.5%", "line 2: sample has no such percent: 12.5%"),
    # other kinds than those of the event
    (LISTED, "because unprobed pod=0 attempt=0\n", "", "line 3: ready has not these causes: up"),
    (LISTED, "because left pod=0 attempt=0 code=137 listed=false\n", "",
     "line 11: unready has not these causes: was-ready"),
    (NAMED, "because more count=2\nbecause ordered by=exceeds\n", "because ordered by=exceeds\nbecause more count=2\n",
     "line 5: names has not these causes"),
    (SHARE, "event 3 node threshold", "event 3 node limit", "line 1: there is no event limit"),
    # moments
    (LISTED, "start=0 passed=-", "start=1 passed=-", "line 3: up: no tick of its own has the moment 1"),
    (LISTED, "instead=- before=5", "instead=- before=0", "line 9: unlisted: the tick before is 5"),
    (LISTED, "due pod=0 at=9 before=5", "due pod=0 at=9 before=0", "line 14: due: the tick before is 5"),
    (LISTED, "event 9 shop/web app died", "event 8 shop/web app died", "line 9: pod 0 has no tick at 8"),
    (LISTED, "event 0 shop/web - phase", "event 12 shop/web - phase", "line 6: pod 0 has no tick at 12"),
    (KILLED, "at=18,19,20", "at=18,19", "line 9: 2 moments, not as many as the threshold"),
    (KILLED, "at=18,19,20", "at=19,18,20", "line 9: the moments are not in order"),
    (KILLED, "at=18,19,20", "at=16,18,19", "line 9: the last moment is not 20"),
    (KILLED, "at=18,19,20", "at=19,20,21", "line 9: failures: the moment 21 is later than 20"),
    (PAUSED, "paused at=5", "paused at=7", "line 11: paused: no tick of its own has the moment 7"),
    (LISTED, "event 0 shop/web app ready", "event 5 shop/web app ready", "line 6: the moment 0 comes after 5"),
    (PAUSED, "since=0 until=10", "since=0 until=5", "line 11: the moments are not in order"),
    # numbers and words
    (LISTED, "died 0 137", "died 1 137", "line 9: the causes are of another attempt"),
    (LISTED, "died 0 137", "died 0 1", "line 9: the causes have another code"),
    (LISTED, "unprobed pod=0", "unprobed pod=1", "line 3: its causes do not name one pod"),
    (LISTED, "container=app is", "container=log is", "line 6: unfinished: no such container"),
    (KILLED, "kill 0 liveness", "kill 0 startup", "line 9: the causes are of another probe"),
    (DELAYED, "number=2 first=0 since=5 why=first doubled=0", "number=2 first=0 since=5 why=first doubled=1",
     "line 30: the number and the doublings do not agree"),
    (DELAYED, "number=2 first=0 since=5 why=first doubled=0", "number=3 first=0 since=5 why=first doubled=1",
     "line 30: the causes have a delay of 20"),
    (DELAYED, "due pod=0 at=20", "due pod=0 at=19", "line 34: the delay is 10"),
    (CAPPED, "greatest=5 set=node", "greatest=5 set=-", "line 15: greatest and set do not agree"),
    (CAPPED, "greatest=5 set=node", "greatest=10 set=node",
     "line 15: the greatest delay is not less than the doubled one"),
    (SHARE, "percent=- since=3", "percent=- since=-", "line 7: only a threshold that cleared was active before"),
    (SHARE, "capacity=1001 percent", "capacity=- percent", "line 1: capacity and percent do not agree"),
    (SHARE, "True", "False", "line 3: the causes are of the other value"),
    # candidates
    (SOFT, "candidates count=3 ended=0", "candidates count=3 ended=1", "line 8: 3 pods are present, not 4"),
    (SOFT, "candidates count=3 ended=0", "candidates count=2 ended=1", "line 8: 3 candidates, not 2"),
    (SOFT, "candidate pod=2 key=default/c", "candidate pod=1 key=default/b", "line 8: a candidate is there twice"),
    (SOFT, "candidate pod=2 key=default/c", "candidate pod=2 key=default/d", "line 8: pod 2 is another pod"),
    (SOFT, "excess=1 failed", "excess=- failed", "line 8: exceeds, request and excess do not agree"),
    (SOFT, "evicted default/a", "evicted default/b", "line 8: the first candidate is another pod"),
    (SOFT, "ordered by=alone", "ordered by=number", "line 26: it is alone if it is the only candidate"),
    (SOFT, "because grace pod-period=45 greatest=20\n", "", "line 26: only a soft threshold has a grace period"),
    (SOFT, "pod-period=45", "pod-period=15", "line 26: the causes have a grace period of 15"),
    (SOFT, "evicted default/a memory.available hard", "evicted default/a memory.available soft",
     "line 8: the kind acted on is another one"),
    (NAMED, "because more count=2\n", "", "line 5: 2 candidates more, or none"),
    (NAMED, "because more count=2", "because more count=3", "line 5: 2 candidates more, or none"),
    (NOBODY, "kind=hard ended=2 exempt=1\n", "kind=hard ended=1 exempt=1\n", "line 21: 3 pods are present, not 2"),
)
"""A case, what is replaced in its causes, by what, and the beginning of the first fault"""


def names():
    return sorted(os.path.basename(path).removesuffix(".trace") for path in glob.glob(f"{CASES}/*.trace"))


def files_of(name):
    return read(CASES, f"{name}.trace"), read(CASES, f"{name}.causes")


class Cases(Case):
    def test_each_has_its_form(self):
        for name in names():
            with self.subTest(name):
                self.assertEqual(faults_of(*files_of(name)), [])

    def test_each_has_both_files(self):
        found = {os.path.basename(path).removesuffix(".causes") for path in glob.glob(f"{CASES}/*.causes")}
        self.assertEqual(found, set(names()))

    def test_every_kind_and_event_is_there(self):
        """Each event in three cases at least, and each form of a line in one."""
        events, forms = dict.fromkeys([*ORDERS, *WITHOUT_EVENT], 0), set()
        for name in names():
            found, alone = read_causes(files_of(name)[1])
            for one in {event.name for event in found} | {cause.kind for cause in alone}:
                events[one] += 1
            causes = [cause for event in found for cause in event.causes]
            forms |= {(cause.kind, *cause.values) for cause in [*causes, *alone]}
        self.assertEqual({event for event, count in events.items() if count < 3}, set())
        self.assertEqual(set(FORMS) - forms, set())


class Form(Case):
    def test_what_is_wrong_is_found(self):
        for name, old, new, fault in WRONG:
            with self.subTest(name, old=old, new=new):
                trace, causes = files_of(name)
                self.assertIn(old, causes)
                faults = faults_of(trace, causes.replace(old, new, 1))
                self.assertTrue(faults and faults[0].startswith(fault), faults[:1])

    def test_a_cause_without_its_event(self):
        trace, causes = files_of(LISTED)
        self.assertEqual(faults_of(trace, "because unprobed pod=0 attempt=0\n"),
                         ["line 1: no event precedes this cause"])
        self.assertEqual(faults_of(trace, ""), [])
        trace, causes = files_of(NOBODY)
        line = next(line for line in causes.splitlines(True) if line.startswith("because nobody at=0"))
        more = causes.replace(line, f"{line}because more count=1\n")
        self.assertEqual(faults_of(trace, more), ["line 11: no event precedes this cause"])

    def test_too_many_lines(self):
        """A phase with more than 64 lines of causes: a pod has at most 16 containers, so this text is no program's."""
        trace, causes = files_of("phase_ended_by_two_app_containers")
        line = "because completed pod=0 container=a attempt=0\n"
        self.assertEqual(faults_of(trace, causes.replace(line, line * 63)),
                         ["line 27: 65 lines of causes, more than 64"])
        self.assertEqual(faults_of(trace, causes.replace(line, line * 62)), [])

    def test_the_forms_are_those_of_the_page(self):
        """The kinds and keys of the page's tables, and of its list of cases."""
        page = read(TOP, "docs/why.md")
        found = set()
        for table in re.findall(r"(?:^\|.*\n)+", page, re.MULTILINE):
            rows = table.splitlines()
            kind = re.match(r"\| `([a-z-]+)` \|.*\|$", rows[0])
            keys = [key for row in rows[2:] for key in re.findall(r"`([a-z-]+)`", row.split("|")[1])]
            if kind and keys:
                found.add((kind[1], *keys))
        # the causes of a pod's event begin with its pod, which the tables leave out
        found = {form if form in FORMS else (form[0], "pod", *form[1:]) for form in found}
        written = {form for form in FORMS if form[0] in re.findall(r"\| [1-5`a-z]+ \| `([a-z-]+)`:", page)}
        in_words = {("decided", "pod", "container", "by", "policy", "rule"), ("more", "count"), ("same", "since")}
        self.assertEqual(found | written | in_words, set(FORMS))

    def test_the_examples_of_the_page(self):
        """Each has all causes of its event, in their forms."""
        page = read(TOP, "docs/why.md")
        events, alone = read_causes("".join(re.findall(r"^    ((?:event|because) [a-z0-9].*\n)", page, re.MULTILINE)))
        for event in events:
            check_order(event)
        self.assertEqual({event.name for event in events} | {"names"}, set(ORDERS))
        self.assertEqual([cause.kind for cause in alone], ["paused"])
