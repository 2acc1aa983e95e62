"""Runs the recorder: polls until the end, and writes the lines as they are settled."""

from __future__ import annotations

import signal
import sys
from collections.abc import Callable
from dataclasses import replace
from typing import Any, TYPE_CHECKING

from replay_tools import outside
from replay_tools.cli.statuses import Status

from .check import check
from .clock import Clock
from .connections import api_of, kept_sources
from .lines import TooLong
from .metrics import Metrics
from .node import node_line_of, own_node_line
from .observer import Observer
from .output import Ended, Output, Stopped
from .recorder import Recorder
from .sources import INTERRUPTS, Failed
from .words import BadWord, missing_commands, words_of

if TYPE_CHECKING:
    from .into import LastingRecording, Traces
    from .sources import Sources
    from .words import Words

# a recorder that goes on for ever does not grow by what it has reported
MOST_REMEMBERED = 10000
# the next poll comes so soon if the kubelet may evict, was just started, or a container has just failed
SOON_SECONDS = 1


class Says:
    """Prints a line on standard error, once of each subject, or once of its text, as far back as it remembers."""

    def __init__(self) -> None:
        self.said: dict[Any, bool] = {}

    def __call__(self, text: str, subject: str | tuple[str | float, ...] | None = None) -> None:
        subject = text if subject is None else subject
        if subject not in self.said:
            self.said[subject] = True
            if len(self.said) > MOST_REMEMBERED:
                del self.said[next(iter(self.said))]
            print(f"record: {outside.text_of(text)}", file=sys.stderr, flush=True)


class Recording:
    """One run of the recorder."""

    def __init__(self, words: Words, sources: Sources, clock: Any, output: Traces | Output,
                 say: Callable[..., None]) -> None:
        self.words = words
        self.sources = sources
        self.clock = clock
        self.output = output
        self.say = say
        self.observer = Observer(sources, words.every, say, clock.now, words.log_lines,
                                 words.throttled and words.format.says_gone)
        self.recorder = Recorder(words.format, words.every, say)
        self.recorder.course.asks_events = sources.api is not None
        self.metrics = None if words.metrics is None else Metrics(words.metrics, say)
        # the moment of the first poll, once that is taken
        self.begun: float = 0
        # the moment of the last regular poll
        self.regular: float = 0
        self.has_begun = False

    def begin(self) -> None:
        """The first poll and the node line; they need every source."""
        moment = self.clock.now()
        try:
            seen, summary = self.observer.first_look(moment)
            if self.words.node_line is not None:
                node_line = own_node_line(self.words.node_line, self.words.format, summary)
            else:
                node_line = node_line_of(self.sources.configuration(), self.words.node, summary, self.words.format)
            first = self.recorder.begin(node_line)
            self.observer.near.know(node_line.fields)
        except (Failed, TooLong) as failed:
            raise Ended(Status.FAILED, f"nothing recorded: {failed} (--check shows which sources work)") from None
        with self.output.undisturbed():
            self.output.write([first])
            self.recorder.take(seen)
            self.begun, self.has_begun = moment, True
            if self.metrics is not None:
                self.metrics.take([first])

    def count(self, due: list[Any]) -> None:
        """Counts what was settled at a poll, for the file of metrics."""
        if self.metrics is not None and due:
            is_first = self.metrics.standing.at is None
            for lines, _ in due:
                self.metrics.take(lines)
                if is_first and self.metrics.standing.at is not None:
                    is_first = False
                    self.metrics.assume(self.recorder.probed())
            self.metrics.write()

    def has_all(self) -> bool:
        """Whether all ticks that are asked for are written or planned."""
        return self.recorder.timeline.planned() >= self.output.ticks_left

    def is_over(self, moment: float) -> bool:
        """Whether the next poll would come too late."""
        duration = self.words.duration
        return duration is not None and self.next_at(moment) - self.begun > duration

    def wait_for_next(self, moment: float) -> None:
        """Waits for the poll after one at a moment."""
        self.clock.wait(min(max(self.next_at(moment) - self.clock.now(), 0), self.words.look))

    def next_at(self, moment: float) -> float:
        """When the poll after one at a moment comes: so long after the last regular one as was asked for, and sooner if
        something is likely to happen that is shown for a second. Polls in between move no regular one."""
        if not self.regular <= moment < self.regular + self.words.look:
            self.regular = moment
        regular = self.regular + self.words.look
        return min(moment + SOON_SECONDS, regular) if self.observer.looks_soon(moment) else regular

    def check_output(self) -> None:
        """Raises Ended where nothing may be written any more."""

    def say_left_out(self, count: int) -> None:
        if count:
            texts, verb = ("1 text", "is") if count == 1 else (f"{count} texts", "are")
            self.say(f"{texts} of manifests {verb} left out: Kubernetes' grammar doesn't allow them")

    def go_on(self) -> None:
        """Polls until the end."""
        moment = self.begun
        while not self.has_all() and not self.output.is_stopped and not self.is_over(moment):
            self.wait_for_next(moment)
            moment = self.clock.now()
            seen = self.observer.look(moment)
            with self.output.undisturbed():
                self.recorder.take(seen)
                due = list(self.recorder.due(moment))
                self.output.write_due(iter(due))
                self.count(due)

    def run(self) -> None:
        """Records to the end; what is seen is written also where an interrupt ends it."""
        try:
            self.begin()
            self.go_on()
        except Stopped:
            pass
        if self.has_begun:
            with self.output.undisturbed():
                self.check_output()
                due = list(self.recorder.rest(self.clock.now()))
                self.output.write_due(iter(due))
                self.count(due)
                self.say_left_out(self.recorder.pods.texts_left_out)


def recorded(words: Words, sources: Sources, clock: Any, say: Callable[..., None]) -> int:
    """Records as the arguments ask for; the status."""
    if words.into is not None:
        from .into import recorded_into  # which imports this module
        return recorded_into(words, words.into, sources, clock, say)
    output = Output(words.ticks)
    return watch(output, Recording(words, sources, clock, output, say), say)


def watch(output: Traces | Output, recording: LastingRecording | Recording, say: Callable[..., None]) -> int:
    """Runs a recording until its end or an interrupt, after which none is heard any more; the status."""
    try:
        for number in INTERRUPTS:
            signal.signal(number, output.interrupt)
        return status_of(recording, say)
    finally:
        for number in INTERRUPTS:
            signal.signal(number, signal.SIG_IGN)


def status_of(recording: LastingRecording | Recording, say: Callable[..., None]) -> int:
    """The status of a recording that is run."""
    try:
        recording.run()
    except TooLong as failed:
        say(str(failed))
        return Status.FAILED
    except Ended as ended:
        if ended.reason is not None:
            say(ended.reason)
        return ended.status
    return Status.DONE


def checked(words: Words, sources: Sources) -> int:
    """Shows which sources work; the status."""
    works = check(sources, words.node, words.format, lambda line: print(outside.text_of(line), flush=True),
                  words.throttled)
    return Status.DONE if works else Status.FAILED


def main(arguments: list[str], clock: Any = None, make_sources: Callable[..., Any] | None = None) -> int:
    """The program, with a clock and sources that tests can replace; its status."""
    say = Says()
    try:
        words = words_of(arguments)
    except BadWord as bad:
        say(f"{bad} (see --help)")
        return Status.BAD_INPUT
    asked = words.node, words.kubelet, words.curl_file
    sources = kept_sources(*asked, say) if make_sources is None else make_sources(*asked)
    sources = replace(sources, crictl=words.crictl)
    try:
        if words.events is not None:
            sources = replace(sources, api=api_of(words.events, words.curl_file, sources))
        missing = missing_commands(sources.commands())
        if missing and not words.is_check:
            say(f"not on the PATH: {', '.join(missing)} (--check asks the other sources)")
            return Status.MISSING
        if words.is_check:
            return checked(words, sources)
        return recorded(words, sources, clock or Clock(), say)
    except Failed as failed:
        say(str(failed))
        return Status.FAILED
    except Stopped:
        return Status.DONE
    finally:
        sources.close()
