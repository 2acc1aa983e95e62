"""A run of the recorder that writes traces of one node into a folder, one after the other: `--into FOLDER`. Each is
whole by itself, and begins in the second in which the one before it ends."""

from __future__ import annotations

from collections.abc import Callable
from typing import Any, TYPE_CHECKING

from replay_tools.cli.statuses import Status

from .answered import Answered
from .folder import Folder, Refused, made
from .lasting import LastingRecorder, forget_strangers, set_back
from .left import Left, damages, end_of_newest
from .output import Ended
from .program import Recording, watch
from .ship import Shipping
from .traces import Traces
from .writing import say_again

if TYPE_CHECKING:
    from .sources import Sources
    from .words import Into, Words

# a clock that goes back by less is taken as still until its time comes again
BACK_SECONDS = 60
# two polls are that far apart if the clock went forward, or the recorder was suspended
FORWARD_SECONDS = 120


class LastingRecording(Recording):
    """A run of the recorder that goes on from one trace to the next."""

    output: Traces
    recorder: LastingRecorder

    def __init__(self, words: Words, sources: Sources, clock: Any, output: Traces, say: Callable[..., None]) -> None:
        super().__init__(words, sources, clock, output, say)
        self.say = say
        self.recorder = LastingRecorder(words.format, words.every, say)
        self.recorder.course.asks_events = sources.api is not None
        self.damages = damages(output.folder)
        self.observer.answered = Answered(output.folder.path, say)
        command = () if words.into is None else words.into.ship
        self.shipping = Shipping(command, output.folder, say) if command else None

    def begin(self) -> None:
        super().begin()
        self.output.probed = self.recorder.probed()

    def check_output(self) -> None:
        """Ends the recording if the folder was removed or replaced: what is there now may be another recorder's."""
        if not self.output.folder.is_there():
            raise Ended(Status.FAILED, f"--into: '{self.output.folder.path}' was removed or replaced: the recorder "
                                       "stops, and writes nothing into what is there now")

    def go_on(self) -> None:
        moment = self.begun
        while not self.output.is_stopped and not self.is_over(moment):
            self.wait_for_next(moment)
            before, moment = moment, self.clock.now()
            with self.output.undisturbed():
                self.check_output()
                self.see_clock(before, moment)
            seen = self.observer.look(moment)
            with self.output.undisturbed():
                self.check_output()
                self.recorder.take(seen)
                due = list(self.recorder.due(moment))
                self.output.take_look(due, int(self.recorder.timeline.next_second), self.recorder.foreseen(moment))
                self.count(due)
                self.forget()
                next(self.damages, None)
                if self.shipping is not None:
                    self.shipping.look()

    def see_clock(self, before: float, moment: float) -> None:
        """What the clock shows at a poll, after the poll before."""
        if moment < before - BACK_SECONDS:
            say_again(self.say, f"{int(before)}: the clock went back by {round(before - moment)} s, and the next trace "
                                f"begins at {int(moment)}")
            self.output.write_due(self.recorder.rest(before))
            self.output.turn_back(int(moment), int(before))
            self.recorder.begin_at(moment)
            self.begun -= before - moment
            set_back(self.observer, moment)
        elif moment > before + self.words.look + FORWARD_SECONDS:
            say_again(self.say, f"{int(moment)}: the last poll was {round(moment - before)} s ago: the clock went "
                                "forward, or the recorder was suspended")

    def forget(self) -> None:
        """After each rotation the recorder forgets what is over, so that it stays as small as it is."""
        if self.output.has_turned:
            self.output.has_turned = False
            self.recorder.forget()
            forget_strangers(self.observer)

    def run(self) -> None:
        with self.output.undisturbed():
            Left(self.output.folder).end(lambda: self.output.is_stopped)
            self.recorder.decisions.told_until = end_of_newest(self.output.folder)
        if self.output.is_stopped:
            return
        try:
            super().run()
        finally:
            with self.output.undisturbed():
                if self.output.folder.is_there():
                    self.end()
                elif self.shipping is not None:
                    self.shipping.stop()
        if self.output.is_lost and self.output.last is None:
            raise Ended(Status.FAILED)

    def end(self) -> None:
        """Ends the trace that is written, and ships what has ended."""
        self.output.end()
        self.output.pack()
        self.output.folder.ahead.drop()
        if self.shipping is not None:
            self.shipping.end()


def recorded_into(words: Words, into: Into, sources: Sources, clock: Any, say: Callable[..., None]) -> int:
    """Records traces one after the other; the status."""
    try:
        made(into.folder)
        folder = Folder(into.folder, words.node, into.keep, into.most, say)
    except Refused as refused:
        say(str(refused))
        return Status.FAILED
    output = Traces(folder, into.each, words.ticks, say)
    return watch(output, LastingRecording(words, sources, clock, output, say), say)
