"""The work on the processors of this machine, in processes of their own."""

from __future__ import annotations

import concurrent.futures
import os
import signal
import threading
import time
from collections.abc import Iterator
from concurrent.futures.process import BrokenProcessPool
from typing import Any

from replay_tools.fleet import work

# tasks that are distributed for each process, with the one that it has in hand
WAITING_EACH = 4


def answers(tasks: list[tuple[str, tuple[str | None, int | None]]], program: str, program_sum: str,
            processes: int) -> Iterator[tuple[str, dict[str, Any]]]:
    """Path and answer of each task, as they come; tasks are pairs of a path and what is known of it."""
    left = dict(tasks)
    while left:
        try:
            for path, answer in answers_of_pool(list(left.items()), program, program_sum, processes):
                del left[path]
                yield path, answer
        except BrokenProcessPool:
            # a process was ended from outside; each trace that it may have had in hand gets one of its own
            for path in list(left)[: processes * WAITING_EACH]:
                yield path, answer_alone(path, left.pop(path), program, program_sum)


def answer_alone(path: str, known: tuple[str | None, int | None], program: str, program_sum: str) -> dict[str, Any]:
    try:
        [(_, answer)] = answers_of_pool([(path, known)], program, program_sum, 1)
        return answer
    except BrokenProcessPool:
        return work.failed(path, "each process that replayed it was ended")


def answers_of_pool(tasks: list[tuple[str, tuple[str | None, int | None]]], program: str, program_sum: str,
                    processes: int) -> Iterator[tuple[str, dict[str, Any]]]:
    """A few tasks wait next to those in hand, so that answers don't pile up."""
    with concurrent.futures.ProcessPoolExecutor(processes, initializer=begin) as pool:
        pending = {}
        try:
            for path, known in tasks:
                pending[pool.submit(work.answer, program, program_sum, path, known)] = path
                if len(pending) >= processes * WAITING_EACH:
                    yield from some(pending)
            while pending:
                yield from some(pending)
        finally:
            pool.shutdown(wait=True, cancel_futures=True)


def some(pending: dict[Any, str]) -> Iterator[tuple[str, dict[str, Any]]]:
    """Takes what is done from what is pending, once there is something."""
    done, _ = concurrent.futures.wait(pending, return_when=concurrent.futures.FIRST_COMPLETED)
    for future in done:
        yield pending.pop(future), future.result()


def begin() -> None:
    """An interrupt is the parent's to take, and a worker does not outlive it."""
    signal.signal(signal.SIGINT, signal.SIG_IGN)
    threading.Thread(target=end_with, args=(os.getppid(),), daemon=True).start()


def end_with(parent: int) -> None:
    while os.getppid() == parent:
        time.sleep(0.5)
    os._exit(1)
