"""The work on the workers of a scheduler of Dask distributed, an engine that does the tasks of a worker that died on
another one."""

from __future__ import annotations

import contextlib
import logging
import os
import time
from collections.abc import Iterator
from typing import Any

import cloudpickle
import distributed

from replay_tools import entry
from replay_tools.fleet import on_worker, work

SECONDS_TO_CONNECT = 5
SECONDS_TO_WAIT = 30
# after so many without an answer the scheduler is asked whether it is there
SECONDS_OF_SILENCE = 10
# tasks that are distributed for each thread of a worker, with the one that it has in hand
WAITING_EACH = 4
TOOLS = os.path.dirname(os.path.dirname(os.path.dirname(os.path.realpath(__file__))))


@contextlib.contextmanager
def connected(address: str) -> Iterator[Any]:
    """A client of the scheduler of an address, with a worker at least."""
    # what a lost connection means is printed in one line
    logging.disable(logging.CRITICAL)
    client = client_of(address)
    try:
        wait_for_worker(client, address)
        yield client
    finally:
        # one that lost its scheduler has nobody to take leave of
        with contextlib.suppress(Exception):
            client.close()


def client_of(address: str) -> Any:
    try:
        return distributed.Client(address, timeout=SECONDS_TO_CONNECT)
    except (OSError, ValueError, TypeError, RuntimeError) as fault:
        raise no_answer(address, fault) from None


def wait_for_worker(client: Any, address: str) -> None:
    try:
        client.wait_for_workers(1, timeout=SECONDS_TO_WAIT)
    except distributed.TimeoutError:
        raise entry.Fault(f"the scheduler {address} has no worker; start one, as dask-worker {address}") from None
    except OSError as fault:
        raise no_answer(address, fault) from None


def no_answer(address: str, fault: Exception) -> entry.Fault:
    said = str(fault).split("\n")[0] or type(fault).__name__
    return entry.Fault(f"the scheduler {address} does not answer: {said}")


def answers(tasks: Any, program: str, program_sum: str, client: Any) -> Iterator[Any]:
    """Path and answer of each task, as they come; tasks are pairs of a path and what is known of it."""
    try:
        yield from answers_of_workers(tasks, program, program_sum, client)
    except entry.Fault:
        raise
    except Exception as fault:
        # a client that has dropped raises what comes
        if client.status == "running" and not isinstance(fault, (OSError, distributed.CancelledError)):
            raise
        raise entry.Fault("the scheduler went away; what is done is kept, and a further run goes on from there"
                          ) from None


def answers_of_workers(tasks: Any, program: str, program_sum: str, client: Any) -> Iterator[Any]:
    """A few tasks wait next to those in hand, and answers are fetched as they come, so that few are lost with a worker
    that dies."""
    cloudpickle.register_pickle_by_value(on_worker)
    threads, pending = Threads(client), {}
    for path, known in tasks:
        pending[client.submit(on_worker.answer, TOOLS, program, program_sum, path, known, pure=False)] = path
        while len(pending) >= threads.count() * WAITING_EACH:
            yield from some(pending, client)
    while pending:
        yield from some(pending, client)


class Threads:
    """How many threads the workers have together, which come and go."""

    def __init__(self, client: Any) -> None:
        self.client, self.known = client, 1
        self.asked: float | None = None

    def count(self) -> int:
        """One at least; it is asked for again each second."""
        now = time.monotonic()
        if self.asked is None or now - self.asked > 1:
            self.known, self.asked = max(sum(self.client.nthreads().values()), 1), now
        return self.known


def some(pending: Any, client: Any) -> Iterator[Any]:
    """Takes what is done from what is pending, once there is something. An answer that was lost with its worker is
    pending again, since the scheduler passes its trace out again."""
    try:
        done, _ = distributed.wait(list(pending), SECONDS_OF_SILENCE, "FIRST_COMPLETED")
    except distributed.TimeoutError:
        client.nthreads()
        return
    finished = {future.key: future for future in done if future.status == "finished"}
    fetched = client.gather(finished, errors="skip")
    for future in done:
        answer = fetched.get(future.key)
        if answer is None and future.status == "error":
            answer = answer_without(future, pending[future])
        if answer is not None:
            yield pending.pop(future), answer


def answer_without(future: Any, path: str) -> dict[str, Any]:
    """The answer of a task that came to none. One whose workers died again and again failed."""
    fault = future.exception()
    if not isinstance(fault, distributed.KilledWorker):
        raise entry.Fault(str(fault).split("\n")[0])
    return work.failed(path, "each worker that replayed it died")
