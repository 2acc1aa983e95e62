"""The tests of what goes out of the folder of `tools/record --into` for room: only as long as that makes some, and with
a line for each; and of a folder that is made."""

import contextlib
import errno
import gzip
import os
import random
from unittest import mock

from chance import BEGIN
import cases
from checks import expect, expect_refused
from into_plays import Clock, Into, laid, recorded_here
from test_into_folder import can_mount, on_a_mount
from test_into_kills import end_left
from test_plays import quiet_node

load_tests = cases.loaded(__name__)

HOURS = [f"n1.2025-12-31T{hour:02}-00-00Z.trace.gz" for hour in range(20)]


def put_hours(into, size):
    for name in HOURS:
        into.put(name, packed(name, size))


def packed(name, size):
    """A file of gzip's with about so many bytes."""
    return gzip.compress(random.Random(name).randbytes(size))


def hours_left(into):
    return [name for name in HOURS if os.path.exists(f"{into.folder}/{name}")]


def is_said(said, text):
    return [line for line in said if text in line]


@contextlib.contextmanager
def fsync_fails(error):
    """As of a volume that is thin and full: what was written does not come onto the disk, which reports room."""
    real = os.fsync

    def fsync(descriptor):
        if os.readlink(f"/proc/self/fd/{descriptor}").endswith(".gz.part"):
            raise OSError(error, os.strerror(error))
        real(descriptor)

    with mock.patch.object(os, "fsync", fsync):
        yield


def test_room_that_is_not_made():
    """Of twenty traces one goes for the packing of the others, and no more since that does not help; all is recorded.
    """
    for error in (errno.ENOSPC, errno.EDQUOT):
        into = Into(quiet_node(3, 100))
        whole = into.record("--for", "90", "--every", "1", "--extended")[1]
        put_hours(into, 450)
        with fsync_fails(error):
            said = recorded_here(into, Clock(BEGIN), "--for", "90", "--each", "20s", "--every", "1")
        why = os.strerror(error)
        expect(f"{why} at fsync: the traces of before", hours_left(into), HOURS[1:])
        expect(f"{why} at fsync: each that goes is said", is_said(said, "removed"), [
            f"{HOURS[0]} is removed, to make room for the packing of a trace: {why}",
            f"no more traces are removed for the packing of a trace, since that makes no room: {why}"])
        said = end_left(into)
        expect(f"{why} at fsync: the next one packs them", len(is_said(said, "it is n1.2026-01-01")), 5)
        texts = into.texts_of("n1.2026")
        expect(f"{why} at fsync: all that happened is there", laid(texts), whole)
        into.clean()


@contextlib.contextmanager
def quota_of(into, most):
    """As of a quota: a file takes nothing that would make the folder larger than so many bytes."""
    real = os.pwrite

    def pwrite(descriptor, data, place):
        sizes = [os.path.getsize(f"{into.folder}/{name}") for name in os.listdir(into.folder)]
        if place >= os.fstat(descriptor).st_size and sum(sizes) + len(data) > most:
            raise OSError(errno.EDQUOT, os.strerror(errno.EDQUOT))
        return real(descriptor, data, place)

    with mock.patch.object(os, "pwrite", pwrite):
        yield


def test_a_quota():
    """The oldest go one by one as the quota is reached, each with a line, and nothing is lost."""
    into = Into(quiet_node(10, 100))
    whole = into.record("--for", "60", "--every", "1", "--extended")[1]
    put_hours(into, 4000)
    with quota_of(into, 20 * 4000 + 6000):
        said = recorded_here(into, Clock(BEGIN), "--for", "60", "--every", "1")
    gone = len(HOURS) - len(hours_left(into))
    expect("a quota: some go, the oldest first", (0 < gone < 19, hours_left(into)), (True, HOURS[gone:]))
    expect("a quota: each is said", is_said(said, ""), [
        f"{name} is removed, to make room for what is recorded: {os.strerror(errno.EDQUOT)}" for name in HOURS[:gone]])
    expect("a quota: all that happened is there", laid(into.texts_of("n1.2026")) == whole, True)
    into.clean()


def test_a_disk_that_another_fills():
    """Traces that are too small to make room stay; that nothing could be recorded is status 1."""
    if not can_mount():
        return
    into = Into(quiet_node(3, 100))
    os.mkdir(f"{into.folder}.seed", 0o755)
    for name in HOURS[:4]:
        with open(f"{into.folder}.seed/{name}", "wb") as file:
            file.write(packed(name, 2200))
    with open(f"{into.folder}.seed/another", "wb") as file:
        file.write(bytes(8352 << 10))
    answer = on_a_mount(into, "size=8384k", "", "--for", "30", "--each", "10s")
    expect("a disk that another fills", (answer, sorted(os.listdir(f"{into.folder}.made"))),
           ((1, "", f"record: {BEGIN}: nothing is written into '{into.folder}' until it can be: the file system has no "
             "free room\n"), ["another", *HOURS[:4]]))
    into.clean()


def test_folder_that_is_made():
    """One that is not there is made, for its owner alone to write, where the folder above it is there."""
    into = Into(quiet_node(1, 60))
    os.rmdir(into.folder)
    expect("a folder that is made", (into.into("--for", "10"), into.names(), os.stat(into.folder).st_mode & 0o022),
           ((0, "", ""), ["n1.2026-01-01T00-00-00Z.trace.gz"], 0))
    into.clean()
    into = Into(quiet_node(1, 60))
    os.rmdir(into.folder)
    os.symlink(f"{into.run}/nowhere", into.folder)
    expect_refused("a link to no folder", into.into("--for", "10"), 2, "is no folder")
    os.unlink(into.folder)
    into.clean()
