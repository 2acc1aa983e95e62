"""The tests of record --ship: a command for each whole trace, one at a time and in their order, that may fail, hang or
be slow, and never holds the recording up."""

import os
import time

import cases
from checks import expect, read, wait_until
from into_plays import Clock, Into, recorded_here
from test_into_folder import quiet_node

from replay_tools.record import ship
from replay_tools.record.folder import Folder
from replay_tools.record.ship import Shipping

load_tests = cases.loaded(__name__)

NAMES = [f"n1.2026-01-01T0{hour}-00-00Z.trace.gz" for hour in range(4)]


class Place:
    """A folder with four traces and more that is none of them, and where a command puts what it takes."""

    def __init__(self):
        self.into = Into(quiet_node(1, 9))
        for name in (*NAMES, "n2.2026-01-01T00-00-00Z.trace.gz", "n1.2026-01-01T04-00-00Z.trace.part", "other"):
            self.into.put(name, name.encode())
        self.said, self.moment = [], 0.0
        self.taken = f"{self.into.run}/taken"
        os.mkdir(self.taken)

    def shipping(self, *words):
        self.folder = Folder(self.into.folder, "n1", 10 ** 6, 10 ** 9, self.said.append)
        return Shipping(words, self.folder, lambda text, _=None: self.said.append(text), lambda: self.moment)

    def look_until(self, shipping, holds):
        """Looks until something holds, each time without waiting for anything."""
        longest = 0

        def look():
            nonlocal longest
            begun = time.monotonic()
            shipping.look()
            longest = max(longest, time.monotonic() - begun)
            return holds()

        wait_until("what is shipped", look)
        return longest

    def clean(self):
        os.close(self.folder.descriptor)
        self.into.clean()


def script(text):
    return "sh", "-c", text, "ship"


def test_each_trace():
    """In their order, each once, also after a new start; the path comes last, or where it is needed."""
    place = Place()
    shipping = place.shipping(*script(f'echo "$1" >> {place.taken}/list; cp "$1" {place.taken}'))
    place.look_until(shipping, lambda: shipping.shipment is None and len(os.listdir(place.taken)) == 5)
    paths = [f"{place.into.folder}/{name}" for name in NAMES]
    expect("shipped: in their order", read(f"{place.taken}/list").splitlines(), paths)
    expect("shipped: their names are kept", (read(shipping.path).splitlines(), place.said), ([NAMES[-1], *NAMES], []))
    os.close(place.folder.descriptor)
    place.into.put("n1.2026-01-01T03-00-00Z_2.trace.gz", b"")
    again = place.shipping("cp", "{}", place.taken)
    place.look_until(again, lambda: again.shipment is None and len(os.listdir(place.taken)) == 6)
    expect("shipped: none is taken twice", [trace.name for trace in again.left()], [])
    place.clean()


def test_a_clock_that_went_back():
    """A trace that is newer and has an earlier name is taken too, by the same recorder and by the next one; what was
    not taken is printed at the end. The file of an older version has the last name alone."""
    place = Place()
    shipping = place.shipping("cp", "{}", place.taken)
    place.look_until(shipping, lambda: shipping.shipment is None and len(os.listdir(place.taken)) == 4)
    back = [f"n1.2025-12-31T2{hour}-00-00Z.trace.gz" for hour in range(3)]
    place.into.put(back[0], b"")
    place.look_until(shipping, lambda: shipping.shipment is None and len(os.listdir(place.taken)) == 5)
    place.into.put(back[1], b"")
    shipping.end()
    expect("clock back: what is left is printed", place.said,
           [f"1 trace is not taken away yet, from {back[1]} on: the next start does that"])
    os.close(place.folder.descriptor)
    again = place.shipping("cp", "{}", place.taken)
    place.look_until(again, lambda: again.shipment is None and len(os.listdir(place.taken)) == 6)
    expect("clock back: the next start takes the rest alone", sorted(os.listdir(place.taken)), sorted([*NAMES, *back[:2]]))
    os.close(place.folder.descriptor)
    with open(again.path, "w", encoding="utf-8") as file:
        file.write(f"{NAMES[1]}\n")
    older = place.shipping("cp", "{}", place.taken)
    expect("clock back: the file of an older version", [trace.name for trace in older.left()], NAMES[2:])
    place.clean()


def test_commands_that_fail():
    """It is reported and done again later, and the next one waits; a command that is not there, too."""
    place = Place()
    shipping = place.shipping(*script(f'test -e {place.taken}/now || {{ echo "no \x1b[31mway" >&2; exit 3; }}; '
                                      f'cp "$1" {place.taken}'))
    for _ in range(2):
        place.look_until(shipping, lambda: shipping.shipment is None and shipping.again_at > place.moment)
        place.moment = shipping.again_at
    with open(f"{place.taken}/now", "w", encoding="utf-8"):
        pass
    place.look_until(shipping, lambda: shipping.shipment is None and len(os.listdir(place.taken)) == 5)
    expect("shipped: a command that fails", place.said, [
        f"--ship: sh failed with status 3: no \\x1b[31mway; {NAMES[0]} is taken again in {seconds} s"
        for seconds in (10, 20)])
    place.clean()
    place = Place()
    shipping = place.shipping("/nowhere/rclone")
    shipping.look()
    expect("shipped: a command that is not there", (shipping.shipment, place.said), (None, [
        f"--ship: /nowhere/rclone can't be started: No such file or directory; {NAMES[0]} is taken again in 10 s"]))
    place.clean()


def test_commands_that_hang():
    """One that goes on for too long is ended, with what it has started; no poll waits for it, however much it
    prints."""
    place = Place()
    shipping = place.shipping(*script(f"echo $$ > {place.taken}/pid; yes >&2"))
    longest = place.look_until(shipping, lambda: os.path.exists(f"{place.taken}/pid") and len(shipping.said) > 4000)
    place.moment = ship.LONGEST_SECONDS + 1
    shipping.look()
    place.moment += 5
    shipping.look()
    expect("shipped: one that hangs", (shipping.shipment, place.said[0].split(";")[0]),
           (None, "--ship: sh went on for 600 s, and was ended"))
    expect("shipped: no look waits for one that hangs", longest < ship.LONGEST_SECONDS / 2, True)
    identity = int(read(f"{place.taken}/pid"))
    wait_until("the end of what hangs", lambda: not os.path.exists(f"/proc/{identity}"))
    expect("shipped: what is kept of its words", len(shipping.said) <= 4096, True)
    place.clean()


def test_end():
    """At the end what runs has some seconds, and what is left is reported."""
    place = Place()
    shipping = place.shipping(*script("sleep 1000"))
    shipping.look()
    process = shipping.shipment.process
    begun = time.monotonic()
    shipping.now = lambda: (time.monotonic() - begun) * 50
    shipping.end()
    expect("shipped: at the end", (process.returncode, place.said), (-9, [
        f"4 traces are not taken away yet, from {NAMES[0]} on: the next start does that"]))
    place.clean()


def test_recording():
    """A recording goes on next to a command that is slow, and ends as without one: the first command waits for the
    second trace."""
    place = Into(quiet_node(2, 60))
    taken = f"{place.run}/taken"
    os.mkdir(taken)
    second = f"{place.folder}/n1.2026-01-01T00-00-10Z.trace.gz"
    command = f"sh -c 'until [ -e {second} ]; do sleep 0.01; done; cp $0 {taken}' {{}}"
    recorded_here(place, Clock(1767225600), "--each", "10s", "--for", "60", "--ship", command)
    there = sorted(os.listdir(taken))
    expect("shipped: beside a recording", (there, os.path.exists(second)), (place.names()[:len(there)], True))
    place.clean()
