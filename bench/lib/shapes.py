"""Inputs of the worst shapes, of as many bytes as a trace may have."""
import itertools

LONGEST_INPUT, MIB = 64 << 20, 1 << 20
NODE = b'{"kind":"node","name":"n1"}\n'
CALM, EXITED, RUNNING = b'"state":1', b'"attempt":#,"state":2,"exitCode":1', b'"attempt":#,"state":1'
NOTHING = b'{"kind":"tick","at":1#5}\n'
VALUES = [
    ("nested as deep as it is long", b"[", b"[", b"]"),
    ("one text", b'"', b"a", b'"'),
    ("one array of numbers", b"[0", b",0", b"]"),
    ("one array of arrays", b"[[]", b",[]", b"]"),
    ("one object, each field of one key", b'{"a":0', b',"a":0', b"}"),
    ("arrays nested 120 deep", b"[0", b"," + b"[" * 120 + b"]" * 120, b"]"),
]


def lines_up_to(head, line, ticks):
    """The head, and as many lines as there is room for; # in a line is its number."""
    left = LONGEST_INPUT - len(head)
    yield head
    for number in range(ticks):
        numbered = line.replace(b"#", b"%d" % number)
        if len(numbered) > left:
            return
        left -= len(numbered)
        yield numbered


def crowd(listed, length=4, ticks=20_000, behind=b""):
    """256 pods of 16 containers with names of this length. Each tick lists every container so; a line may be after
    it. Moments have a 1 before the number, since a number begins with no 0."""
    names = [b"p%03d" % number + b"x" * (length - 4) for number in range(256)]
    containers = b",".join(b'{"name":"%c"}' % (97 + number) for number in range(16))
    pod = b'{"kind":"pod","pod":{"metadata":{"name":"%s"},"spec":{"containers":[%s]}}}\n'
    shown = containers.replace(b"}", b"," + listed + b"}") if listed else b""
    entries = [b'{"pod":"default/%s","containers":[%s]}' % (name, shown) for name in names if listed]
    tick = b'{"kind":"tick","at":1#0,"pods":[%s]}\n' % b",".join(entries)
    return lines_up_to(NODE + b"".join(pod % (name, containers) for name in names), tick + behind, ticks)


def filled(before, first, again, last, after=b"", most=MIB):
    """A line of 1 MiB at most, or of this many bytes, with a value that fills it."""
    times = (most - len(before + first + last + after)) // len(again)
    return before + first + again * times + last + after


def long_pods():
    """256 pods, whose manifests fill 64 MiB with what a kubelet writes of each field, and ticks that list nothing."""
    before = b'{"kind":"pod","pod":{"metadata":{"name":"p%d","managedFields":'
    after = b'},"spec":{"containers":[{"name":"a"}]}}}\n'
    for number in range(256):
        yield filled(before % number, b'[{"f:a":{}}', b',{"f:a":{}}', b"]", after, 261_000)
    for number in range(1_000):
        yield NOTHING.replace(b"#", b"%d" % number)


def shapes():
    """The name of each shape, with its bytes piece by piece."""
    yield "256 pods of 16 containers, listed as running", crowd(CALM)
    yield "the same, each with a new exit in every tick", crowd(EXITED)
    yield "that with names of 253 bytes", crowd(EXITED, 253)
    yield "such names, each starting and vanishing by turns", crowd(RUNNING, 253, behind=NOTHING)
    yield "the same pods, 1,000 ticks that list nothing", crowd(b"", ticks=1_000)
    yield "the same pods, 20,000 ticks that list nothing", crowd(b"")
    yield "the same pods, as many such ticks as 64 MiB hold", crowd(b"", ticks=LONGEST_INPUT)
    yield "256 pods of 250 KiB each, 1,000 ticks that list nothing", itertools.chain([NODE], long_pods())
    for name, first, again, last in VALUES:
        yield "one line of 1 MiB: " + name, [filled(b"", first, again, last)]
    for name, first, again, last in VALUES[1:]:
        # a number takes one place more than its sign
        line = filled(b'{"kind":"tick","at": #,"more":', first, again, last, b"}").replace(b" #", b"#") + b"\n"
        yield "ticks of 1 MiB, unknown field: " + name, lines_up_to(NODE, line, 64)
    yield "one line of 1 MiB and 1 byte", [b"[" * (MIB + 1)]
    yield "a million blank lines", [b"\n" * 1_000_000]
    yield "64 MiB of blank lines", [b"\n" * MIB] * 64
    yield "64 MiB of blanks without a newline", [b" " * MIB] * 64
    yield "64 MiB of text without a newline", [b"a" * MIB] * 64
    yield "64 MiB of brackets without a newline", [b"[" * MIB] * 64
    yield "64 MiB of bytes 0", [b"\0" * MIB] * 64
    yield "64 MiB and 1 byte", [b"\n" * MIB] * 64 + [b"\n"]
