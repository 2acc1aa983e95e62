"""Broken journals for `bench/hostile --import`: those that the importer's tests keep, in several forms, and changed."""
import json
import os
import random
import re
import struct
import time

# of a journal that is kept so much is taken, as a run for each of a thousand has to end soon
LONGEST_SEED = 12_000
HEADER = re.compile(rb"[IWEF](\d{4} \d\d:\d\d:\d\d)(\.\d+) +(\d+) ")
FOLDERS = ("tools/tests/imported", "tools/tests/recordings/imported_journal")
# what is put somewhere: what nests, repeats, is no text, or ends what is around it
WORDS = (b"[" * 2000, b"{" * 2000, b" a={" * 3000, b' a="' * 999, b"\\ud800", b"\xff\xfe", b"\x00",
         b"\x1b[31m\x1b]0;x\x07", b'"', b"\\", b"\n", b"\r\n", b"\t", b"9" * 5000, b"-1", b"1e999", b"null",
         b'{"a":[{}]}', b"a" * 300_000, b"shop/" + b"x" * 300, b"../../etc/passwd",
         b"I0301 10:00:99.000000 1 a:1] ", b"I9999 99:99:99.9 1 a:1] \"x\"",
         b'time="x" level=info msg="', b" F ", b"<\n\ta\n >", b",", b";;", b"\xef\xbb\xbf", b"\x1e", b"data: ",
         b"oom-kill:constraint=A,task_memcg=/a/", b"shim disconnected id=", b"__CURSOR=s=1;i=2;t=3")


def moments_of(line):
    """The second and the fraction of a line as klog writes it, of 2026; or of a day of then."""
    found = HEADER.match(line)
    try:
        second = 1772359200 if found is None else int(time.mktime(time.strptime("2026" + found[1].decode(),
                                                                                "%Y%m%d %H:%M:%S")))
    except ValueError:
        second = 1772359200
    return second, b".000000" if found is None else found[2]


def of_journald(line, **more):
    second, fraction = moments_of(line)
    micro = f"{second}{fraction.decode()[1:]:0<6}"[:16]
    return json.dumps({"__REALTIME_TIMESTAMP": micro, "_HOSTNAME": "worker-3", "SYSLOG_IDENTIFIER": "kubelet",
                       "_SYSTEMD_UNIT": "kubelet.service", "_PID": "2211", "MESSAGE": line.decode("utf-8", "replace"),
                       **more}).encode()


def of_export(line):
    second, fraction = moments_of(line)
    said = b"MESSAGE\n" + struct.pack("<Q", len(line)) + line
    return b"__REALTIME_TIMESTAMP=%d%s\n_HOSTNAME=worker-3\n%s\n" % (second, fraction[1:], said)


def of_short_iso(line):
    second, fraction = moments_of(line)
    stamp = time.strftime("%Y-%m-%dT%H:%M:%S", time.gmtime(second)).encode()
    return b"%s%s+0000 worker-3 kubelet[2211]: %s" % (stamp, fraction, line)


def of_store(line):
    second, _ = moments_of(line)
    return json.dumps({"timestamp": second * 1000, "message": line.decode("utf-8", "replace")}).encode()


def of_table(line):
    second, _ = moments_of(line)
    return b'%d,"%s"' % (second, line.replace(b'"', b'""'))


FORMS = (lambda line: line, lambda line: line, of_journald, of_export, of_short_iso, of_store, of_table)


def in_form(chance, data):
    """A journal in one of the forms, or in the order of another."""
    form = chance.choice(FORMS)
    lines = [form(line) for line in data.split(b"\n") if line]
    if chance.random() < 0.1:
        lines.reverse()
    return (b"time,said\n" if form is of_table else b"") + b"\n".join(lines) + b"\n"


def put(chance, data, _):
    place = chance.randrange(len(data) + 1)
    return data[:place] + chance.choice(WORDS) + data[place:]


def cut(chance, data, _):
    begin = chance.randrange(len(data) + 1)
    return data[:begin] + data[begin + chance.choice((1, 3, 10, 100, 1000)):]


def flip(chance, data, _):
    if not data:
        return data
    place = chance.randrange(len(data))
    return data[:place] + bytes([data[place] ^ 1 << chance.randrange(8)]) + data[place + 1:]


def repeat(chance, data, _):
    lines = data.split(b"\n")
    place = chance.randrange(len(lines))
    return b"\n".join(lines[:place] + [lines[place]] * chance.choice((2, 5, 300)) + lines[place:])


def shuffle(chance, data, _):
    lines = data.split(b"\n")
    begin = chance.randrange(len(lines))
    some = lines[begin:begin + 20]
    chance.shuffle(some)
    return b"\n".join(lines[:begin] + some + lines[begin + 20:])


def mix(chance, data, seeds):
    """Lines of another journal between the lines of one."""
    other = in_form(chance, chance.choice(seeds)).split(b"\n")
    lines = data.split(b"\n")
    begin, place = chance.randrange(len(other)), chance.randrange(len(lines) + 1)
    return b"\n".join(lines[:place] + other[begin:begin + 10] + lines[place:])


def renumber(chance, data, _):
    """Another number in place of one."""
    found = list(re.finditer(rb"\d+", data))
    if not found:
        return data
    number = chance.choice(found)
    other = chance.choice((b"0", b"1", b"-1", b"99999999999999999999", b"4294967296", b"1.5", b""))
    return data[:number.start()] + other + data[number.end():]


MUTATIONS = (put, put, cut, flip, flip, repeat, shuffle, mix, renumber, renumber)


def mutated(seed, number, seeds):
    """The journal with this number."""
    chance = random.Random(f"{seed} {number}")
    data = in_form(chance, chance.choice(seeds))
    for _ in range(chance.choice((0, 1, 1, 1, 2, 3, 8))):
        data = chance.choice(MUTATIONS)(chance, data, seeds)
    return data


def seeds_of(top):
    """The journals that the tests keep, a part of each that is long."""
    found = []
    for folder in FOLDERS:
        for name in sorted(os.listdir(os.path.join(top, folder))):
            if name.endswith(".log"):
                with open(os.path.join(top, folder, name), "rb") as file:
                    data = file.read(20 * LONGEST_SEED)
                parts = [data[place:place + LONGEST_SEED] for place in range(0, len(data), LONGEST_SEED)][:8]
                found += [part.partition(b"\n")[2] if place else part for place, part in enumerate(parts)]
    return found


def kind_of(status, out, said):
    """What a run of the importer came to; what begins with a mark is a failure."""
    if status not in (0, 1, 2):
        return f"!status {status}"
    if b"Traceback" in said:
        return "!" + said.rstrip().rpartition(b"\n")[2][:100].decode("utf-8", "replace")
    if not said.endswith(b"\n") or any(not each.decode("utf-8", "replace").isprintable() for each in
                                       said.rstrip(b"\n").split(b"\n")):
        return "!standard error is not lines that can be shown"
    if status:
        return "a fault with output" if out and status == 2 else f"status {status}"
    try:
        kinds = [json.loads(line)["kind"] for line in out.decode().splitlines()]
    except (ValueError, KeyError, TypeError) as fault:
        return f"!a trace of other lines: {fault}"[:100]
    return "a trace" if kinds[:1] == ["node"] and set(kinds) <= {"node", "pod", "tick", "gone"} else "!no trace"
