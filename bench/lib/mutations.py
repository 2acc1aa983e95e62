"""Traces that are broken in every way, each settled by a seed and its number."""
import os
import random
import re

LONGEST_SEED, LONGEST_LINE = 100_000, 1 << 20

NUMBERS = (
    "0 -0 00 -1 1.0 0.1 1e2 2147483647 2147483648 -2147483648 -2147483649 4294967296 1099511627775 1099511627776 "
    "9223372036854775807 9223372036854775808 -9223372036854775808 18446744073709551615 18446744073709551616 "
    "99999999999999999999999999 1e308 1e309 -1e309 1e-400 1e999999999 1e-999999999 1E+99999999999999999999 "
    "123456789012345678901234567890e-30 NaN Infinity 0x10 1e 1. .1 +1"
).split()
TEXTS = (
    "0 1 -1 100% 0% 101% 1234.% 10.5% 1Ki 1e18 1e19 1E1 1e-18 9223372036854775807 9223372036854775808 8Ei 7.99Ei "
    "99999999999999999 .12345678901234567Ei 123456789012345678 1m 5m 1h 0s 999999999999h 1099511627776s 300ms "
    "CONTAINER_EXITED CONTAINER_CREATED CONTAINER_UNKNOWN Never OnFailure readiness startup success failure unknown "
    "memory.available nodefs.available pid.available default/a a node pod tick \\u0000 \\ud800 \\ud83d\\ude00 \\x"
).split() + ["", " ", "\\"]
BYTES = [b"\0", b"\xff", b"\xc0\x80", b"\xed\xa0\x80", b"\xf5\x80\x80\x80", b"\xe2\x28", b"\xef\xbb\xbf",
         b"\xe2\x80\xa8", b"\x0c", b"\r", b"\x7f", b"\\", b'"', b"{", b"}", b"[", b"]", b",", b":"]
BLANKS = [b"\n", b"\r\n", b"\n\n\n", b" \n", b"\t\n", b"\r\r\n", b"\x0b\n", b"\n" * 1000, b" " * 5000 + b"\n"]
DEPTHS = [1, 2, 125, 126, 127, 128, 129, 1000, 20_000]
LENGTHS = [1, 62, 63, 64, 252, 253, 254, 255, 4096, 65_536]
SCALAR = re.compile(rb'(?<=[:\[,])(?:"[^"\\\n]*"|-?\d+(?:\.\d+)?|true|false|null)')
PAIR = re.compile(rb'("[\w.]+"):("[^"\\\n]*"|-?\d+|true|false|null)')


def put(data, at, end, new):
    return data[:at] + new + data[end:]


def place(chance, data):
    return chance.randrange(len(data) + 1)


def span(chance, data):
    """Two places, most often near to each other."""
    at = place(chance, data)
    return at, min(len(data), at + chance.choice((1, 2, 8, 64, 1024, len(data))))


def pick(chance, data, pattern):
    """A place where the pattern fits, if there is one: the first after some place, or the first of all."""
    return pattern.search(data, place(chance, data)) or pattern.search(data)


def flip(chance, data, _):
    changed = bytearray(data)
    for _ in range(min(len(changed), chance.choice((1, 1, 2, 8)))):
        changed[chance.randrange(len(changed))] ^= 1 << chance.randrange(8)
    return bytes(changed)


def cut(chance, data, _):
    return data[:place(chance, data)] if chance.random() < 0.5 else put(data, *span(chance, data), b"")


def double(chance, data, _):
    at, end = span(chance, data)
    return put(data, end, end, data[at:end])


def strange_bytes(chance, data, _):
    at = place(chance, data)
    return put(data, at, at, chance.choice(BYTES) * chance.choice((1, 1, 3)))


def blank_lines(chance, data, _):
    lines = data.split(b"\n")
    at = chance.randrange(len(lines))
    lines[at] = chance.choice(BLANKS) + lines[at]
    return b"\n".join(lines)


def moved_lines(chance, data, _):
    """Two lines change places, or one is lost, doubled or there 300 times."""
    lines = data.split(b"\n")
    one, other = chance.randrange(len(lines)), chance.randrange(len(lines))
    if chance.random() < 0.5:
        lines[one], lines[other] = lines[other], lines[one]
    else:
        lines[one:one + 1] = [lines[one]] * chance.choice((0, 0, 0, 2, 2, 2, 2, 300))
    return b"\n".join(lines)


def line_of_another(chance, data, seeds):
    lines, others = data.split(b"\n"), chance.choice(seeds).split(b"\n")
    at, begin = chance.randrange(len(lines)), chance.randrange(len(others))
    lines[at:at + chance.randrange(2)] = others[begin:begin + chance.choice((1, 1, 5))]
    return b"\n".join(lines)


def nested(chance, data, _):
    """A value, or a place anywhere, becomes deep; half of the time what was opened is not closed."""
    depth, (left, right) = chance.choice(DEPTHS), chance.choice(((b"[", b"]"), (b'{"a":', b"}")))
    deep = left * depth + b"0" + right * (depth if chance.random() < 0.5 else 0)
    found = pick(chance, data, SCALAR)
    return put(data, *found.span(), deep) if found else data + deep


def huge_number(chance, data, _):
    long_ones = ["9" * chance.choice((20, 400, 10_000)), "0." + "0" * 5000 + "1", "1e" + "9" * 400]
    number = chance.choice(NUMBERS + long_ones)
    found = pick(chance, data, re.compile(rb"-?\d+"))
    return put(data, *found.span(), number.encode()) if found else data


def another_text(chance, data, _):
    found = pick(chance, data, SCALAR)
    return put(data, *found.span(), b'"%s"' % chance.choice(TEXTS).encode()) if found else data


def long_text(chance, data, _):
    length = LONGEST_LINE if chance.random() < 0.02 else chance.choice(LENGTHS)
    text = chance.choice((b"a", b"9", b"-", b"\\n", b"\xc3\xa9")) * length
    found = pick(chance, data, SCALAR)
    return put(data, *found.span(), b'"%s"' % text) if found else data


def other_value(chance, data, seeds):
    """A value of this trace or of another in place of one."""
    found, value = pick(chance, data, SCALAR), pick(chance, chance.choice((data, chance.choice(seeds))), SCALAR)
    new = chance.choice((value[0] if value else b"{}", b"null", b"{}", b"[]", b"[null]", b"true"))
    return put(data, *found.span(), new) if found else data


def doubled_key(chance, data, _):
    """The key a second time in its object, before or after the first, with another value."""
    found, other = pick(chance, data, PAIR), pick(chance, data, PAIR)
    if not found:
        return data
    times = chance.choice((1, 2, 500))
    copies = [b"%s:%s," % (found[1], chance.choice((other[2], b"null", b"{}"))) for _ in range(times)]
    return put(data, found.start(), found.start(), b"".join(copies))


# those that leave most texts JSON come more often: they reach the checks after it
MUTATIONS = [flip, cut, double, strange_bytes, blank_lines, nested, long_text] + 2 * [
    moved_lines, moved_lines, line_of_another, huge_number, another_text, other_value, doubled_key]


def mutated(seed, number, seeds):
    """The trace with this number, and the number of its workers: none for standard input."""
    chance = random.Random(f"{seed} {number}")
    data = chance.choice(seeds)
    for _ in range(chance.choice((1, 1, 1, 2, 3, 5))):
        data = chance.choice(MUTATIONS)(chance, data, seeds)
    return data, chance.choice((None, None, 1, 3, 64))


def seeds_of(top):
    """The traces of examples/ and of the cases, without those that are long, each once."""
    paths = []
    for root in "examples", "crates/case_runner/data/traces":
        for folder, _, names in os.walk(os.path.join(top, root)):
            paths += [os.path.join(folder, name) for name in names if name.endswith(".trace")]
    texts = {}
    for path in sorted(paths):
        with open(path, "rb") as file:
            text = file.read(LONGEST_SEED + 1)
        if len(text) <= LONGEST_SEED:
            texts[text] = None
    return list(texts)
