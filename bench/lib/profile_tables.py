"""The tables of bench/profile."""
import collections

DEAREST, WIDEST, LEAST = 20, 84, 0.002


def summed(columns):
    return sum(columns, collections.Counter())


def table(title, traces, columns):
    """A line for each name that is not small in every trace, the greatest first."""
    yield ""
    yield f"{title:<24}" + "".join(f"{trace:>13}" for trace in traces)
    for name, _ in summed(columns).most_common():
        if max(column[name] for column in columns) >= LEAST:
            yield f"{name:<24}" + "".join(f"{column[name]:>13.1%}" for column in columns)


def tables(profiles):
    """The lines of all tables, of the profile of each trace."""
    traces, found = list(profiles), list(profiles.values())
    yield f"{'instructions':<24}" + "".join(f"{profile.millions:>11,.0f} M" for profile in found)
    yield from table("all of them", traces, [profile.groups for profile in found])
    yield from table("of memory, by crate", traces, [profile.memory for profile in found])
    yield from table("all, of our crates", traces, [profile.crates for profile in found])
    yield ""
    yield "the most expensive functions by themselves, in each trace"
    for name, _ in summed([profile.functions for profile in found]).most_common(DEAREST):
        shown = name if len(name) <= WIDEST else name[:WIDEST - 2] + ".."
        yield "".join(f"{profile.functions[name]:>7.1%}" for profile in found) + "  " + shown
