"""Which lines of a journal are the kubelet's and which are a runtime's, by the unit that journald has for them.
journald itself sets `_SYSTEMD_UNIT`, and whoever logs chooses `SYSLOG_IDENTIFIER`: so the unit decides if both are
there."""

from __future__ import annotations

import functools
import re
from typing import Any

# the kubelet's own unit and process, and what starts it on OpenShift; on Ubuntu of EKS it is a snap
KUBELETS = ("kubelet", "kubelet-eks", "hyperkube", "kubenswrapper")
RUNTIMES = ("containerd", "crio", "cri-o", "daemon-containerd")
# the monitor that CRI-O starts for each container, which has a unit of its own
MONITOR = "conmon"
MONITOR_UNIT = re.compile(r"crio-conmon-[0-9a-f]{64}\.scope")
SERVICE = ".service"
# units that are kept with what they are
MOST_KEPT = 1000


def unit_of(record: Any) -> str:
    """The unit of a record of journald's, or else the name that its process gave itself. `record` returns a member."""
    unit, name = record("_SYSTEMD_UNIT"), record("SYSLOG_IDENTIFIER") or record("_COMM")
    if isinstance(unit, str) and unit:
        return MONITOR if name == MONITOR and MONITOR_UNIT.fullmatch(unit) else unit
    return name if isinstance(name, str) else ""


def parts_of(unit: str) -> list[str]:
    """The names of a unit: of snap.microk8s.daemon-kubelite.service each that its dots part. A scope, as the one of a
    container's own processes, has none."""
    unit = unit.lower()
    return [] if unit.endswith(".scope") else unit.removesuffix(SERVICE).split(".")


@functools.lru_cache(MOST_KEPT)
def is_runtime(unit: str) -> bool:
    """Whether lines of a unit are a runtime's."""
    return unit == MONITOR or any(part in RUNTIMES for part in parts_of(unit))


class Units:
    """The units whose lines are the kubelet's: its own, and those that were given."""

    def __init__(self, given: tuple[str, ...] = ()) -> None:
        self.given = {each.lower().removesuffix(SERVICE) for each in given}
        self.known: dict[str, bool] = {"": True}
        # units that have lines of klog's form, and are not the kubelet's
        self.others: dict[str, None] = {}

    def is_kubelet(self, unit: str) -> bool:
        """Whether lines of a unit are the kubelet's. A line without a unit is, if it has the form of one."""
        found = self.known.get(unit)
        if found is None:
            parts = parts_of(unit)
            found = (any(part in KUBELETS for part in parts) or unit.lower().removesuffix(SERVICE) in self.given
                     or any(part in self.given for part in parts))
            if len(self.known) < MOST_KEPT:
                self.known[unit] = found
        return found

    def pass_over(self, unit: str) -> None:
        """Notes a unit other than the kubelet's that has a line of klog's form."""
        if len(self.others) < MOST_KEPT:
            self.others[unit] = None
