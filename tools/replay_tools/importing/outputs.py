"""What is kept of a probe's output and of why the kubelet ended an instance. An output may be a container's own words,
and have secrets; so the parts are kept that are known to have none."""

from __future__ import annotations

import re

HTTP = re.compile(r"HTTP probe failed with statuscode: (\d{3})\b")
SENTENCES = tuple(re.compile(form) for form in (
    r"connection refused", r"connection reset by peer", r"i/o timeout", r"no route to host", r"no such host",
    r"context deadline exceeded", r"TLS handshake timeout", r"EOF$", r"executable file not found in \$PATH",
    r"no such file or directory", r"permission denied",
    r"command \S+ timed out", r"timeout: failed to connect service", r"service unhealthy",
    r"server doesn't implement the gRPC health protocol"))
LIVENESS = re.compile(r"failed (liveness|startup) probe")
DELETED = ("Stopping container", "Need to kill Pod")
LONGEST = 1 << 14


def output_kept(output: str) -> str | None:
    """What is kept of an output: its status code, or the sentences of the system; None where there is none."""
    text = output[:LONGEST].strip()
    found = HTTP.search(text)
    if found is not None:
        return f"HTTP {found[1]}"
    kept = [match[0] if "command" not in match[0] else "the command timed out"
            for form in SENTENCES if (match := form.search(text)) is not None]
    return ", ".join(dict.fromkeys(kept)) or None


def why_killed(said: str) -> str | None:
    """Why the kubelet ends an instance, in a word; None where its line shows nothing that is known."""
    found = LIVENESS.search(said)
    if found is not None:
        return found[1]
    if "definition changed" in said:
        return "definition changed"
    return "pod deleted" if any(words in said for words in DELETED) else None
