"""What a trace keeps of a message of the runtime, the kubelet or a registry. Such a message may have the command, the
environment or the credentials of a container in it, so of known reasons alone the parts are kept that are known to have
none, and a message without any is left out."""

from __future__ import annotations

import re

LONGEST_MESSAGE = 200
LONGEST_LINE = 1 << 16
NAME = r"[a-z0-9](?:[-a-z0-9.]{0,251}[a-z0-9])?"
KEY = r"[-._a-zA-Z0-9]{1,253}"
AMOUNT = r"[0-9]{1,24}(?:\.[0-9]{1,9})?(?:[numkKMGTPE]i?|e[0-9]{1,3})?"
SECONDS = r"(?:[0-9]{1,5}h)?(?:[0-9]{1,4}m)?[0-9]{1,5}(?:\.[0-9]{1,9})?s"
CODES = ("Canceled|Unknown|InvalidArgument|DeadlineExceeded|NotFound|AlreadyExists|PermissionDenied|ResourceExhausted"
         "|FailedPrecondition|Aborted|OutOfRange|Unimplemented|Internal|Unavailable|DataLoss|Unauthenticated")


def compiled(*patterns: str) -> tuple[re.Pattern[str], ...]:
    return tuple(map(re.compile, patterns))


# what is in quotes after one of these words is an image's name, which may have a user and a password
OF_IMAGE = re.compile(r"""\b(?:image|reference|digest|ref) \\*["']([^"'\\\s]{1,255})\\*["']""")
IMAGE = re.compile(r"[A-Za-z0-9][A-Za-z0-9._:/@-]{0,254}")
# these have no words of others in them
FIXED = compiled(
    r"executable file not found in \$PATH", "no such file or directory", "permission denied", "exec format error",
    "cannot allocate memory", "no space left on device", "context deadline exceeded", "i/o timeout",
    "connection refused", "no such host", "TLS handshake timeout",
    "container has runAsNonRoot and image will run as root",
    "x509: certificate (?:signed by unknown authority|has expired or is not yet valid)", "pull access denied",
    "unauthorized", "authentication required", "insufficient_scope", "toomanyrequests", "manifest unknown",
    "invalid reference format", "not present with pull policy of Never", f"code = (?:{CODES})(?![A-Za-z])")
# the sentences of the kubelet that have names, amounts and delays alone; of a container's they are the whole message
BACK_OFF = compiled(rf"^[Bb]ack-off {SECONDS} restarting failed container"
                    rf"(?:={NAME}(?: pod={NAME}_{NAME}\([-0-9a-f]{{1,64}}\))?)?$")
CONFIGURATION = compiled(rf"^(?:secret|configmap) \"{NAME}\" not found$",
                         rf"^couldn't find key {KEY} in (?:Secret|ConfigMap) {NAME}/{NAME}$")
# what a volume lacks is after its name
MOUNTS = compiled(rf"(?<= : )(?:secret|configmap) \"{NAME}\" not found$", r"timed out waiting for the condition$",
                  r"references non-existent (?:secret|config) key(?=: )")
ENDED = compiled(
    rf"The node was low on resource: {KEY}\.",
    rf"Threshold quantity: {AMOUNT}, available: {AMOUNT}\.",
    rf"Container {NAME} was using {AMOUNT}, (?:which exceeds its request of {AMOUNT}"
    rf"|request is {AMOUNT}, has larger consumption of {KEY})\.",
    r"(?:Pod was rejected: |Pod )?The node had condition: \[[A-Za-z, ]{1,200}\]\.",
    rf"Usage of EmptyDir volume \"{NAME}\" exceeds the limit \"{AMOUNT}\"\.",
    rf"Container {NAME} exceeded its local ephemeral storage limit \"{AMOUNT}\"\.",
    rf"Pod ephemeral local storage usage exceeds the total limit of containers {AMOUNT}\.")
# of a pod that the node has ended, as a kubelet 1.20 and later ones write it
STOPPED = compiled(
    r"Pod was active on the node longer than the specified deadline", r"Preempted in order to admit critical pod",
    r"(?:Pod )?Node is (?:shutting, evicting pods|in progress of shutting down, not admitting any new pods)",
    r"Pod was (?:terminated in response to imminent node shutdown|rejected as the node is shutting down)\.",
    rf"Node didn't have enough resource: {KEY}, requested: {AMOUNT}, used: {AMOUNT}, capacity: {AMOUNT}",
    r"(?:Pod was rejected: )?Predicate [A-Za-z]{1,63} failed")
STOPS = ("DeadlineExceeded", "Preempting", "Shutdown", "NodeShutdown", "Terminated", "NodeAffinity", "OutOfcpu",
         "OutOfmemory", "OutOfephemeral-storage", "OutOfpods")
# what a kubelet shows by an Event; a probe's output is the container's own words, but for a server's status
PROBED = compiled(r"(?:Liveness|Readiness|Startup) probe (?:failed|errored)",
                  r"HTTP probe failed with statuscode: [0-9]{3}",
                  r"service unhealthy \(responded with \"NOT_SERVING\"\)",
                  r"timeout: failed to connect service", r"command timed out", r"connection reset by peer",
                  r"Client\.Timeout exceeded while awaiting headers")
KILLS = compiled(rf"^Stopping container {NAME}$",
                 rf"Container {NAME} failed (?:liveness|startup) probe, will be restarted",
                 rf"Container {NAME} definition changed, will be restarted", r"FailedPostStartHook",
                 r"Need to kill Pod")
OF_POD = rf" {NAME} in pod {NAME}_{NAME}\([-0-9a-f]{{1,64}}\)"
BACK_OFFS = compiled(rf"^Back-off restarting failed container(?:{OF_POD})?$", r"^Back-off pulling(?= image)")
SANDBOX = compiled(r"^Pod sandbox changed, it will be killed and re-created\.$")
NODE_SAYS = compiled(r"^Node is not ready$", r"^Preempted in order to admit critical pod$",
                     r"^(?:Marking for deletion|Cancelling deletion of) Pod [-a-z0-9./]{1,317}$")
# what a hook came to; its command and what that wrote may have a secret
HOOKS = compiled(r"exited with [0-9]{1,3}(?![0-9])", r"HTTP probe failed with statuscode: [0-9]{3}")
STARTS = ("StartError", "ContainerCannotRun", "RunContainerError", "CreateContainerError")
PULLS = ("ErrImagePull", "ImagePullBackOff", "ErrImageNeverPull", "InvalidImageName", "ImageInspectError",
         "RegistryUnavailable", "Failed", "BackOff", "Pulling", "Pulled")
KNOWN = {**dict.fromkeys(STARTS, FIXED), **dict.fromkeys(PULLS, FIXED), "CrashLoopBackOff": BACK_OFF,
         "CreateContainerConfigError": (*FIXED, *CONFIGURATION), "Evicted": ENDED,
         **dict.fromkeys(("PostStartHookError", "FailedPostStartHook", "FailedPreStopHook"), (*HOOKS, *FIXED)),
         **dict.fromkeys(STOPS, STOPPED), "Unhealthy": (*PROBED, *FIXED), "ProbeWarning": (*PROBED, *FIXED),
         "Killing": KILLS, "BackOff": BACK_OFFS, "SandboxChanged": SANDBOX, "FailedMount": (*CONFIGURATION, *MOUNTS),
         **dict.fromkeys(("NodeNotReady", "TaintManagerEviction", "Preempting"), NODE_SAYS)}


def image_kept(name: str) -> str | None:
    """An image's name without the user and the password that may be before its registry; None where it is none."""
    name = re.sub(r"^[a-z]+://", "", name)
    host, slash, rest = name.partition("/")
    # a digest has the sign too, after the last slash alone
    if slash and "@" in host:
        name = host.rpartition("@")[2] + slash + rest
    elif not slash and "@" in name and not re.search(r"@sha256:[0-9a-f]{64}$", name):
        return None
    return name if IMAGE.fullmatch(name) and not re.search(r":[^/]*@(?!sha256:)", name) else None


def parts_of(reason: str, line: str) -> list[tuple[int, int, str]]:
    """The parts of a line that are kept for a reason: where each begins and ends, and its text."""
    found = [(match.start(), match.end(), match[0])
             for known in KNOWN.get(reason, ()) for match in known.finditer(line)]
    images = OF_IMAGE.finditer(line) if reason in PULLS else ()
    return found + [(match.start(), match.end(), image) for match in images
                    if (image := image_kept(match[1])) is not None]


def apart(parts: list[tuple[int, int, str]]) -> list[str]:
    """The texts of parts in their order, each once, without those that begin within another."""
    kept: list[str] = []
    end = -1
    for start, stop, text in sorted(parts):
        if start >= end and text not in kept:
            kept.append(text)
            end = stop
    return kept


def parts_in(line: str, known: tuple[re.Pattern[str], ...]) -> list[str]:
    """The parts of a line that are known to have no secret."""
    return apart([(match.start(), match.end(), match[0]) for each in known for match in each.finditer(line)])


def message_kept(reason: str, message: str, most: int = LONGEST_MESSAGE) -> str | None:
    """The parts of a message that are known to have no secret, in their order, each once; None where there is none."""
    kept = apart(parts_of(reason, " ".join(message.split())[:LONGEST_LINE]))
    between = " " if reason == "Evicted" else ": "
    return between.join(kept).encode()[:most].decode("utf-8", "ignore").rstrip() or None
