"""The tests of what a trace keeps of messages: no word of a pod that comes from its manifest, its containers or a
registry."""

import json
import re

import cases
from checks import HERE, expect, read
from test_record import Recorder

from replay_tools.record.messages import message_kept
from replay_tools.record.reasons import reason_of

load_tests = cases.loaded(__name__)

SECRET = "s3cret"
PULL = "registry.example/shop/web:v9"
DIGEST = f"registry.example:5000/shop/web@sha256:{'0' * 64}"
# reason, message, what is kept of it
KEPT = (
    ("CrashLoopBackOff", "back-off 1m20s restarting failed container=app pod=loop_shop(1-2a)",
     "back-off 1m20s restarting failed container=app pod=loop_shop(1-2a)"),
    ("CrashLoopBackOff", f"back-off 10s restarting failed container={SECRET} --token", None),
    ("CreateContainerConfigError", 'secret "keys" not found', 'secret "keys" not found'),
    ("CreateContainerConfigError", f'env {SECRET}: secret "{SECRET}" not found', None),
    ("CreateContainerConfigError", "container has runAsNonRoot and image will run as root (pod: \"a\")",
     "container has runAsNonRoot and image will run as root"),
    ("ErrImagePull", f'failed to pull and unpack image "{PULL}": failed to resolve reference "{PULL}": not found', PULL),
    ("ErrImagePull", f'failed to pull image "{DIGEST}": x509: certificate signed by unknown authority',
     f"{DIGEST}: x509: certificate signed by unknown authority"),
    ("ErrImagePull", f'Get "https://{SECRET}@registry.example/v2/": dial tcp: lookup {SECRET}: no such host', "no such host"),
    ("ErrImagePull", f"rpc error: code = {SECRET}", None),
    ("ImagePullBackOff", f'Back-off pulling image "u:{SECRET}@{PULL}"', PULL),
    ("ImagePullBackOff", f'Back-off pulling image "{SECRET}:{SECRET}@web"', None),
    ("ImagePullBackOff", f'Back-off pulling image "registry.example/u:{SECRET}@web"', None),
    ("StartError", f'exec: "--image \\"{SECRET}\\"": permission denied: unknown', "permission denied"),
    ("Error", "permission denied", None),
    ("PostStartHookError", f"command 'image \"{SECRET}\"' exited with 126: permission denied",
     "exited with 126: permission denied"),
    ("Evicted", f"The node was low on resource: memory. Container app was using 9Mi, which exceeds its request of 0. {SECRET}",
     "The node was low on resource: memory. Container app was using 9Mi, which exceeds its request of 0."),
)


def test_secrets():
    """A pod that has a secret in each place of its manifest, and in each message: none of them is in the trace, nor in
    what is reported of it."""
    recorder = Recorder("secrets")
    status, trace, said = recorder.whole()
    recorder.clean()
    play = read(f"{HERE}/recordings/secrets/play.json")
    expect("secrets: they are in the answers", len(set(re.findall(rf"{SECRET}-[-a-z]+", play))), 51)
    expect("secrets: in the trace", (status, SECRET in trace, SECRET in said), (0, False, False))
    left_out = re.findall(r'"reason":"([A-Za-z]+)","messageLeftOut":true', trace)
    expect("secrets: messages that are left out", sorted(left_out),
           ["CreateContainerConfigError", "CreateContainerError", "Error", "OOMKilled", "Other"])


def test_kept_parts():
    for reason, message, kept in KEPT:
        expect(f"secrets: {reason}: {message}", message_kept(reason, message), kept)
        behind = message_kept(reason, f"{SECRET} " * 9000 + message) or ""
        expect(f"secrets: {reason}, far behind: {message}", SECRET in behind, False)


def test_odd_messages():
    """What is no text, or no word, shows no more than that it is there."""
    for said, word, is_left_out in (
            ({"reason": "Error", "message": 5}, "Error", False), ({"reason": "a b", "message": "x"}, "Other", True),
            ({"reason": f"A{SECRET}" * 20}, "Other", False), ({"reason": "Error", "message": " \n"}, "Error", False)):
        found = reason_of(said)
        expect(f"secrets: {json.dumps(said)[:60]}", (found.word, found.message, found.is_left_out),
               (word, None, is_left_out))
