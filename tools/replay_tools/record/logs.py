"""The last lines that a container wrote before it died, where the operator asks for them. They are a container's own
words, so as of a message those parts alone are kept that are known to have no secret: what runtimes, languages and
systems print of a fault. A line without any is counted."""

from __future__ import annotations

import re
from typing import TYPE_CHECKING

from .answers import decoded
from .messages import FIXED, LONGEST_MESSAGE, compiled, parts_in

if TYPE_CHECKING:
    from .answers import Answer

MOST_LINES = 1000
LONGEST_LINE = 1 << 12
BETWEEN = " .. "
COLOUR = re.compile(r"\x1b\[[0-9;]{0,20}m")
JAVA = ("OutOfMemoryError(?:: (?:Java heap space|Metaspace|GC overhead limit exceeded|Direct buffer memory))?"
        "|StackOverflowError|NullPointerException|IllegalArgumentException|IllegalStateException|RuntimeException"
        "|ClassNotFoundException|NoClassDefFoundError|NoSuchMethodError|UnsatisfiedLinkError")
PYTHON = ("Memory|ModuleNotFound|Import|Key|Value|Type|FileNotFound|Permission|ConnectionRefused|ConnectionReset"
          "|BrokenPipe|OS|Runtime|Timeout|Attribute|Index|Name|Assertion|UnicodeDecode|Recursion|ZeroDivision|Syntax"
          "|Lookup|EOF")
NUMBERS = "CONNREFUSED|CONNRESET|ADDRINUSE|NOENT|ACCES|PERM|NOSPC|TIMEDOUT|NOTFOUND|PIPE|MFILE|AI_AGAIN"
KNOWN = (*FIXED, *compiled(
    r"panic: runtime error: (?:index out of range|slice bounds out of range|integer divide by zero"
    r"|invalid memory address or nil pointer dereference)",
    r"fatal error: (?:all goroutines are asleep - deadlock!|runtime: out of memory|stack overflow"
    r"|concurrent map (?:writes|iteration and map write|read and map write))",
    r"\[signal SIG(?:SEGV: segmentation violation|BUS: bus error|ABRT: abort|FPE: floating-point exception)",
    r"\bgoroutine [0-9]{1,9} \[(?:running|runnable|select|chan receive|chan send|IO wait|syscall|sleep|semacquire)\]",
    r"Traceback \(most recent call last\)", rf"(?<![A-Za-z])(?:{PYTHON})Error(?![A-Za-z])",
    rf"\bjava\.lang\.(?:{JAVA})(?![A-Za-z])", r"\bjava\.net\.(?:Connect|Bind|UnknownHost|SocketTimeout)Exception",
    r"JavaScript heap out of memory", rf"\bE(?:{NUMBERS})\b", r"UnhandledPromiseRejection",
    r"thread 'main' panicked", r"No such file or directory", r"Permission denied", r"Cannot allocate memory",
    r"No space left on device", r"Connection refused", r"[Oo]ut of memory", r"[Aa]ddress already in use",
    r"[Tt]oo many open files", r"[Cc]onnection reset by peer", r"[Bb]roken pipe", r"[Cc]ommand not found",
    r"Segmentation fault", r"core dumped", r"\bAborted\b", r"\bBus error\b", r"\bKilled\b", r"\bTerminated\b",
    r"\bSIG(?:TERM|INT|KILL|SEGV|ABRT|BUS|PIPE|HUP|QUIT)\b", r"\b(?:FATAL|PANIC|CRITICAL|ERROR|WARN(?:ING)?)\b",
    r"\bHTTP/[12](?:\.[01])? [1-5][0-9]{2}\b"))


def lines_of(answer: Answer, count: int) -> list[str]:
    """The last lines of an answer, of which the last need not end."""
    plain = COLOUR.sub("", decoded(answer))
    return [line for line in plain.splitlines() if line.strip()][-count:]


def kept_of(lines: list[str]) -> tuple[tuple[str, ...], int]:
    """What is kept of each line of which something is, and how many have nothing."""
    kept = [BETWEEN.join(parts_in(line[:LONGEST_LINE], KNOWN)).encode()[:LONGEST_MESSAGE].decode("utf-8", "ignore")
            for line in lines]
    return tuple(filter(None, kept)), kept.count("")
