"""What the events of a report are called, how a line has their fields, and in which words they are printed. The table
is docs/report.schema.json, which a release has too; it is read where it is first asked for."""

from __future__ import annotations

import functools
import json
import os
import re
from dataclasses import dataclass

from replay_tools import entry
from replay_tools.cli.statuses import Status

# the same as docs/report.schema.json
SCHEMA = os.path.join(os.path.dirname(__file__), "report.schema.json")
PLACE = re.compile(r"\{(\w+)\}")
# places of a line that are no fields of their own kind of event
SUBJECTS = {"{pod} {container}": "container", "{pod} -": "pod", "node": "node"}


@dataclass(frozen=True)
class Field:
    """A field of an event, as a line has it."""

    name: str
    form: str
    """a pattern of how it is written"""
    is_number: bool
    is_true: str | None
    """how what is true is written; None of a field that is no truth"""

    def value(self, text: str) -> str | int | bool:
        if self.is_true is not None:
            return text == self.is_true
        return int(text) if self.is_number else text


@dataclass(frozen=True)
class Kind:
    """A kind of event."""

    word: str
    subject: str
    """what its line names first: container, pod or node"""
    fields: tuple[Field, ...]
    """in the order of its line, after the subject and the word"""
    sentence: str
    sentence_beside: str
    """where it is next to what the kubelet did"""
    anew: str | None
    """what is reported of it after a rotation of several traces, from which on what it goes by is counted again"""
    is_counted: bool
    """its record has that rotation"""
    sentence_guessed: str
    """where the trace shows that its code was guessed"""

    @functools.cached_property
    def form(self) -> re.Pattern[str]:
        """The form of its fields in a line."""
        return re.compile(" ".join(field.form for field in self.fields), re.ASCII)

    @property
    def is_of_pod(self) -> bool:
        return self.subject != "node" or any(field.name == "pod" for field in self.fields)

    def values(self, rest: list[str]) -> dict[str, str | int | bool]:
        """The values of its fields, by their names."""
        return {field.name: field.value(text) for field, text in zip(self.fields, rest)}

    def told(self, rest: list[str], why: str = "", is_beside: bool = False, is_guessed: bool = False) -> str:
        """An event in words, but for its attempt."""
        given = {field.name: text for field, text in zip(self.fields, rest)}
        beside = self.sentence_beside if is_beside else self.sentence
        sentence = self.sentence_guessed if is_guessed else beside
        return filled(sentence, given | {"why": f": {why}" if why else ""})

    def attempt(self, rest: list[str]) -> str:
        """The attempt, as a text; none of a kind without one."""
        return next((text for field, text in zip(self.fields, rest) if field.name == "attempt"), "")


def filled(sentence: str, given: dict[str, str]) -> str:
    return PLACE.sub(lambda place: given[place[1]], sentence)


@functools.cache
def kinds() -> dict[str, Kind]:
    """The kinds of events by their words, in the order of the table."""
    return {kind.word: kind for kind in map(kind_of, definitions()["event"]["oneOf"])}


def attempt_words(attempt: str) -> str:
    """The attempt of an event, after its words; nothing where it has none."""
    return filled(attempt_sentence(), {"attempt": attempt}) if attempt else ""


def attempt_sentence() -> str:
    return definitions()["event"]["told_attempt"]


def decision_sentence(decision: str = "") -> str:
    """In which words it is printed what the kubelet did to a pod, of a kind that has words of its own in those."""
    found = definitions()["decision"]
    return found.get(f"sentence_{decision}", found["sentence"])


@functools.cache
def definitions() -> dict:
    try:
        with open(SCHEMA, encoding="utf-8") as file:
            return json.load(file)["definitions"]
    except OSError as fault:
        raise entry.Fault(f"{SCHEMA}, which has the words of events, can't be read: {fault.strerror}",
                          Status.FAILED) from None


def kind_of(found: dict) -> Kind:
    properties = found["properties"]
    word = properties["event"]["const"]
    subject, _, rest = found["line"].partition(f" {word}")
    fields = tuple(field_of(name, properties[name]) for name in PLACE.findall(rest))
    return Kind(word, SUBJECTS[subject], fields, found["sentence"], found.get("sentence_beside", found["sentence"]),
                found.get("anew"), "counted_anew_since" in properties,
                found.get("sentence_guessed", found["sentence"]))


def field_of(name: str, found: dict) -> Field:
    written = found.get("enum") or found.get("written")
    if written:
        return Field(name, f"(?:{'|'.join(map(re.escape, written))})", False, found["written"][0]
                     if found.get("type") == "boolean" else None)
    if found["type"] in ("integer", ["integer", "null"]):
        return Field(name, r"\d+" if found.get("minimum") == 0 else r"-?\d+", True, None)
    return Field(name, r"\S+/\S+" if name == "pod" else r"\S+", False, None)
