"""tools/record, with each answer that it was given kept in a file: captured.py FILE WORD.."""

import json
import os
import sys
import time
from dataclasses import replace

HERE = os.path.dirname(os.path.realpath(__file__))
sys.dont_write_bytecode = True
sys.path.insert(0, os.path.join(HERE, "..", "..", "..", "tools"))
from replay_tools.record import answers, connections, program, sources  # noqa: E402


class KeptClock:
    """The node's clock; each moment that it showed is kept."""

    def __init__(self, file):
        self.file = file

    def now(self):
        moment = round(time.time(), 3)
        self.file.write(json.dumps({"now": moment}) + "\n")
        return moment

    def wait(self, seconds):
        time.sleep(seconds)


class KeptAnswers:
    """Keeps what was asked, as the words of a command that asks it, with the answer or what failed."""

    def __init__(self, file):
        self.file = file

    def keep(self, command, ask):
        entry = {"at": round(time.time(), 3), "words": command}
        try:
            answer = ask()
            entry["answer"] = answers.decoded(answer)
            return answer
        except sources.Failed as failed:
            entry["failed"] = str(failed)
            raise
        finally:
            self.file.write(json.dumps(entry) + "\n")

    def run(self, command, seconds):
        return self.keep(command, lambda: sources.run_command(command, seconds))

    def read(self, command, seconds, take):
        self.stream(command, take, lambda taken: sources.read_command(command, seconds, taken))

    def stream(self, command, take, ask):
        """Gives an answer to `take`, part by part. The one that has when the kubelet was started is kept."""
        if not any(word.endswith("/metrics") for word in command):
            ask(take)
            return

        def whole():
            parts = []
            ask(lambda part: (parts.append(part), take(part)))
            return b"".join(parts)

        self.keep(command, whole)


class KeptKubelet(connections.Kubelet):
    """A kubelet at its address, asked by one connection."""

    def __init__(self, asked, kept):
        super().__init__(asked.kubelet, asked.curl_file)
        self.asked, self.answers = asked, kept

    def endpoint(self, path):
        return self.answers.keep(self.asked.endpoint_words(path), lambda: super(KeptKubelet, self).endpoint(path))

    def read(self, path, take):
        words = self.asked.endpoint_words(path)
        self.answers.stream(words, take, lambda taken: super(KeptKubelet, self).read(path, taken))


def main(path, words):
    with open(path, "w", encoding="utf-8") as file:
        kept = KeptAnswers(file)

        def made(*asked):
            found = sources.Sources(*asked, run=kept.run, read=kept.read)
            return found if found.kubelet is None else replace(found, keeps=KeptKubelet(found, kept))

        return program.main(words, KeptClock(file), made)


if __name__ == "__main__":
    sys.exit(main(sys.argv[1], sys.argv[2:]))
