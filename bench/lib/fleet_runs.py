"""Runs of tools/fleet, with what they cost, over processes of its own or workers of Dask distributed on loopback."""
import glob
import json
import os
import shutil
import signal
import subprocess
import sys
import tempfile
import time

import processes


class Run:
    """A run of tools/fleet into a folder of its own."""

    def __init__(self, name, words, folder):
        self.name, self.folder, self.peak = name, folder, 0
        os.makedirs(folder, exist_ok=True)
        self.used, self.began, self.seconds = processes.children_seconds(), time.monotonic(), 0.0
        self.process = subprocess.Popen([*words, "--out", f"{folder}/fleet.db"], stdout=subprocess.DEVNULL,
                                        process_group=0)

    def done(self):
        """How many traces it has done."""
        return len(glob.glob(f"{self.folder}/fleet.db.done/*.rows.gz"))

    def look_until(self, done=None):
        """Waits until this many traces are done, or until the end. Whoever ends this ends the run and its processes."""
        try:
            while not processes.has_ended(self.process.pid) and (done is None or self.done() < done):
                time.sleep(0.1)
        except BaseException:
            processes.end_group(self.process.pid)
            self.process.wait()
            raise
        self.seconds = time.monotonic() - self.began
        if done is None:
            self.process.returncode, self.peak = processes.wait(self.process.pid)

    def told(self):
        """The database; what the run cost is printed."""
        used = processes.children_seconds() - self.used
        print(f"{self.name:36} status {self.process.returncode}  {self.seconds:6.1f} s  {used:6.1f} processor s  "
              f"{self.peak >> 20:4} MiB  {self.done()} answers", flush=True)
        with open(f"{self.folder}/fleet.db", "rb") as file:
            return file.read()


class Cluster:
    """A scheduler and its workers, each with one thread, on loopback; the peak is the one of the largest that ended."""

    def __init__(self, python, count, folder):
        self.python, self.folder, self.file, self.peak = python, folder, f"{folder}/scheduler.json", 0
        self.processes = [self.start("distributed.cli.dask_scheduler", "--host", "127.0.0.1", "--port", "0",
                                     "--no-dashboard", "--scheduler-file", self.file)]
        while (address := self.address_told()) is None:
            time.sleep(0.1)
        self.address = address
        for _ in range(count):
            self.add_worker()

    def address_told(self):
        """The address that the scheduler has written, once it has."""
        try:
            with open(self.file) as file:
                return json.load(file)["address"]
        except (FileNotFoundError, ValueError):
            return None

    def start(self, module, *words):
        """A process of Dask, whose log nobody reads."""
        return subprocess.Popen([self.python, "-m", module, *words], stdout=subprocess.DEVNULL,
                                stderr=subprocess.DEVNULL)

    def add_worker(self):
        self.processes.append(self.start("distributed.cli.dask_worker", self.address, "--nthreads", "1", "--no-nanny",
                                         "--no-dashboard", "--host", "127.0.0.1", "--local-directory", self.folder))

    def end_worker(self):
        """Ends the worker that began first."""
        self.end_these([self.processes.pop(1)], signal.SIGKILL)

    def end_scheduler(self):
        self.end_these([self.processes.pop(0)], signal.SIGKILL)

    def close_scheduler(self):
        """Ends it as an operator does, so that it takes leave of all."""
        os.kill(self.processes[0].pid, signal.SIGTERM)

    def end(self):
        self.end_these(self.processes, signal.SIGTERM)
        self.processes = []

    def end_these(self, ended, number):
        for process in ended:
            os.kill(process.pid, number)
        for process in ended:
            process.returncode, peak = processes.wait(process.pid)
            self.peak = max(self.peak, peak)


def local_runs(fleet, traces, python, work):
    """The databases of runs with processes of their own; the one of one process comes first."""
    for count in (1, 2, 4):
        run = Run(f"{count} processes", [python, fleet, "run", traces, "--processes", str(count)],
                  f"{work}/local-{count}")
        run.look_until()
        yield run.told()


def dask_run(fleet, traces, python, work, count, ends=False):
    """The database of a run with this many workers, of which one may be ended by its id meanwhile."""
    name = f"{count} workers of Dask" + (", one of them ended" if ends else "")
    folder = f"{work}/dask-{count}-{ends}"
    os.makedirs(folder)
    cluster = Cluster(python, count, folder)
    try:
        run = Run(name, [python, fleet, "run", traces, "--scheduler", cluster.address], folder)
        if ends:
            run.look_until(len(glob.glob(f"{traces}/*.trace")) // 4)
            cluster.end_worker()
        run.look_until()
    finally:
        cluster.end()
    run.peak = max(run.peak, cluster.peak)
    return run.told()


def stopped_run(fleet, traces, python, work):
    """A run that is ended in the middle, and a further one."""
    words = [python, fleet, "run", traces, "--processes", "4"]
    first = Run("stopped", words, f"{work}/stopped")
    first.look_until(len(glob.glob(f"{traces}/*.trace")) // 2)
    os.kill(first.process.pid, signal.SIGKILL)
    first.process.wait()
    print(f"{'4 processes, ended in the middle':36} after {first.done()} answers; a database: "
          f"{os.path.exists(f'{work}/stopped/fleet.db')}", flush=True)
    again = Run("4 processes, begun again", words, f"{work}/stopped")
    again.look_until()
    return again.told()


def measure(fleet, traces, python=sys.executable):
    """Runs it in each way, and shows what each costs. The status is 1 where a database is another. A signal that ends
    it ends what it has started too."""
    work = tempfile.mkdtemp()
    before = signal.signal(signal.SIGTERM, lambda number, frame: sys.exit(128 + number))
    try:
        alone, *others = local_runs(fleet, traces, python, work)
        others.append(stopped_run(fleet, traces, python, work))
        others += [dask_run(fleet, traces, python, work, count) for count in (1, 2, 4)]
        others.append(dask_run(fleet, traces, python, work, 4, ends=True))
    finally:
        signal.signal(signal.SIGTERM, before)
        shutil.rmtree(work)
    same = [other == alone for other in others]
    print(f"{sum(same)} of {len(same)} databases are the same as with 1 process, with {len(alone)} bytes")
    return 0 if all(same) else 1
