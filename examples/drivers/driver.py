#!/usr/bin/env python3
"""A job over a real folder, committed by `mrsim step`: 20 reduce tasks, a second attempt, and a crash of the driver.

driver.py MRSIM              crashes the driver before each store call in turn, and recovers; says how many runs there were
driver.py MRSIM FOLDER       runs the job once, in this folder
driver.py MRSIM --failed     crashes the driver of a job that fails; its next generation follows the plan of `mrsim recovery`
driver.py MRSIM --latency    says how long a call over the pipe takes, beside `cat`

Works with Python's standard library alone.
"""
import json
import os
import shutil
import subprocess
import sys
import tempfile
import time

from folder import Folder

JOB = "200707121733_0003"
TASKS = 20


def task(n):
    return f"task_{JOB}_r_{n:06d}"


def attempt(n, number):
    return f"attempt_{JOB}_r_{n:06d}_{number}"


class Crash(Exception):
    """The driver is gone, between two store calls."""


class Refused(Exception):
    """An operation was refused; its text is the fault's words."""


class Driver:
    """One run of the driver, as a generation of the job's master. Before store call number `crash` it is gone."""

    def __init__(self, mrsim, root, generation, crash=None):
        self.mrsim, self.root, self.generation, self.crash = mrsim, root, generation, crash
        self.store, self.calls = Folder(root), 0

    def call(self, line):
        if self.calls == self.crash:
            raise Crash
        self.calls += 1
        return self.store.call(line)

    def step(self, *words):
        """Makes an operation of the committer, call by call."""
        command = [self.mrsim, "step", *words, "--generation", str(self.generation)]
        with subprocess.Popen(command, stdin=subprocess.PIPE, stdout=subprocess.PIPE, text=True) as pipe:
            for line in pipe.stdout:
                verb, _, rest = line.rstrip("\n").partition(" ")
                if verb == "finished":
                    return
                if verb == "fault":
                    raise Refused(rest)
                print(self.call(line.rstrip("\n")), file=pipe.stdin, flush=True)
            raise EOFError("the operation did not end")

    def recover(self, n):
        """Whether an earlier generation had committed the task's output, which is taken over."""
        try:
            self.step("recover-task", task(n))
            return True
        except Refused as fault:
            if str(fault) != "OutputMissing":
                raise
            return False

    def write(self, n, number):
        """An attempt writes its part file. Who writes it doesn't matter here."""
        folder = f"{self.root}/out/_temporary/{self.generation}/_temporary/{attempt(n, number)}"
        os.makedirs(folder, exist_ok=True)
        with open(f"{folder}/part-r-{n:05d}", "w") as file:
            file.write(f"the output of task {n}\n")

    def segment(self, generation):
        return f"{self.root}/history.{generation}"

    def record(self, event, **more):
        """Puts a record into this generation's segment of the history, and makes it stable."""
        with open(self.segment(self.generation), "a") as file:
            file.write(json.dumps({**more, "event": event}, sort_keys=True, separators=(",", ":")) + "\n")
            file.flush()
            os.fsync(file.fileno())

    def plan(self):
        """What the history of the generations before this one asks for."""
        segments = [it for it in map(self.segment, range(1, self.generation)) if os.path.exists(it)]
        command = [self.mrsim, "recovery", *(segments or ["/dev/null"])]
        return subprocess.run(command, stdout=subprocess.PIPE, text=True, check=True).stdout.splitlines()

    def fail(self):
        """One task has won, and another one has failed too often: that is recorded, and the job is aborted."""
        winner = attempt(0, 1000 * (self.generation - 1))
        self.step("setup-job")
        self.write(0, 1000 * (self.generation - 1))
        self.step("commit-task", winner)
        self.record("reduce", attempt=winner)
        self.record("unsuccessful")
        self.step("abort-job")

    def run(self):
        first = 1000 * (self.generation - 1)
        self.step("setup-job")
        for n in range(TASKS):
            if self.recover(n):
                continue
            self.write(n, first)
            if n == 7:  # a second attempt at one task, which has to yield
                self.write(n, first + 1)
            self.step("commit-task", attempt(n, first))
            if n == 7:
                self.step("abort-task", attempt(n, first + 1))
        self.step("commit-job")


def is_right(root):
    """The marker and each task's file, whole, and nothing else."""
    wanted = {"_SUCCESS": ""}
    wanted.update({f"part-r-{n:05d}": f"the output of task {n}\n" for n in range(TASKS)})
    found = {}
    for name in os.listdir(f"{root}/out"):
        with open(f"{root}/out/{name}") as file:
            found[name] = file.read()
    return found == wanted


def run_with_crash(mrsim, crash):
    """Runs the job with a crash before store call number `crash`; says whether it came to that call."""
    with tempfile.TemporaryDirectory() as root:
        try:
            Driver(mrsim, root, 1, crash).run()
            crashed = False
        except Crash:
            crashed = True
            # Where the marker is there the job is done; else the next generation goes on.
            if not os.path.exists(f"{root}/out/_SUCCESS"):
                Driver(mrsim, root, 2).run()
        if not is_right(root):
            raise SystemExit(f"driver.py: wrong output after a crash before call {crash}")
        return crashed


def fail_with_crash(mrsim, crash):
    """Fails a job with a crash before store call number `crash`; says whether it came to that call."""
    with tempfile.TemporaryDirectory() as root:
        first, second = Driver(mrsim, root, 1, crash), Driver(mrsim, root, 2)
        try:
            first.fail()
            crashed = False
        except Crash:
            crashed = True
            # Once the failure is recorded the next generation aborts the job too, whatever has won; before that it goes on.
            plan, has_failed = second.plan(), os.path.exists(first.segment(1))
            if plan != (["report failed"] if has_failed else ["resume"]):
                raise SystemExit(f"driver.py: planned {plan} after a crash before call {crash}")
            if has_failed:
                second.step("abort-job")
            else:
                second.fail()
        if os.listdir(f"{root}/out"):
            raise SystemExit(f"driver.py: output of a failed job after a crash before call {crash}")
        return crashed


def latency(mrsim):
    """The time between an answer and the next call, in microseconds: of a job's commit, and of `cat`."""
    with tempfile.TemporaryDirectory() as root:
        driver = Driver(mrsim, root, 1)
        driver.step("setup-job")
        entries = " ".join(f"{task(n)}/" for n in range(2000))
        command = [mrsim, "step", "commit-job"]
        answers = {"list /out/_temporary/1": f"entries {entries}", "exists /out": "a directory", "create /out/_SUCCESS closed": "done"}
        times = []
        with subprocess.Popen(command, stdin=subprocess.PIPE, stdout=subprocess.PIPE, bufsize=0) as pipe:
            out = pipe.stdout
            line = out.readline().decode().rstrip("\n")
            while line != "finished":
                answer = answers.get(line) or ("entries" if line.startswith("list") else "done")
                start = time.perf_counter()
                pipe.stdin.write(f"{answer}\n".encode())
                line = read_line(out)
                times.append(time.perf_counter() - start)
        step = sorted(times)[len(times) // 2]
        times = []
        with subprocess.Popen(["cat"], stdin=subprocess.PIPE, stdout=subprocess.PIPE, bufsize=0) as pipe:
            for _ in range(4000):
                start = time.perf_counter()
                pipe.stdin.write(b"a directory\n")
                read_line(pipe.stdout)
                times.append(time.perf_counter() - start)
            pipe.stdin.close()
        cat = sorted(times)[len(times) // 2]
        print(f"a call over the pipe: {step * 1e6:.0f} microseconds; cat: {cat * 1e6:.0f}")
        if step > 50e-6 and step > 10 * cat:
            raise SystemExit("driver.py: a call takes too long")


def read_line(pipe):
    """A line from a pipe that isn't buffered."""
    line = b""
    while not line.endswith(b"\n"):
        line += pipe.read(65536)
    return line.decode().rstrip("\n")


def main():
    mrsim = sys.argv[1]
    if sys.argv[2:] == ["--latency"]:
        latency(mrsim)
    elif sys.argv[2:] == ["--failed"]:
        runs = 0
        while fail_with_crash(mrsim, runs):
            runs += 1
        print(f"driver.py: {runs + 1} runs of a job that fails, none with output")
    elif sys.argv[2:]:
        Driver(mrsim, sys.argv[2], 1).run()
    else:
        runs = 0
        while run_with_crash(mrsim, runs):
            runs += 1
        print(f"driver.py: {runs + 1} runs, each with the whole output")


if __name__ == "__main__":
    main()
