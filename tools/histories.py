"""Directories of mrout that are made, spoilt, and asked about by `mrout check`: part of tools/listings.

Each row of ROWS is a directory of two tasks, what is done to it, and the answer, as it follows from the rule: yes where the marker was seen, and behind it
each task's recorded winner's file, of the length that was noted, and no other visible name; else no.
"""
import json
import os
import shutil
import subprocess
import tempfile

FILES = {0: b"a\t2\n", 1: b"b\t1\nc\t7\n"}


class Job:
    """A directory of mrout."""

    def __init__(self, program, dir, words=()):
        self.program, self.dir, self.words = program, dir, words
        self.say("begin", "--tasks", "2", *words)

    def say(self, command, *words, wanted=0):
        ran = subprocess.run([self.program, command, self.dir, *words], capture_output=True, text=True, timeout=60)
        if ran.returncode != wanted:
            raise AssertionError(f"{command} {words}: {ran}")
        return ran.stdout

    def hand_in(self, task, text=None):
        _, name, path = self.say("attempt", "--task", str(task)).rstrip("\n").split(" ", 2)
        with open(path, "wb") as file:
            file.write(FILES[task] if text is None else text)
        self.say("done", name)

    def path(self, name):
        return os.path.join(self.dir, name)

    def write(self, name, content):
        with open(self.path(name), "wb") as file:
            file.write(content)

    def read(self, name):
        with open(self.path(name), "rb") as file:
            return file.read()


def published(program, dir, *words):
    job = Job(program, dir, words)
    for task in FILES:
        job.hand_in(task)
    return job


def remove(name):
    return lambda job: os.remove(job.path(name))


def write(name, content):
    return lambda job: job.write(name, content)


def folder_for(name):
    def go(job):
        if os.path.exists(job.path(name)):
            os.remove(job.path(name))
        os.mkdir(job.path(name))
    return go


def link_for(name):
    def go(job):
        os.rename(job.path(name), job.path("_mrout/elsewhere"))
        os.symlink(job.path("_mrout/elsewhere"), job.path(name))
    return go


def of_another_job(job):
    """The history is another job's."""
    job.write("_mrout/job", job.read("_mrout/job").replace(b'"job":"job_', b'"job":"job_9'))


def without_last_record(job):
    """A record that is not whole is none."""
    job.write("_mrout/history.1", job.read("_mrout/history.1")[:-1])


def losers_first(job):
    """A second success of a task does not count, nor does its length."""
    line = job.read("_mrout/history.1").split(b"\n")[-2].replace(b"_0\"", b"_7\"")
    job.write("_mrout/history.1", job.read("_mrout/history.1") + line + b"\n")


def lengths_of(job):
    """The names that tell how long the files are that were handed in."""
    return [f"_mrout/kept/{name}" for name in sorted(os.listdir(job.path("_mrout/kept"))) if "." in name]


def rename_lengths(ending):
    """The names tell something else."""
    return lambda job: [os.rename(job.path(name), job.path(name.split(".")[0] + ending)) for name in lengths_of(job)]


# what is done to a published directory, and the answer's words behind its name; nothing where it is yes
ROWS = {
    "as_it_is": (lambda job: None, ""),
    "hidden_names": (write(".part-r-00000.crc", b"crc"), ""),
    "attempts_left": (lambda job: os.makedirs(job.path("_mrout/work/x")), ""),
    "second_success": (losers_first, ""),
    "marker_removed": (remove("_SUCCESS"), "marker"),
    "marker_is_a_folder": (folder_for("_SUCCESS"), "marker"),
    "marker_with_bytes": (write("_SUCCESS", b"{}\n"), "marker"),
    "marker_is_a_link": (link_for("_SUCCESS"), "marker"),
    "part_removed": (remove("part-r-00001"), "missing"),
    "part_cut": (write("part-r-00001", FILES[1][:-1]), "lengths"),
    "part_grown": (write("part-r-00001", FILES[1] + b"d\t1\n"), "lengths"),
    "part_emptied": (write("part-r-00000", b""), "lengths"),
    "part_with_other_bytes_of_this_length": (write("part-r-00000", b"z\t9\n"), ""),
    "part_is_a_folder": (folder_for("part-r-00000"), "files"),
    "part_is_a_link": (link_for("part-r-00000"), "files"),
    "parts_exchanged": (lambda job: (job.write("part-r-00000", FILES[1]), job.write("part-r-00001", FILES[0])), "lengths"),
    "part_renamed": (lambda job: os.rename(job.path("part-r-00001"), job.path("part-r-00002")), "missing foreign"),
    "one_part_more": (write("part-r-00002", b"x"), "foreign"),
    "somebody_elses_file": (write("notes.txt", b"x"), "foreign"),
    "somebody_elses_folder": (folder_for("notes"), "foreign"),
    "a_name_that_is_no_text": (lambda job: open(os.fsencode(job.dir) + b"/caf\xe9", "xb").close(), "foreign"),
    "a_folder_whose_name_is_no_text": (lambda job: os.mkdir(os.fsencode(job.dir) + b"/caf\xe9"), "foreign"),
    "history_emptied": (write("_mrout/history.1", b""), "winners"),
    "history_cut": (without_last_record, "winners"),
    "history_of_another_job": (of_another_job, "winners"),
    "lengths_removed": (lambda job: [os.remove(job.path(name)) for name in lengths_of(job)], "unmeasured"),
    "lengths_of_no_number": (rename_lengths(".x"), "unmeasured"),
    "lengths_with_a_zero_in_front": (rename_lengths(".04"), "unmeasured"),
    "lengths_of_another_file": (rename_lengths(".5"), "lengths"),
    "all_of_it": (lambda job: [os.remove(job.path(name)) for name in ("_SUCCESS", "part-r-00000", lengths_of(job)[1])], "marker missing unmeasured"),
}


def tree(dir):
    """All that is there: names, kinds, lengths, times of change, links, and bytes."""
    found = {}
    for folder, folders, files in os.walk(dir):
        for name in folders + files:
            path = os.path.join(folder, name)
            it = os.lstat(path)
            found[path] = (it.st_mode, it.st_ino, it.st_size if name in files else 0, it.st_mtime_ns, it.st_ctime_ns)
    return found


def asked(judge, dir, words=(), by=()):
    """The answer in its three forms, which have to agree."""
    run = lambda *more: subprocess.run([*by, judge.program, "check", dir, *words, *more], capture_output=True, text=True, timeout=60)
    ran, told, quiet = run(), run("--json"), run("--quiet")
    if quiet.stdout or {told.returncode, quiet.returncode} != {ran.returncode}:
        return ran, f"other statuses: {ran} {told} {quiet}"
    if ran.returncode > 1:
        return ran, "" if not (ran.stdout or told.stdout) else f"{ran}"
    it, first = json.loads(told.stdout), ran.stdout.split("\n")[0]
    if it["answer"] != first.split(":")[0] or (it["answer"] == "no" and " ".join(it["broken"]) != first.split(": ")[-1]):
        return ran, f"{first!r}, and as JSON {told.stdout!r}"
    if "their bytes were not" not in ran.stdout:
        return ran, f"it is not said that bytes were not compared: {ran.stdout!r}"
    return ran, ""


def wanted(judge, name, dir, words, told=(), by=()):
    """How often the answer of a directory is another one."""
    before = tree(dir)
    ran, wrong = asked(judge, dir, told, by)
    line = f"no: {dir}: {words}" if words else f"yes: {dir}"
    if wrong or ran.stdout.split("\n")[0] != line or ran.returncode != (1 if words else 0):
        return judge.wrong(f"{name}: {wrong or ran}, not {line!r}")
    if tree(dir) != before:
        return judge.wrong(f"{name}: something was changed")
    return 0


def of_a_listing(judge, name, dir, words):
    """What find lists of it: never yes, since the history decides, which no listing has."""
    wrong = 0
    for format, form in (("find", "%y %s %p\\n"), ("find0", "%y %s %p\\0")):
        listing = subprocess.run(["find", dir, "-printf", form], capture_output=True, check=True).stdout
        told = ["--tasks", "2", "--app-attempts", "1", "--task-attempts", "1", "--algorithm", "1", "--store", "local", "--listed-after-marker"]
        status = judge.first(["--listing", format, *told], listing)[0]
        if status == 0 or (words == "" and status != 8):
            wrong += judge.wrong(f"{name} by {format}: status {status}")
    return wrong


def rows(judge):
    """Each row, as it is, as a copy, and by a listing."""
    wrong = 0
    with tempfile.TemporaryDirectory(prefix="a b ") as room:
        for name, (spoil, words) in ROWS.items():
            job = published(judge.program, os.path.join(room, name))
            spoil(job)
            wrong += wanted(judge, name, job.dir, words)
            wrong += of_a_listing(judge, name, job.dir, words)
            if name != "marker_is_a_link" and name != "part_is_a_link":
                shutil.copytree(job.dir, job.dir + ".copy")
                wrong += wanted(judge, name + ", a copy", job.dir + ".copy", words)
    return wrong


def lives(judge):
    """A job's life: what is answered behind each of its commands."""
    wrong = 0
    with tempfile.TemporaryDirectory() as room:
        job = Job(judge.program, os.path.join(room, "out"), ("--suffix", ".csv.gz"))
        wrong += wanted(judge, "begun", job.dir, "marker winners")
        job.hand_in(1)
        wrong += wanted(judge, "one task won", job.dir, "marker winners missing")
        job.hand_in(0, b"")
        wrong += wanted(judge, "published, one file empty", job.dir, "")
        wrong += wanted(judge, "two tasks told", job.dir, "", ("--tasks", "2"))
        wrong += wanted(judge, "three tasks told", job.dir, "tasks", ("--tasks", "3"))
        job.say("forget")
        if judge.first([job.dir], b"")[0] != 8:
            wrong += judge.wrong("forgotten: its history is gone, so it depends")
        job = Job(judge.program, os.path.join(room, "aborted"))
        job.hand_in(0)
        job.say("abort")
        wrong += wanted(judge, "aborted", job.dir, "marker over winners missing")
    return wrong


def refusals(judge):
    """What cannot be read is refused, and told by its path; nothing is printed."""
    wrong = 0
    with tempfile.TemporaryDirectory() as room:
        for name, file, content, status, says in (
            ("damaged", "_mrout/history.1", b"no record\n" * 80, 3, "_mrout/history.1: line 1 is damaged"),
            ("other version", "_mrout/job", b"{}\n", 3, "_mrout/job: of another version of mrout"),
        ):
            job = published(judge.program, os.path.join(room, name))
            job.write(file, content)
            ran, bad = asked(judge, job.dir)
            if bad or ran.returncode != status or ran.stderr != f"mrout: {job.dir}: {says}\n":
                wrong += judge.wrong(f"{name}: {bad or ran}")
    return wrong


def readers(judge):
    """Read permission is enough; of several directories a line each, and the status of the worst."""
    wrong = 0
    with tempfile.TemporaryDirectory() as room:
        os.chmod(room, 0o755)
        good, bad = published(judge.program, os.path.join(room, "good")), published(judge.program, os.path.join(room, "bad"))
        os.remove(bad.path("part-r-00000"))
        ran = subprocess.run([judge.program, "check", good.dir, bad.dir, good.dir], capture_output=True, text=True, check=False)
        if (ran.returncode, ran.stdout) != (1, f"yes: {good.dir}\nno: {bad.dir}: missing\nyes: {good.dir}\n"):
            wrong += judge.wrong(f"several: {ran}")
        for folder, _, files in os.walk(good.dir):
            for name in files:
                os.chmod(os.path.join(folder, name), 0o444)
            os.chmod(folder, 0o555)
        program = os.path.join(room, "mrout")
        shutil.copy(judge.program, program)
        os.chmod(program, 0o755)
        by = ["setpriv", "--reuid", "65534", "--regid", "65534", "--clear-groups"] if os.geteuid() == 0 and shutil.which("setpriv") else []
        held, judge.program = judge.program, program
        wrong += wanted(judge, "by a reader", good.dir, "", by=by)
        judge.program = held
        for folder, _, _ in os.walk(good.dir):
            os.chmod(folder, 0o755)
    return wrong
