"""Cuts runs of `mrsim play` after each event, and lets store calls of a run fail, one and two at a time: for tools/hostile.

Each text for `play` is made of events that `play --trace` told of a run before it (`deliver I`, `step C`, ..), and then goes on in
another way, so that what is printed is what is swept:

- job_cut_after_each_event: examples/one_reduce_succeeds.play is cut after each event, and with each number of bytes of the tail that
  stays either the master crashes and another one starts, or another one starts and the first goes on;
- recovery_cut_after_each_event: so is the recovery of a job of two reduces whose master crashed before its job commit;
- failing_job_cut_after_each_event: so is examples/job_fails_without_crash.play, from the fourth failure of an attempt on;
- expiry_before_each_event: the node is given up before each event of two examples;
- store_calls_fail: in examples/second_reduce_gets_all.play each store call in turn is `unavailable` or `unanswered`; two more masters
  start behind it, and keep none or all of the history's tail. With pairs, in each of these runs a second store call is so too, each
  one behind the first in turn.

The calm behind a cut begins behind the last packet that the events of the cut delivered; and once more, in a run of its own, with the
first packet of all, so that each packet of the cut comes a second time.

The first four have to come to what their cuts say. Of the last, each run that is marked has the files of the job, and one that is not
has none but those, whole. All nodes are told one winner of a reduce, which is the one that is recorded at the end, and a winner, a
marker and what is marked stay from where the second call fails.
"""
import json
import os
import re

from disturb import Program, Tally

TOP = os.path.dirname(os.path.dirname(os.path.realpath(__file__)))
A = "attempt_200707121733_0003_r_00000{}_{}"
ONE = {"part-r-00000": b"a\t2\nb\t1\n"}
TWO = {"part-r-00000": b"b\t1\n", "part-r-00001": b"a\t2\n"}
ALL_IN_SECOND = {"part-r-00000": b"", "part-r-00001": b"a\t2\nc\t1\n"}
ALL = 1_000_000
WORDS = ("unavailable", "unanswered")


class Event:
    """An event of a trace: its words in a script, what it was for, its store call and its packets."""

    def __init__(self, line):
        head, *rest = line.split(" | ")
        words = head.split(": ", 1)[1].rsplit(" (line ", 1)[0].split()
        self.kind, self.who = words[0], words[1]
        known = {"duty": 2, "step": 2, "compute": 2}.get(words[0], len(words))
        self.words, more = words[:known], words[known:]
        if more and more[0] in WORDS:
            self.words.append(more.pop(0))
        self.name = more[0] if more and self.kind != "compute" else self.kind
        is_packet = lambda it: re.match(r"[0-9]+ to ", it)
        self.call = next((it for it in rest if not is_packet(it)), "")
        self.packets = [it for it in rest if is_packet(it)]

    def text(self, fault=None):
        return " ".join([*self.words, *[fault] * bool(fault)])


class Played:
    """What came of a run: its events, winners, marker, outcome and files, and what was said where it was refused."""

    def __init__(self, run):
        self.events, self.winners, self.files, self.said = [], {}, {}, str(run) if run.status else ""
        self.marker = self.outcome = None
        rest = run.out
        while rest:
            line, _, rest = rest.partition(b"\n")
            text = line.decode()
            if file := re.fullmatch(r"== (\S+) ([0-9]+)", text):
                self.files[file[1]], rest = rest[: int(file[2])], rest[int(file[2]) :]
            elif winner := re.fullmatch(r"r ([0-9]+) (\S+)", text):
                self.winners[int(winner[1])] = winner[2]
            elif told := re.fullmatch(r"(marker|outcome) (\S+)", text):
                setattr(self, *told.groups())
            elif not re.fullmatch(r"[0-9]+: NotNow .*", text):
                self.events.append(Event(text))

    def told(self):
        return (self.winners, self.marker, self.outcome)


def record(call):
    """The line of the record that a call appends."""
    kind, *rest = call.removeprefix("append ").rsplit(": ", 1)[0].split()
    made = {"event": kind}
    if rest:
        made["attempt"] = rest.pop(0)
    made |= {key: int(value) for key, value in zip(rest[::2], rest[1::2])}
    return json.dumps(made, separators=(",", ":"), sort_keys=True) + "\n"


def segment(events, k):
    """What a master's segment of version 2 has after these events: its records' lines, how many bytes are stable and how many are not."""
    lines, length, stable = [], 0, 0
    for it in events:
        if it.kind == "duty" and it.who == str(k) and it.call.startswith("append "):
            line = record(it.call)
            length += len(line) + (0 if lines else len('{"version":2}\n'))
            lines.append((line, length))
        elif it.kind == "duty" and it.who == str(k) and it.name == "flush":
            stable = length
    return lines, stable, length - stable


def ends_of(events, k, beginning):
    """Where the first line that begins so ends in a master's segment, or beyond all."""
    return next((end for line, end in segment(events, k)[0] if beginning in line), 1 << 60)


class Sweep:
    """Runs texts of a job, and counts those that come to something else than is wanted. Of all cuts it takes each one of so many."""

    def __init__(self, program, library, room, tally, job, part, parts):
        self.server = Program([program, "play"], library, f"{room}/{tally.name}.{part}", stack=1024)
        self.tracer = Program([program, "play", "--trace"], library, f"{room}/{tally.name}.{part}.traced", stack=1024)
        self.tally, self.job, self.part, self.parts = tally, job, part, parts

    def play(self, lines, traced=True):
        program = self.tracer if traced else self.server
        program.gives((self.job + "\n".join(lines) + "\n").encode())
        return Played(program.run())

    def wants(self, lines, is_right, traced=False):
        played = self.play(lines, traced)
        self.tally.count(not played.said and is_right(played), "; ".join(lines), f"{played.told()} {played.said}")
        return played

    def mine(self, cuts):
        """Of these cuts those of this part."""
        return [*cuts][self.part :: self.parts]


def cut(events, length):
    return [it.text() for it in events[:length]]


def both_calms(first):
    """What stands before the calm behind these events: that each packet up to the last one that they delivered is passed over, or nothing."""
    last = max((int(it.who) for it in first if it.kind == "deliver"), default=-1)
    return ([f"drop {n}" for n in range(last + 1)], [])


def is_played(played, winners, marker, outcome, files):
    return played.told() == (dict(enumerate(winners)), marker, outcome) and (marker == "no" or played.files == files)


def job_cut(sweep):
    events = sweep.play(["start 1 0", "calm 1"]).events
    begin, marker, success = (next(n for n, it in enumerate(events) if it.name == name) for name in ("started", "marker", "success"))
    for length in sweep.mine(range(1, len(events) + 1)):
        first = events[:length]
        _, stable, tail = segment(first, 1)
        for kept in range(tail + 1):
            is_kept = ends_of(first, 1, '"event":"reduce"') <= stable + kept
            if length <= begin:
                wanted = ([A.format(0, 0 if is_kept else 1000)], "yes", "succeeded", ONE)
            else:
                wanted = ([A.format(0, 0)], "no" if length <= marker else "yes", "succeeded" if length > success else "failed", ONE)
            for way in ([f"crash 1 {kept}", "start 2 0", "calm 2"], [f"start 2 {kept}", "duty 1", "calm 2"]):
                for passed in both_calms(first):
                    sweep.wants([*cut(events, length), *passed, *way], lambda it: is_played(it, *wanted))


def recovery_cut(sweep):
    events = sweep.play(["start 1 0", "calm 1 before started", "crash 1 0", "start 2 0", "calm 2 before started"]).events
    begin = next(n for n, it in enumerate(events) if it.text() == "start 2 0")
    for length in sweep.mine(range(begin + 1, len(events) + 1)):
        for kept in range(segment(events[:length], 2)[2] + 1):
            way = [f"crash 2 {kept}", "start 3 0", "calm 3"]
            for passed in both_calms(events[:length]):
                sweep.wants([*cut(events, length), *passed, *way], lambda it: is_played(it, [A.format(0, 0), A.format(1, 0)], "yes", "succeeded", TWO))


def failing_job_cut(sweep):
    with open(f"{TOP}/examples/job_fails_without_crash.play", encoding="utf-8") as it:
        events = sweep.play(it.read().split("\n")[1:]).events
    died = next(n for n, it in enumerate(events) if it.text() == "die 1.5")
    begin = next(n for n, it in enumerate(events) if n > died and it.kind == "deliver")
    for length in sweep.mine(range(begin + 1, len(events) + 1)):
        first = events[:length]
        _, stable, tail = segment(first, 1)
        for kept in range(tail + 1):
            if ends_of(first, 1, '"event":"unsuccessful"') <= stable + kept:
                wanted = ([A.format(0, 0), "none"], "no", "failed", {})
            else:
                wanted = ([A.format(0, 0), A.format(1, 1000)], "yes", "succeeded", TWO)
            is_right = lambda it: is_played(it, *wanted) and (it.marker == "yes" or not it.files)
            for passed in both_calms(first):
                sweep.wants([*cut(events, length), *passed, f"crash 1 {kept}", "start 2 0", "calm 2"], is_right)


def expiry(sweep):
    other = ["start 1 0", "calm 1 before flush", "duty 1", "calm 1 before step", "launch 1 r 0 0", "calm 1"]
    for lines in (["start 1 0", "calm 1"], other):
        events = sweep.play(lines).events
        for length in sweep.mine(range(1, len(events))):
            for passed in both_calms(events[:length]):
                sweep.wants([*cut(events, length), *passed, "expire 1 0", "calm 1"], lambda it: it.marker == "yes" and it.files == ONE)


def kept_promise(played, files, before=None):
    """What the headline says of any run, and, where the same run was read earlier, of what stays."""
    told = [re.search(r": Won (\S+_r_0*([0-9]+)_[0-9]+)", packet) for it in played.events for packet in it.packets]
    one_winner = all(played.winners[int(it[2])] == it[1] for it in told if it)
    marked = played.marker == "no" or played.files == files and "none" not in played.winners.values()
    whole = played.files.items() <= files.items()
    succeeded = played.outcome != "succeeded" or played.marker == "yes"
    stays = True
    if before:
        stays = all(it in ("none", played.winners[n]) for n, it in before.winners.items())
        stays = stays and (before.marker == "no" or played.marker == "yes") and (before.outcome in ("none", played.outcome))
    return one_winner and marked and whole and succeeded and stays


def calls_of(events):
    return [n for n, it in enumerate(events) if it.call and it.kind in ("duty", "step") and it.words[-1] not in WORDS]


def goes_on(events, kept):
    """The newest master goes on, and two more follow."""
    k = max(int(it.who) for it in events if it.kind == "start")
    return [f"calm {k}", f"start {k + 1} {kept}", f"calm {k + 1}", f"start {k + 2} {ALL}", f"calm {k + 2}"]


def store_calls_fail(sweep, pairs=False):
    """Lets each store call fail; with pairs then each one behind it."""
    events, files = sweep.play(["start 1 0", "calm 1"]).events, ALL_IN_SECOND
    for n, word, kept in sweep.mine((n, word, kept) for n in calls_of(events) for word in WORDS for kept in (0, ALL)):
        lines = [*cut(events, n), events[n].text(word), *goes_on(events[:n], kept)]
        one = sweep.wants(lines, lambda it: kept_promise(it, files), traced=True)
        for m in [it for it in calls_of(one.events) if it > n] if pairs else []:
            first = cut(one.events, m)
            before = sweep.wants(first, lambda it: kept_promise(it, files), traced=True)
            for second in WORDS:
                lines = [*first, one.events[m].text(second), *goes_on(one.events[:m], kept)]
                sweep.wants(lines, lambda it: kept_promise(it, files, before), traced=True)


def job_of(name):
    with open(f"{TOP}/examples/{name}.play", encoding="utf-8") as it:
        return it.readline()


# Of each sweep its job, what it does, and in how many parts, where they are to be done side by side.
SWEEPS = {
    "job_cut_after_each_event": ("one_reduce_succeeds", job_cut, 8),
    "recovery_cut_after_each_event": ("job_fails_without_crash", recovery_cut, 1),
    "failing_job_cut_after_each_event": ("job_fails_without_crash", failing_job_cut, 4),
    "expiry_before_each_event": ("one_reduce_succeeds", expiry, 1),
    "store_calls_fail": ("second_reduce_gets_all", store_calls_fail, 16),
}


def swept(name, part, pairs, program, library, room):
    """What came of a part of a sweep."""
    tally = Tally(name)
    job, play, parts = SWEEPS[name]
    sweep = Sweep(program, library, room, tally, job_of(job), part, parts)
    with sweep.server, sweep.tracer:
        play(sweep, *[True] * (pairs and play is store_calls_fail))
    return tally
