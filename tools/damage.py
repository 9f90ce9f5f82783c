"""Damaged input for tools/hostile: texts of each format, made from the examples and from generated ones, and what may come of them.

Nothing here is by the clock or the machine: a text follows from the chance that is handed in alone.
"""
import json
import os
import re
from functools import partial

JOB_FAULT = rb"mrsim: job: (text|id|job|reduces|splits|nodes|limit|faults|v2from)"
BAD_COMMAND = rb"mrsim: line ([1-9][0-9]*): bad command"
FULL = rb"mrsim: full"
UNMET = b"mrsim: not as expected\n"
# behind these a line tells what was expected
HELPED = re.compile(rb"mrsim: (line [0-9]+: bad command|job: [a-z0-9]+|history: bad line [0-9]+|refused|full)\n")
TROUBLE = re.compile(rb"  (the line ends with a carriage return|word [1-9][0-9]* (is no command|does not fit|is missing|is one too many|is empty, by a space too many|has a tab, where a space parts words|begins with #, but a comment is a line of its own): expected [ -~]+)\n")
ENDED = rb"(master [1-9][0-9]* (never started|told the outcome|has stopped|is not alive)|it made 10000 events|nothing is left to do)"
# what may be said behind a text of `play`
REMARKS = re.compile(rb"(mrsim: line [1-9][0-9]*: calm ended( without [a-z]+)?: " + ENDED + rb"\n)*(" + UNMET + rb")?")
START, TASKS = "200707121733", ["000000", "000001"]
NUMBERS = ["0", "1", "2", "3", "7", "63", "64", "65", "100", "101", "999", "1000", "1001", "1000000", "1000001", "4294967295", "4294967296", "16777216", "16777217"]
NUMBERS += ["18446744073709551615", "18446744073709551616", "-1", "-0", "00", "01", "1.0", "1e0", "1e400", "+1", "0x1"]
TOKENS = [b"\n", b"\n\n", b" ", b"  ", b"\t", b"\r", b"\0", b"\x80", b"\xff", b"\xc3\xa9", b"\xed\xa0\x80", b"\xf4\x90\x80\x80", b'"', b"\\", b"{", b"}", b"[", b"]", b",", b":"]
TOKENS += [b"\\ud800", b"\\ud83d\\ude00", b"\\u0000", b"null", b"true", b"{}", b"[]", b"[[[[[[[[", b'{"a":' * 40, b"none", b"out/", b"_", b"-"]
TOKENS += [it.encode() for it in NUMBERS]


def attempt(chance):
    kind, task = chance.choice("mrrr"), chance.choice([*TASKS, "00000", "1000000", "0000000"] if chance.random() < 0.03 else TASKS)
    number = chance.choice(["0", "0", "0", "1", "1", "2", "999", "1000", "1001", "2000"] if chance.random() < 0.98 else NUMBERS)
    return f"attempt_{START}_{chance.choice(['0003'] * 99 + ['3'])}_{kind}_{task}_{number}"


def number(chance, usual):
    return str(chance.choice(usual)) if chance.random() < 0.99 else chance.choice(NUMBERS)


def job_text(chance, usual=False):
    """The JSON text of a job, mostly of a good one."""
    words = lambda: " ".join(chance.choice(["a", "b", "c", "x 3", "é", "\n", "the", "10"]) for _ in range(chance.randrange(8)))
    fault = lambda: {"after": chance.randrange(40), chance.choice(["node", "master", "expire"]): 0}
    text = {
        "id": f"job_{START}_0003",
        "job": chance.choice(["wordcount", "wordcount", "wordcount", "maxbykey", "lineindex"]),
        "reduces": chance.choice([1, 1, 2, 3]),
        "splits": [words() for _ in range(chance.choice([1, 1, 1, 2, 3]))],
    }
    for key, value in (("nodes", chance.choice([1, 2, 3, 64])), ("limit", chance.choice([1, 2, 4, 100])), ("v2from", chance.choice([1, 2, 3, 1000]))):
        if chance.random() < 0.3:
            text[key] = value
    if chance.random() < 0.3:
        text["faults"] = [fault() for _ in range(chance.randrange(4))]
    if not usual:
        if chance.random() < 0.3:
            text[chance.choice([*text])] = chance.choice([None, True, -1, 0, 1.5, 1001, 2**64, "", "a", [], {}, [1], [None], [{}], {"a": [1]}])
        if chance.random() < 0.1:
            del text[chance.choice([*text])]
        if chance.random() < 0.3:
            text = dict(chance.sample([*text.items()], len(text)))
    return json.dumps(text, ensure_ascii=chance.random() < 0.5, indent=None if usual else chance.choice([None, None, 1]))


def committer_line(chance):
    master = lambda: number(chance, [1, 1, 1, 2, 2, 3])
    word = chance.choice(["as", "raise", "check", "setup", "setup", "write", "write", "write", "needs", "commit", "commit", "commit", "abort", "recover", "commitjob", "abortjob", "bar", "by"])
    if word in ("as", "raise"):
        return f"{word} {master()}"
    if word == "write":
        return f"write {attempt(chance)} {chance.choice(['one', '', 'a b', 'x' * 100])}"
    if word == "recover":
        return f"recover task_{START}_0003_{chance.choice('rrm')}_{chance.choice(TASKS)}" + (f" {number(chance, [2, 4, 5])}" if chance.random() < 0.5 else "")
    if word in ("needs", "commit", "abort", "bar", "by"):
        return f"{word} {attempt(chance) if word != 'by' or chance.random() < 0.6 else 'none'}"
    return word


# Keys of a job text that say nothing are told, a line each.
IDLE_KEYS = re.compile(rb"(mrsim: job: no such key: [^\n]*\n)*")

BEFORE = "marks read setup recover bar append flush started merge cleanup marker success fail abort where fetch lost compute mkdirs create write close needs pending poll look clear rename report failed launch step".split()


def play_line(chance):
    master = lambda: number(chance, [1, 1, 1, 1, 2, 2, 3])
    container = lambda: f"{number(chance, [1, 1, 1, 2, 3])}.{number(chance, range(8))}"
    kept = lambda: number(chance, [0, 0, 1, 14, 70, 1000000])
    fault = lambda: chance.choice(["", "", "", " unavailable", " unanswered"])
    word = chance.choice(["start", "start", "crash", "duty", "duty", "launch", "deliver", "deliver", "step", "step", "compute", "die", "restart", "expire", "calm", "calm", "before", "before", "before", "drop", "expect"])
    if word in ("start", "crash"):
        return f"{word} {master()} {kept()}"
    if word == "duty":
        return f"duty {master()}{fault()}"
    if word == "step":
        return f"step {container()}{fault()}"
    if word == "launch":
        return f"launch {master()} {chance.choice('mr')} {number(chance, range(3))} {number(chance, range(2))}"
    if word in ("deliver", "drop"):
        return f"{word} {number(chance, range(30))}"
    if word == "expect":
        winner = f"r {number(chance, range(3))} {chance.choice(['none', attempt(chance)])}"
        return f"expect {chance.choice([winner, 'marker yes', 'marker no', 'outcome succeeded', 'outcome failed', 'outcome none'])}"
    if word in ("compute", "die"):
        return f"{word} {container()}"
    if word == "restart":
        return f"restart {number(chance, range(2))}"
    if word == "expire":
        return f"expire {master()} {number(chance, range(2))}"
    return f"calm {master()}" + (f" before {chance.choice(BEFORE)}" if word == "before" else "")


def committer_script(chance):
    return "\n".join(["setup"] * (chance.random() < 0.7) + [committer_line(chance) for _ in range(chance.randrange(20))])


def play_script(chance):
    first = ["start 1 0"] * (chance.random() < 0.9) + ["calm 1 before " + chance.choice(BEFORE)] * (chance.random() < 0.7)
    return "\n".join([job_text(chance, usual=True), *first, *(play_line(chance) for _ in range(chance.randrange(30)))])


def record(chance, version):
    kind = chance.choice(["started", "started", "map", "reduce", "reduce", "failed", "unsuccessful"])
    made = {"attempt": attempt(chance), "event": kind}
    if kind in ("started", "map"):
        made["node"] = chance.choice([0, 1, 2**32 - 1, 2**32] if chance.random() < 0.2 else [0, 1])
    if kind == "map":
        made["incarnation"] = chance.choice([1, 2, 2**32 - 1, 0] if chance.random() < 0.2 else [1, 2])
    if kind == "reduce" and version == 2:
        made["bytes"] = chance.choice([0, 8, 2**24, 2**24 + 1] if chance.random() < 0.2 else [0, 8])
    if kind == "unsuccessful":
        del made["attempt"]
    return json.dumps(made, separators=(",", ":"), sort_keys=chance.random() < 0.99)


def segment(chance, version):
    lines = ['{"version":2}'] * (version == 2) + [record(chance, version) for _ in range(chance.randrange(8))]
    return "".join(it + "\n" for it in lines)[: None if chance.random() < 0.7 else -chance.randrange(1, 90)]


def mutated(chance, text, others):
    """The text with one to some damages."""
    text = bytearray(text)
    by_lines = chance.random() < 0.4
    for _ in range(chance.choice([0, 1, 1, 1, 1, 2, 3, 8])):
        at = chance.randrange(len(text) + 1)
        to = min(len(text), at + chance.choice([1, 1, 2, 5, 20, 200]))
        lines = bytes(text).split(b"\n")
        line = chance.randrange(len(lines))
        how = chance.choice([6, 7]) if by_lines else chance.randrange(10)
        if how == 0 and at < len(text):
            text[at] ^= 1 << chance.randrange(8)
        elif how == 1:
            text[at:at] = bytes([chance.randrange(256)])
        elif how == 2:
            del text[at:to]
        elif how == 3:
            del text[at:]
        elif how == 4:
            text[at:to] = chance.choice(TOKENS)
        elif how == 5:
            text[at:at] = text[at:to] * chance.choice([1, 2, 30])
        elif how == 6:
            lines[line : line + 1] = [lines[line]] * chance.choice([0, 2, 3])
            text = bytearray(b"\n".join(lines))
        elif how == 7:
            lines[line], lines[0 if len(lines) < 2 else -2] = lines[0 if len(lines) < 2 else -2], lines[line]
            text = bytearray(b"\n".join(lines))
        elif how == 8:
            found = [*re.finditer(rb"[0-9]+", text)]
            if found:
                it = chance.choice(found)
                text[it.start() : it.end()] = chance.choice(NUMBERS).encode()
        else:
            other = chance.choice(others)
            text[at:to] = other[chance.randrange(len(other) + 1) :][: chance.choice([10, 100, 10000])]
    return bytes(text)


def is_helped(run):
    """Whether a fault of the input that can be helped has its line of help, and nothing else has one. Of a bad command it tells which word is wrong."""
    helped = run.err[len(run.fault) :]
    if not HELPED.fullmatch(run.fault):
        return not helped
    return bool(TROUBLE.fullmatch(helped) if b"bad command" in run.fault else helped)


class Kind:
    """A format: its name, the program's words, its examples, how a text of it is generated, and what the program may say of one."""

    def __init__(self, name, words, examples, make, faults, exact=None):
        self.name, self.words, self.examples, self.make, self.exact = name, words, examples, make, exact
        self.faults = re.compile(b"(" + b"|".join(faults) + b")\n")

    def text(self, chance):
        text = chance.choice(self.examples) if chance.random() < 0.4 else self.make(chance).encode()
        # of what `play` reads, mostly the lines behind the job text
        job, line, script = text.partition(b"\n")
        if line and self.words == ["play"] and chance.random() < 0.8:
            return job + line + mutated(chance, script, self.examples)
        return mutated(chance, text, self.examples)

    def ending(self, text, run):
        """How the run ended, in a word or two; none where it may not end so."""
        if self.exact and (run.status, run.out, run.fault) != self.exact(text):
            return None
        if not is_helped(run):
            return None
        if run.out and self.words == ["play"] and REMARKS.fullmatch(run.err):
            is_unmet = run.err.endswith(UNMET)
            return None if run.status != 3 * is_unmet else "not as expected" if is_unmet else "texts"
        if run.status == 0:
            return "texts" if IDLE_KEYS.fullmatch(run.err) else None
        if run.out or not self.faults.fullmatch(run.fault):
            return None
        said = run.fault.decode().strip()
        line = re.search(r"line ([0-9]+)", said)
        if line and int(line[1]) > text.count(b"\n") + 1:
            return None
        if run.status != (7 if said == FULL.decode() else 3):
            return None
        return re.sub(r"mrsim: (line |history: bad line )?[0-9]*(: )?", r"", said) or "bad line"


LINE = {
    "started": ("attempt", "event", "node"),
    "map": ("attempt", "event", "incarnation", "node"),
    "failed": ("attempt", "event"),
    "unsuccessful": ("event",),
}
LEAST_MOST = {"node": (0, 2**32 - 1), "incarnation": (1, 2**32 - 1), "bytes": (0, 2**24)}


def good_attempt(text, kinds):
    """Whether this is the one spelling of an attempt of these kinds of task."""
    found = re.fullmatch(r"attempt_(0|[1-9][0-9]*)_([0-9]{4,})_([mr])_([0-9]{6,})_(0|[1-9][0-9]*)", text, re.ASCII)
    if not found or found[3] not in kinds:
        return False
    start, job, _, task, number = found.groups()
    wide = (len(job) == 4 or job[0] != "0") and (len(task) == 6 or task[0] != "0")
    return wide and int(start) < 2**64 and int(job) < 2**32 and int(task) < 2**32 and int(number) < 1_000_000


def printed_record(line, version):
    """What is printed for a line of a segment; none where it is no record."""
    try:
        made = json.loads(line.decode())
        # a lone surrogate, which JSON can escape, has no bytes: encode() refuses it by a ValueError too
        spelled = json.dumps(made, separators=(",", ":"), ensure_ascii=False).encode()
    except (ValueError, RecursionError):
        return None
    if not isinstance(made, dict) or spelled != line:
        return None
    kind = made.get("event")
    wanted = ("attempt", "bytes", "event")[:: 1 if version == 2 else 2] if kind == "reduce" else LINE.get(kind) if isinstance(kind, str) else None
    if not wanted or tuple(made) != wanted:
        return None
    for key, (least, most) in LEAST_MOST.items():
        if key in made and (type(made[key]) is not int or not least <= made[key] <= most):
            return None
    if kind == "unsuccessful":
        return "unsuccessful"
    kinds = {"map": "m", "reduce": "r"}.get(kind, "mr")
    if not isinstance(made["attempt"], str) or not good_attempt(made["attempt"], kinds):
        return None
    return " ".join([kind, made["attempt"], *(f"{it} {made[it]}" for it in ("node", "incarnation", "bytes") if it in made)])


def history(text):
    """What the program has to do with a segment: docs/MRSIM.md, "Reading a segment by hand"."""
    *lines, torn = text.split(b"\n")
    version = 2 if lines and lines[0] == b'{"version":2}' else 1
    out = ["version 2"] * (version == 2)
    for number, line in enumerate(lines[version - 1 :], version):
        made = printed_record(line, version)
        if made is None:
            return 3, b"", f"mrsim: history: bad line {number}\n".encode()
        out.append(made)
    return 0, "".join(f"{it}\n" for it in [*out, f"torn {len(torn)}"]).encode(), b""


def block(chance):
    """A block of the job of words: words that rise, each with how often it stands."""
    words = sorted({chance.choice(["a", "b", "c", "the", "é", "x" * 17, ""]).encode() for _ in range(chance.randrange(6))})
    pairs = [(it, chance.choice([0, 1, 2, 3, 255, 2**63, 2**64 - 1])) for it in words for _ in range(chance.choice([1, 1, 1, 2]))]
    if chance.random() < 0.1:
        chance.shuffle(pairs)
    return b"".join(len(word).to_bytes(4, "big") + word + count.to_bytes(8, "big") for word, count in pairs)


def map_output(chance, is_damaged=False):
    """A map's output, a block for each reduce behind its length, and before it the number of reduces in a byte."""
    blocks = [block(chance) for _ in range(chance.choice([1, 1, 2, 3]))]
    if is_damaged:
        blocks = [mutated(chance, it, [block(chance)]) for it in blocks]
    return bytes([len(blocks)]) + b"".join(len(it).to_bytes(4, "big") + it for it in blocks)


def reduced(block):
    """What a reduce makes of its block: its text behind its length, or the first fault in it."""
    pairs, last = {}, None
    while block:
        key, value = block[4:][: int.from_bytes(block[:4], "big")], block[4 + int.from_bytes(block[:4], "big") :][:8]
        if len(block) < 4 or len(key) < int.from_bytes(block[:4], "big") or len(value) < 8:
            return b"Shuffle Truncated\n"
        if last is not None and key < last:
            return b"Shuffle Disorder\n"
        pairs[key], last, block = pairs.get(key, 0) + int.from_bytes(value, "big"), key, block[12 + len(key) :]
    text = b"".join(b"%s\t%d\n" % (key, min(count, 2**64 - 1)) for key, count in pairs.items())
    return b"%d bytes\n%s" % (len(text), text)


def reduces(text):
    """What all reduces make of such an output, or that it is not so many blocks."""
    made, rest = [], text[1:]
    for _ in range(text[0]):
        length = int.from_bytes(rest[:4], "big")
        if len(rest) < 4 + length:
            return [b"no blocks\n"]
        made, rest = [*made, reduced(rest[4:][:length])], rest[4 + length :]
    return [b"no blocks\n"] if rest else made


class Outputs:
    """Outputs of maps, which are no input of the program: a test of the layer that reads them takes them in and prints what reduces make of them."""

    name, words = "map_outputs", ["outputs::output_of_standard_input"]

    def text(self, chance):
        made = map_output(chance, is_damaged=chance.random() < 0.7)
        if chance.random() < 0.7:
            return made
        count = made[0] if chance.random() < 0.9 else chance.choice([0, 1, 2, 3, 4, 255])
        return bytes([count]) + mutated(chance, made[1:], [map_output(chance)])

    def ending(self, text, run):
        made = reduces(text)
        if run.status or b"begin\n%send\n" % b"".join(made) not in run.out:
            return None
        faults = [it for it in made if not re.match(b"[0-9]", it)]
        return faults[0].decode().strip().removeprefix("Shuffle ") if faults else "texts"


def kinds(folder):
    """The formats, with the examples of this folder."""

    def examples(*endings, most=10_000):
        texts = []
        for file in sorted(os.listdir(folder)):
            if file.endswith(endings):
                with open(f"{folder}/{file}", "rb") as it:
                    texts.append(it.read())
        return [it for it in texts if len(it) <= most]

    segments = examples(".segment")
    return [
        Kind("jobs", ["seq"], examples(".job"), job_text, [JOB_FAULT, rb"mrsim: refused"]),
        Kind("committer_scripts", ["committer"], examples(".script"), committer_script, [BAD_COMMAND]),
        Kind("play_scripts", ["play"], examples(".play"), play_script, [JOB_FAULT, BAD_COMMAND, FULL]),
        Kind("segments_of_version_1", ["history"], segments, partial(segment, version=1), [rb"mrsim: history: bad line [1-9][0-9]*"], history),
        Kind("segments_of_version_2", ["history"], segments, partial(segment, version=2), [rb"mrsim: history: bad line [1-9][0-9]*"], history),
    ]
