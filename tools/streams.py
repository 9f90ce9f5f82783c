"""Reads and writes of a program that fail, are interrupted, or take or give less than was asked for (tools/hostile)."""
import errno
import os
import subprocess

import disturb
from disturb import EVERY, NOTHING, READS, SAYINGS, SHORT, WRITES, Program, Run, Tally, spread

STACK = 1024  # KiB
MOST_CALLS = 24
MOST_READS = 1 << 25


def is_unsaid(own, run):
    """What is right where standard error fails: what was to be said is dropped, and the status says it."""
    return (run.status, run.out) == (own.status, own.out) and own.err.startswith(run.err)


def fail_streams(row, own, program, tally):
    """Each read, each write and each saying fails, alone and with all behind it."""
    read = lambda run: (run.status, run.out, run.err) == (4, b"", b"mrsim: read\n")
    write = lambda run: (run.status, run.err) == (4, b"mrsim: write\n") and own.out.startswith(run.out)
    unsaid = lambda run: is_unsaid(own, run)
    same = lambda run: run == own
    bad = [errno.EIO, errno.EAGAIN, errno.ENOSPC, errno.EPIPE, errno.EBADF]
    for kind, what, fails in ((READS, "read", read), (WRITES, "write", write), (SAYINGS, "saying", unsaid)):
        count = own.seen[kind]
        for n in spread(count, MOST_CALLS)[0]:
            for how in bad:
                tally.count(fails(run := program.run(kind, how, first=n)), f"{what} {n}, {errno.errorcode[how]}", run)
                tally.count(fails(run := program.run(kind, how, first=n, last=EVERY)), f"{what} {n} and all behind it, {errno.errorcode[how]}", run)
            tally.count(same(run := program.run(kind, errno.EINTR, first=n)), f"{what} {n}, interrupted", run)
            tally.count(same(run := program.run(kind, SHORT, first=n)), f"{what} {n}, one byte", run)
            if kind != READS:
                tally.count(fails(run := program.run(kind, NOTHING, first=n, last=EVERY)), f"{what} {n} and all behind it, no byte", run)
                tally.count(fails(run := program.run(kind, SHORT, errno.ENOSPC, first=n, last=EVERY)), f"{what} {n}, one byte, then a full disk", run)
        if count and (kind != READS or len(row.input) <= 1 << 20):
            tally.count(same(run := program.run(kind, SHORT, first=1, last=EVERY)), f"each {what} one byte", run)


def real_streams(row, own, command, tally):
    """The same by streams that are so: closed, a folder, a full disk, a pipe that nobody reads."""

    def run(what, is_right, stdin=None, stdout=subprocess.PIPE, stderr=subprocess.PIPE, closed=None):
        def before():
            disturb.quiet(STACK)
            if closed is not None:
                os.close(closed)

        pipes = {"stdin": subprocess.PIPE if stdin is None else stdin, "stdout": stdout, "stderr": stderr}
        with subprocess.Popen(command, preexec_fn=before, cwd="/", env={"LANG": "C.UTF-8"}, **pipes) as it:
            try:
                out, err = it.communicate(row.input if stdin is None else None, timeout=100 * disturb.SECONDS)
            except subprocess.TimeoutExpired:
                it.kill()
                out, err = it.communicate()
        made = Run(it.returncode, out or b"", err or b"")
        tally.count(is_right(made), what, made)

    read = (4, b"", b"mrsim: read\n") if own.seen[READS] else (own.status, own.out, own.err)
    write = (4, b"", b"mrsim: write\n") if own.seen[WRITES] else (own.status, b"", own.err)
    ended = lambda wanted: lambda run: (run.status, run.out, run.err) == wanted
    run("the input is a pipe", lambda run: run == own)
    run("the input is closed", ended(read), stdin=subprocess.DEVNULL, closed=0)
    run("the output is closed", ended(write), closed=1)
    unsaid = lambda run: is_unsaid(own, run) and run.err == b"" if own.err else run == own
    run("standard error is closed", unsaid, closed=2)
    folder = os.open("/", os.O_RDONLY)
    full = os.open("/dev/full", os.O_WRONLY)
    unread, pipe = os.pipe()
    os.close(unread)
    run("the input is a folder", ended(read), stdin=folder)
    run("the output is a full disk", ended(write), stdout=full)
    run("the output is a pipe that nobody reads", ended(write), stdout=pipe)
    run("standard error is a full disk", unsaid, stderr=full)
    for it in (folder, full, pipe):
        os.close(it)


def most_reads(row, program, library, room):
    """2^25 reads are made, interrupted ones with them, and one more is answered; so is a write that is interrupted for good. Bytes may come one by one."""
    tally = Tally("most_reads")
    with Program([program, *row.words], library, f"{room}/most_reads", stack=STACK) as it:
        it.gives(row.input)
        own = it.run()
        for kind, says in ((READS, b"mrsim: read\n"), (WRITES, b"mrsim: write\n")):
            run = it.run(kind, errno.EINTR, first=1, last=EVERY, seconds=120)
            tally.count((run.status, run.out, run.err) == (4, b"", says), f"{row.name}, kind {kind}", run)
            tally.says += f"{run.seen[kind]} {'writes' if kind == WRITES else 'reads, '}"
        # one of those that are left gives the bytes, and the last finds the end
        run = it.run(READS, errno.EINTR, first=1, last=MOST_READS - own.seen[READS], seconds=120)
        tally.count(run == own, f"{row.name}, interrupted as often as may be", run)
        run = it.run(READS, errno.EINTR, first=1, last=MOST_READS - own.seen[READS] + 1, seconds=120)
        tally.count((run.status, run.out, run.err) == (4, b"", b"mrsim: read\n"), f"{row.name}, interrupted once more", run)
        it.gives(b"\n" * (1 << 20))
        run = it.run(READS, SHORT, first=1, last=EVERY, seconds=120)
        tally.count((run.status, run.out, run.err) == (0, b"", b""), "2^20 bytes, one a read", run)
    return tally
