"""Man pages and completions of a program, made from what its --help says. tools/package uses it.

A program's help is clap's: a line of what it does, `Usage:`, then `Arguments:`, `Commands:` and
`Options:`, then text of its own. In that text lines that are set in by two columns are a list (a
word, two blanks or more, what it is), or what is typed and printed: that behind a line which names
an example. A script's help is argparse's, or a line `NAME WORDS: what it does`, and then text.
"""
import os
import re
import subprocess


class Fail(Exception):
    """Why something can't be made."""


def printed(program, *words):
    """What a program prints. It may say nothing, and has to end with 0. A script wraps no line."""
    ran = subprocess.run([program, *words], capture_output=True, text=True, stdin=subprocess.DEVNULL, env={**os.environ, "COLUMNS": "1000"}, check=False)
    if ran.returncode or ran.stderr:
        raise Fail(f"{program} {' '.join(words)}: status {ran.returncode}: {ran.stderr.strip()}")
    return ran.stdout


class Option:
    """An option, as a completion needs it."""

    def __init__(self, words, what):
        self.words, self.what = words, what
        self.short = next(iter(re.findall(r"(?<!\S)-([a-zA-Z])\b", words)), None)
        self.long = next(iter(re.findall(r"--([a-z][a-z-]*)", words)), None)
        self.value = next(iter(re.findall(r"<([^>]+)>", words)), None)
        values = re.search(r" *\[possible values: ([^\]]+)\]", what)
        self.values = values[1].split(", ") if values else []
        self.about = what.replace(values[0], "") if values else what
        if not self.about or self.value and self.value != self.value.upper():
            raise Fail(f"the help has a gap at {words}")


class Help:
    """One text of help, taken apart."""

    PARTS = ("Arguments:", "Options:", "Commands:")

    def __init__(self, text):
        self.lists = {part: [] for part in self.PARTS}
        self.usage, self.text = [], []
        lines = text.rstrip("\n").split("\n")
        self.about, part = lines[0], None
        for line in lines[1:]:
            if line.startswith("Usage: "):
                self.usage.append(line.removeprefix("Usage: "))
            elif line in self.lists and not self.text:
                part = line
            elif part and line.startswith("  ") and not self.text:
                word, _, what = line.strip().partition("  ")
                self.lists[part].append((word.strip(), what.strip()))
            elif line or self.text:
                self.text.append(line)
        if not self.usage or not self.about:
            raise Fail(f"not a text of help: {text[:80]!r}")
        self.arguments, self.commands = self.lists["Arguments:"], self.lists["Commands:"]
        self.options = [Option(*it) for it in self.lists["Options:"]]
        gaps = [word for word, what in self.arguments + self.commands if not what]
        if gaps:
            raise Fail(f"the help has a gap at {', '.join(gaps)}")


def helps_of(program, path):
    """A program's own help, and that of each of its subcommands by name."""
    top = Help(printed(path, "--help"))
    return top, {name: Help(printed(path, name, "--help")) for name, _ in top.commands if name != "help"}


def help_of_script(path):
    """The help of a script, in the form of clap."""
    text = printed(path, "--help")
    if not text.startswith("usage: "):
        usage, _, rest = text.partition(": ")
        about, _, rest = rest.partition("\n")
        return Help(f"{about}\n\nUsage: {usage}\n\n{rest.strip()}\n")
    usage, about, rest = text.removeprefix("usage: ").split("\n\n", 2)
    lists, _, rest = re.sub(r"\n {20,}", "  ", rest).partition("\n\nCOMMAND ")
    lists = lists.replace("positional arguments:", "Arguments:").replace("options:", "Options:")
    lists = re.sub(r"^(  --[\w-]+) \{(\S+)\}(.*)$", lambda it: f"{it[1]} <WHERE>{it[3]} [possible values: {it[2].replace(',', ', ')}]", lists, flags=re.M)
    lists = re.sub(r"^(  --[\w-]+) ([A-Z]+)\b", r"\1 <\2>", lists, flags=re.M)
    return Help(f"{about[0].upper()}{about[1:]}\n\nUsage: {usage}\n\n{lists}\n\nCOMMAND {rest}")


# Man pages.

SIGNS = {"\\": "\\e", "-": "\\-", "'": "\\(aq", "`": "\\(ga", "^": "\\(ha", "~": "\\(ti"}


def escaped(text):
    """A text as roff takes it. No line of it begins as a request does."""
    out = "".join(SIGNS.get(sign, sign) for sign in text)
    return "\\&" + out if out.startswith(".") else out


def prose(text):
    """A line of text. What stands between back quotes comes out bold."""
    parts = re.split(r"`([^`\n]+)`", text)
    out = "".join(f"\\fB{escaped(it)}\\fR" if odd % 2 else escaped(it).removeprefix("\\&") for odd, it in enumerate(parts))
    return "\\&" + out if out.startswith(".") else out


def is_shown(line):
    """Whether what is set in behind this line is typed or printed, and no list."""
    return bool(re.search(r"^(Examples?|As JSON|A picture)\b|\bprints\b[^.]*$|^and |\bthis (draws|tells)\b|\bis repeated:$|` prints$", line))


def row_of(line):
    """The word of a row of a list, and what it is."""
    return re.match(r"  (\S.*?) {2,}(\S.*)$", line)


def set_in(lines, shown):
    """Lines that are set in: a list, or what is typed and printed."""
    rows = [row_of(it) for it in lines]
    if shown or not rows[0]:
        return [".RS 4", ".EX", *[escaped(it[2:]) for it in lines], ".EE", ".RE"]
    out = []
    for line, row in zip(lines, rows):
        out += [".TP", f"\\fB{escaped(row[1])}\\fR", prose(row[2])] if row and not line.startswith("   ") else [prose(line.strip())]
    return out


HEADS = {"Statuses": "EXIT STATUS", "Exit status": "EXIT STATUS", "Operations": "OPERATIONS", "Example": "EXAMPLE", "Examples": "EXAMPLES"}


def body(lines):
    """The text behind the lists."""
    out, at, shown, began = [], 0, False, True
    while at < len(lines):
        line = lines[at]
        end = at
        while end < len(lines) and lines[end].startswith("  "):
            end += 1
        if end > at:
            out += set_in(lines[at:end], shown)
            at, began = end, True
            continue
        at += 1
        head = re.match(r"(\w+(?: status)?)(:|,)", line)
        if not line:
            began = True
        elif began and re.match(r"0: ", line):
            out += [".SH EXIT STATUS", prose(line)]
            began = False
        elif head and head[1] in HEADS:
            out.append(f".SH {HEADS[head[1]]}")
            rest = line[len(head[0]):].strip()
            out += [prose(rest[:1].upper() + rest[1:])] if rest else []
            began = False
        else:
            out += [".PP"] if began and out and not out[-1].startswith(".SH") else []
            out.append(prose(line))
            began = False
        shown = is_shown(line) or shown and line.endswith("prints")
    return out


def option_words(words):
    """The words of an option: itself bold, its value in italics."""
    out = re.sub(r"(--?[a-zA-Z][a-z-]*)", lambda it: f"\\fB{escaped(it[1])}\\fR", words)
    return re.sub(r"<([^>]+)>", lambda it: f"\\fI{escaped(it[1])}\\fR", out)


def page(words, text, version, date, also):
    """The man page of a command, as `mrout begin`. Others that it names are pages too."""
    name, program = words.replace(" ", "-"), words.split(" ")[0]
    about = text.about[0].lower() + text.about[1:].rstrip(".")
    out = [f'.TH {name.upper()} 1 "{date}" "{program} {version}" "User Commands"', ".SH NAME", f"{escaped(name)} \\- {prose(about)}", ".SH SYNOPSIS"]
    for usage in text.usage:
        rest = usage.split(" ", 1)[1].removeprefix(words.partition(" ")[2]).strip()
        out += [".nh", f"\\fB{escaped(words)}\\fR {escaped(rest)}", ".hy"]
    lists = [("ARGUMENTS", [(f"\\fI{escaped(word.strip('<>[].'))}\\fR", what) for word, what in text.arguments])]
    lists += [("COMMANDS", [(f"\\fB{escaped(word)}\\fR", command(program, word, what)) for word, what in text.commands])]
    lists += [("OPTIONS", [(option_words(it.words), it.what) for it in text.options])]
    for head, rows in lists:
        out += [f".SH {head}"] if rows else []
        for word, what in rows:
            out += [".TP", word, prose(what)]
    tail = body(text.text)
    out += [".SH DESCRIPTION"] if tail and not tail[0].startswith(".SH") else []
    seen = [f"\\fB{escaped(it)}\\fR(1)" for it in also if it != name]
    return "\n".join(out + tail + [".SH SEE ALSO", ",\n".join(seen)]) + "\n"


def command(program, word, what):
    return what if word == "help" else f"{what} (see `{program}-{word}`(1))"


def pages(programs, scripts, version, date):
    """The man pages by name: of programs (name, path) with their subcommands, and of scripts (name, path)."""
    out = {}
    for name, path in programs:
        top, helps = helps_of(name, path)
        others = [it for it, _ in [*programs, *scripts]]
        out[name] = page(name, top, version, date, [*[f"{name}-{it}" for it in helps], *others])
        for word, text in helps.items():
            out[f"{name}-{word}"] = page(f"{name} {word}", text, version, date, [name])
    for name, path in scripts:
        out[name] = page(name, help_of_script(path), version, date, [it for it, _ in [*programs, *scripts]])
    return out
