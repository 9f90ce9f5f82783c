"""Tries what tools/package made as a user would: in an empty root, without the toolchain.

`tools/package --test` calls it. Each check prints a line `ok NAME`, or `FAILED NAME: WHY`; what the
machine lacks is named, and that check left out.
"""
import contextlib
import functools
import glob
import io
import lzma
import os
import re
import shutil
import subprocess
import tarfile

import manual
from manual import Fail

# What a user's shell has: for the examples of the pages.
TOOLS = ["sh", "cat", "cmp", "chmod", "dirname", "env", "kill", "ls", "readlink", "rm", "seq", "xargs"]

# A job of eight tasks. The third try kills its own mrout-try, which leaves an attempt under way.
JOB = r"""
cat > work << 'WORK'
#!/bin/sh
if [ "$1" = 3 ] && [ ! -e killed ]; then : > killed; kill -9 "$PPID"; exit 1; fi
echo "part $1"
WORK
chmod +x work
tries() { seq 0 7 | xargs -P 4 -I{} mrout-try out {} ./work {} > told 2> said; }
mrout begin out --tasks 8 --again
if tries; then echo "nothing was killed"; exit 1; fi
if mrout check out --quiet; then echo "published without task 3"; exit 1; fi
mrout begin out --tasks 8 --again
tries || { cat said; exit 1; }
mrout resume out
mrout check out
cat out/part-r-*
"""
JOB_PRINTS = "yes: out\n"
JOB_OF_RUN = r"""
PATH=PROGRAMS:$PATH
cat > work << 'WORK'
#!/bin/sh
if [ "$1" = 3 ] && [ ! -e killed ]; then : > killed; kill -9 "$PPID"; exit 1; fi
echo "part $1"
WORK
chmod +x work
if mrout-run out --tasks 8 --jobs 2 -- ./work {} 2> said; then echo "nothing was killed"; exit 1; fi
mrout-run out --tasks 8 --jobs 2 -- ./work {} 2> said || { cat said; exit 1; }
mrout check out
cat out/part-r-*
"""
JOB_FILES = "".join(f"part {it}\n" for it in range(8))

# The kinds of examples: the words, and how input and output are named.
EXAMPLES = [
    ("committer", ".script", ".listing"), ("committer --trace", ".script", ".calls"), ("history", ".segment", ".records"), ("seq", ".job", ".files"),
    ("threads", ".job", ".files"), ("play", ".play", ".played"), ("play --trace", ".play", ".traced"), ("play --json", ".play", ".json"), ("play --tree", ".play", ".tree"),
]


class Root:
    """A root folder with a package in it, and what a program needs that runs there."""

    def __init__(self, folder, programs, doc):
        self.folder, self.programs, self.doc = folder, programs, doc
        for name in ("bin", "home", "dev", "tmp"):
            os.makedirs(f"{folder}/{name}", exist_ok=True)
        open(f"{folder}/dev/null", "w").close()

    def put(self, path):
        """Copies a file of this system to where it lies."""
        target = f"{self.folder}{path}"
        os.makedirs(os.path.dirname(target), exist_ok=True)
        shutil.copy(path, target)

    def put_shell(self):
        """A shell and the tools: busybox, if it needs no library, else those of this system with theirs."""
        busybox = shutil.which("busybox")
        if busybox and not libraries(busybox):
            shutil.copy(busybox, f"{self.folder}/bin/busybox")
            for name in TOOLS:
                os.symlink("busybox", f"{self.folder}/bin/{name}")
            return "busybox"
        for path in filter(None, map(shutil.which, TOOLS)):
            shutil.copy(path, f"{self.folder}/bin/{os.path.basename(path)}")
            for library in libraries(path):
                self.put(library)
        return "this system's shell"

    def run(self, words, stdin=None, cwd="/home"):
        """What a command prints there, and its status."""
        path = f"{self.programs}:/bin"
        inside = ["/bin/sh", "-c", 'cd "$1" && shift && exec "$@"', "", cwd, *words]
        done = subprocess.run([*entry(self.folder), "/bin/env", "-i", f"PATH={path}", *inside], stdin=stdin or subprocess.DEVNULL, capture_output=True, check=False)
        return done.returncode, done.stdout.decode(), done.stderr.decode()


def libraries(path):
    """The libraries that a program of this system loads."""
    return re.findall(r"(?:=> |^\s*)(/\S+) \(", subprocess.run(["ldd", path], capture_output=True, text=True, check=False).stdout, re.M)


@functools.cache
def entry(folder):
    """How a command is started in a root of its own: as root, or in a name space of one's own."""
    for words in (["chroot"], ["unshare", "-r", "chroot"]):
        with contextlib.suppress(OSError):
            if not subprocess.run([*words, folder, "/bin/env"], capture_output=True, check=False).returncode:
                return [*words, folder]
    raise Lacks("neither root nor name spaces of users: no root of its own")


def extract(path, folder):
    """Unpacks a Debian package by its format: an ar file with a tar. dpkg-deb, if there is one, reads it too."""
    if dpkg := shutil.which("dpkg-deb"):
        subprocess.run([dpkg, "--info", path], stdout=subprocess.DEVNULL, check=True)
    with open(path, "rb") as file:
        data = file.read()
    at = data.index(b"data.tar.xz")
    inner = lzma.decompress(data[at + 60:at + 60 + int(data[at + 48:at + 58])])
    with tarfile.open(fileobj=io.BytesIO(inner)) as files:
        files.extractall(folder)


class Lacks(Exception):
    """What the machine has not, which a check needs."""


class Checks:
    def __init__(self):
        self.passed = self.failed = 0

    def run(self, name, check, *words):
        try:
            check(*words)
        except Lacks as what:
            print(f"left out {name}: there is no {what}")
        except (Fail, OSError, subprocess.SubprocessError, tarfile.TarError) as why:
            self.failed += 1
            print(f"FAILED {name}: {str(why)[:2000]}")
        else:
            self.passed += 1
            print(f"ok {name}")


def demand(holds, why):
    if not holds:
        raise Fail(why)


def tool(name, package=None):
    """The path of a program of this system."""
    if path := shutil.which(name):
        return path
    raise Lacks(f"{name}" + (f" (package {package})" if package else ""))


def silent(*words, what=None):
    """A tool that says nothing where all is well."""
    done = subprocess.run(words, capture_output=True, text=True, check=False)
    demand(not done.returncode and not done.stdout and not done.stderr, f"{what or words[0]}: {(done.stdout + done.stderr)[:1500] or done.returncode}")


def same_bytes(made, source, maker):
    """They come out alike in another time zone, under another mask, whoever packs."""
    old = os.umask(0o077)
    zone = os.environ.get("TZ")
    os.environ["TZ"] = "Pacific/Auckland"
    try:
        again = dict([maker.debian(source), maker.portable(source)])
    finally:
        os.umask(old)
        os.environ.pop("TZ")
        if zone is not None:
            os.environ["TZ"] = zone
    for name, data in again.items():
        demand(made[name] == data, f"{name} differs when it is packed again")


def sums(folder, made):
    silent("sh", "-c", 'cd "$1" && sha256sum --quiet --strict -c SHA256SUMS', "", folder)
    demand(len(made) == 3, "not three files")


def builds(root, build):
    """BUILD is a file of sums, too."""
    silent("sh", "-c", 'cd "$1" && sha256sum --quiet --strict -c "$2"', "", root, build)


def needs(root, maker):
    """The programs load the C library, and nothing else."""
    for path in glob.glob(f"{root}/usr/bin/mr*"):
        if open(path, "rb").read(4) == b"\x7fELF":
            needed = re.findall(r"NEEDED +(\S+)", maker.ran("objdump", "-p", path))
            demand(needed == ["libc.so.6"], f"{path} needs {needed}")


def no_paths(roots, maker):
    """No file names a folder of the machine that built it."""
    kit = shutil.which("rt")
    own = [maker.TOP.encode() + b"/"] + ([os.path.dirname(os.path.dirname(os.path.realpath(kit))).encode() + b"/"] if kit else [])
    for root in roots:
        for folder, _, names in os.walk(root):
            for path in (f"{folder}/{it}" for it in names):
                data = open(path, "rb").read() if os.path.isfile(path) and not os.path.islink(path) else b""
                found = [it for it in own if it in data]
                if data[:4] == b"\x7fELF" and os.path.basename(path) in maker.PROGRAMS:
                    found += re.findall(rb"(?<![\w./-])/(?:tmp|work|home|root|build|opt)/[\x21-\x7e]+", data)
                demand(not found, f"{path} names {found[:3]}")


def links(root):
    """Each link of a page leads to a file that is there."""
    for page in glob.glob(f"{root}/**/*.md", recursive=True):
        text = re.sub(r"^```.*?^```$", "", open(page, encoding="utf-8").read(), flags=re.S | re.M)
        for target in re.findall(r"\]\(([^)\s#]+)[^)]*\)", text):
            if not re.match(r"[a-z]+:", target):
                demand(os.path.exists(os.path.join(os.path.dirname(page), target)), f"{page}: {target}")


def shown(readme):
    """The commands of README's section Run it, each with what it shows that they print."""
    text = open(readme, encoding="utf-8").read().partition("\n## Run it\n")[2].partition("\n## ")[0]
    blocks = re.findall(r"^```(\w*)\n(.*?)^```$", text, re.S | re.M)
    commands = [it for kind, lines in blocks if kind == "sh" for it in lines.splitlines()]
    prints = [lines for kind, lines in blocks if not kind]
    demand(commands and len(commands) == len(prints), f"README shows {len(commands)} commands, and what {len(prints)} print")
    return zip(commands, prints)


def readme(root):
    for command, prints in shown(f"{root.folder}{root.doc}/README.md"):
        status, out, err = root.run(command.split(), cwd=root.doc)
        demand((status, out, err) == (0, prints, ""), f"{command}: status {status}: {out}{err}")


def examples(root):
    folder, count = f"{root.folder}{root.doc}/examples", 0
    for words, before, after in EXAMPLES:
        for wanted in sorted(glob.glob(f"{folder}/*{after}")):
            given = wanted.removesuffix(after) + before
            if os.path.isfile(given):
                with open(given, "rb") as file:
                    out = root.run(["mrsim", *words.split()], stdin=file)[1]
                demand(out == open(wanted, encoding="utf-8").read(), f"mrsim {words} < {os.path.basename(given)} prints something else")
                count += 1
    demand(count >= 80, f"only {count} examples")


def helps(root, maker):
    """Each --help is there, and the same of which the man pages were made."""
    for name, path in maker.PROGRAMS.items():
        _, commands = manual.helps_of(name, os.path.join(maker.TOP, path))
        for words in [[name], *[[name, it] for it in commands]]:
            status, out, err = root.run([*words, "--help"])
            wanted = manual.printed(os.path.join(maker.TOP, path), *words[1:], "--help")
            demand((status, out, err) == (0, wanted, ""), f"{' '.join(words)} --help: status {status}: {out[:200]}{err}")
    demand(root.run(["mrout-try", "--help"])[0] == 0, "mrout-try --help")


def versions(root, maker, source):
    for name in maker.PROGRAMS:
        told = root.run([name, "--version"])
        demand(told == (0, f"{name} {source.version.removesuffix('~trial')}\n", ""), f"{name} --version: {told}")


def job(root):
    status, out, err = root.run(["sh", "-e", "-c", JOB])
    demand(status == 0 and out.startswith(JOB_PRINTS) and out.endswith(JOB_FILES), f"status {status}: {out}{err}")


def job_in_python(folder, programs):
    """The same job by mrout-run, which needs Python: outside of the root. A try kills it, and the same line goes on."""
    tool("python3")
    script = JOB_OF_RUN.replace("PROGRAMS", programs)
    done = subprocess.run(["sh", "-e", "-c", script], capture_output=True, text=True, cwd=folder, check=False)
    demand(done.returncode == 0 and done.stdout.endswith(JOB_FILES), f"status {done.returncode}: {done.stdout}{done.stderr}")


def own_library(root, maker):
    """The archive's programs load the C library that lies next to them."""
    for name in maker.PROGRAMS:
        inside = f"{root.programs.removesuffix('/bin')}/{maker.LIBRARY}"
        loader = next(os.path.basename(it) for it in glob.glob(f"{root.folder}{inside}/ld-linux*"))
        _, out, err = root.run([f"{inside}/{loader}", "--library-path", inside, "--list", f"{inside}/{name}"])
        demand(f"libc.so.6 => {inside}/libc.so.6 " in out, f"{name}: {out}{err}")


def man_pages(root, maker, source):
    pages = sorted(glob.glob(f"{root}/share/man/man1/*.1"))
    names = {os.path.basename(it).removesuffix(".1") for it in pages}
    for name, path in maker.PROGRAMS.items():
        top = manual.Help(manual.printed(os.path.join(maker.TOP, path), "--help"))
        wanted = {name, *[f"{name}-{it}" for it, _ in top.commands if it != "help"]}
        demand(wanted <= names, f"no page of {wanted - names}")
    demand(set(maker.SCRIPTS) <= names, f"no page of {set(maker.SCRIPTS) - names}")
    silent(tool("mandoc", "mandoc"), "-Tlint", "-W", "warning", *pages)


def completed(file, words):
    """What bash offers for the last of these words."""
    line = " ".join(f"'{it}'" for it in words)
    script = f'. "$1"; COMP_WORDS=({line}); COMP_CWORD={len(words) - 1}; _{words[0].replace("-", "_")}; echo "${{COMPREPLY[*]}}"'
    return subprocess.run([tool("bash"), "-c", script, "", file], capture_output=True, text=True, check=True).stdout.strip()


def bash_completions(root):
    folder = f"{root}/share/bash-completion/completions"
    for words, wanted in [(["mrsim", "pl"], "play"), (["mrout", "check", "--store", ""], "local hdfs object"), (["mrout", "begin", "--ag"], "--again"), (["mrsim", "help", "s"], "seq step"),
                          (["mrout-run", "out", "--stdout", "n"], "none")]:
        found = completed(f"{folder}/{words[0]}", words)
        demand(found == wanted, f"{words}: {found}")


def vectors(root):
    """The vectors in Python, with the archive's program, outside of the root."""
    done = subprocess.run([tool("python3"), f"{root}/share/doc/vangcherry/examples/vectors/try.py", f"{root}/bin/mrsim", "step"], capture_output=True, text=True, check=False)
    demand(done.returncode == 0, done.stdout[-500:] + done.stderr[-500:])


class Gate:
    """A small repository in a folder of its own, and what a gate that passed wrote there."""

    def __init__(self, folder, maker):
        self.folder, self.maker = folder, maker
        for path in maker.PROGRAMS.values():
            os.makedirs(f"{folder}/{os.path.dirname(path)}")
            shutil.copy(f"{maker.TOP}/{path}", f"{folder}/{path}")
        for path in (".gitignore", "CHANGELOG.md"):
            shutil.copy(f"{maker.TOP}/{path}", f"{folder}/{path}")
        self.git("init", "-q")
        self.git("add", "-A")
        self.commit()
        self.passed()

    def git(self, *words):
        silent("git", "-C", self.folder, "-c", "user.name=x", "-c", "user.email=x@example.org", *words)

    def commit(self):
        self.git("commit", "-q", "--allow-empty", "-m", "x")

    def passed(self):
        programs = list(self.maker.PROGRAMS.values())
        paths = [*programs, *sorted({library for it in programs for library in libraries(f"{self.folder}/{it}")})]
        script = 'cd "$1" && mkdir -p out && shift && { echo "# commit $(git rev-parse HEAD)"; sha256sum "$@"; } > out/passed'
        silent("sh", "-c", script, "", self.folder, *paths)

    def answer(self):
        """What tools/package says there; nothing where it takes the programs."""
        own, self.maker.TOP = self.maker.TOP, self.folder
        try:
            self.maker.passed()
        except Fail as why:
            return str(why)
        finally:
            self.maker.TOP = own
        return ""


def refusals(folder, maker):
    """No other programs are taken than those that passed, of the commit that passed."""
    tool("git", "git")
    gate = Gate(folder, maker)
    demand(gate.answer() == "", f"what passed is refused: {gate.answer()}")
    program = maker.PROGRAMS["mrout"]
    with open(f"{folder}/{program}", "ab") as file:
        file.write(b"x")
    demand(gate.answer() == f"{program} is not the one that passed: run .ci/run", f"another program: {gate.answer()}")
    gate.passed()
    with open(f"{folder}/CHANGELOG.md", "a", encoding="utf-8") as file:
        file.write("x")
    demand("has changes" in gate.answer(), f"a changed tree: {gate.answer()}")
    gate.git("checkout", "-q", "CHANGELOG.md")
    gate.commit()
    demand("another one is checked out" in gate.answer(), f"another commit: {gate.answer()}")
    os.remove(f"{folder}/out/passed")
    demand(gate.answer() == "no gate passed here: run .ci/run", f"no gate: {gate.answer()}")


def in_root(checks, kind, root, maker, source):
    checks.run(f"{kind}: README's examples", readme, root)
    checks.run(f"{kind}: all examples", examples, root)
    checks.run(f"{kind}: each --help", helps, root, maker)
    checks.run(f"{kind}: --version", versions, root, maker, source)
    checks.run(f"{kind}: a job of mrout with a kill", job, root)


def test(room, made, source, maker):
    """How many checks passed, and how many failed."""
    checks = Checks()
    deb, archive = (next(it for it in made if it.endswith(end)) for end in (".deb", ".tar.gz"))
    name = archive.removesuffix(".tar.gz")
    installed, unpacked = Root(f"{room}/installed", "/usr/bin", f"/usr/{maker.DOC}"), Root(f"{room}/unpacked", f"/{name}/bin", f"/{name}/{maker.DOC}")
    with tarfile.open(f"{room}/made/{archive}") as files:
        files.extractall(unpacked.folder)
    extract(f"{room}/made/{deb}", installed.folder)
    for library in source.libraries.values():
        installed.put(library)
    top = f"{unpacked.folder}/{name}"
    checks.run("only what a gate passed is packed", refusals, f"{room}/gate", maker)
    checks.run("the same bytes again", same_bytes, made, source, maker)
    checks.run("SHA256SUMS", sums, f"{room}/made", made)
    checks.run("BUILD, installed", builds, installed.folder, f"usr/{maker.DOC}/BUILD")
    checks.run("BUILD, unpacked", builds, top, "BUILD")
    checks.run("needs the C library alone", needs, installed.folder, maker)
    checks.run("no path of this machine", no_paths, [f"{installed.folder}/usr", top], maker)
    checks.run("links of the pages, installed", links, f"{installed.folder}/usr")
    checks.run("links of the pages, unpacked", links, top)
    print(f"the roots have {installed.put_shell()}; {unpacked.put_shell()}")
    in_root(checks, "installed", installed, maker, source)
    in_root(checks, "unpacked", unpacked, maker, source)
    checks.run("unpacked: its own C library", own_library, unpacked, maker)
    os.makedirs(f"{room}/run")
    checks.run("unpacked: a job of mrout-run with a kill", job_in_python, f"{room}/run", f"{top}/bin")
    checks.run("vectors", vectors, top)
    checks.run("man pages", man_pages, top, maker, source)
    checks.run("completions of bash", bash_completions, top)
    for shell, files in (("zsh", "zsh/site-functions/_*"), ("fish", "fish/vendor_completions.d/*")):
        checks.run(f"completions of {shell}", lambda: [silent(tool(shell), "-n", it) for it in glob.glob(f"{top}/share/{files}")])
    checks.run("lintian", lambda: silent(tool("lintian"), "--fail-on", "error,warning", "--allow-root", f"{room}/made/{deb}"))
    return checks.passed, checks.failed
