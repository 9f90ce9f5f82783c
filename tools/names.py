"""A namespace in memory, which answers calls as lines. Nothing rests on it: `mrsim judge` judges what it answers.

tools/vectors makes the test vectors with it, and tools/judged makes stores of it that are wrong in one duty each.
"""

# The most entries, without the root (MAX_ENTRIES of mr_names).
MAX_ENTRIES = 65536


class Names:
    """The content is by path: None for a directory, the words of its bytes for a file."""

    def __init__(self):
        self.held, self.closed, self.fence, self.barred = {"/": None}, set(), 0, set()

    def parent(self, path):
        return path.rsplit("/", 1)[0] or "/"

    def beneath(self, path):
        return [p for p in self.held if p == path or p.startswith(path.rstrip("/") + "/")]

    def raise_to(self, generation):
        self.fence = max(self.fence, generation)

    def make(self, generation, whose, call):
        """The answer to a call of this generation for this attempt, or for none."""
        return self.unheard(generation, whose) or self.answer(call)

    def unheard(self, generation, whose):
        if generation < self.fence:
            return f"Superseded {self.fence}"
        return "Barred" if whose in self.barred else None

    def answer(self, call):
        verb, *words = call.split(" ")
        return getattr(self, verb)(*words)

    def no_room(self, path):
        above = self.parent(path)
        if above not in self.held:
            return "NoParent"
        return "NotDir" if self.held[above] is not None else None

    def is_full(self, more):
        return len(self.held) - 1 + more > MAX_ENTRIES

    def mkdirs(self, path):
        names = path.strip("/").split("/")
        down = ["/" + "/".join(names[: n + 1]) for n in range(len(names))]
        if any(self.held.get(p) is not None for p in down):
            return "NotDir"
        if self.is_full(sum(p not in self.held for p in down)):
            return "Full"
        for p in down:
            self.held.setdefault(p, None)
        return "done"

    def create(self, path, closed=None):
        if path in self.held:
            return "Exists"
        why = self.no_room(path) or ("Full" if self.is_full(1) else None)
        if not why:
            self.held[path] = ""
            if closed:
                self.closed.add(path)
        return why or "done"

    def not_open(self, path):
        if path not in self.held:
            return "Missing"
        if self.held[path] is None:
            return "NotFile"
        return "Closed" if path in self.closed else None

    def append(self, path, more):
        why = self.not_open(path)
        if not why:
            self.held[path] += more
        return why or "done"

    def close(self, path):
        why = self.not_open(path)
        self.closed.add(path)
        return why or "done"

    def delete(self, path):
        if path == "/" or self.parent(path) not in self.held:
            return "NoParent"
        if path not in self.held:
            return "Missing"
        for p in self.beneath(path):
            del self.held[p]
            self.closed.discard(p)
        return "done"

    def rename(self, source, target):
        if source not in self.held:
            return "Missing"
        if target in self.beneath(source) or (target + "/").startswith(source + "/"):
            return "IntoItself"
        if target in self.held:
            return "Exists"
        why = self.no_room(target)
        if why:
            return why
        self.move(source, target)
        return "done"

    def move(self, source, target):
        for p in self.beneath(source):
            to = target + p[len(source):]
            self.held[to] = self.held.pop(p)
            if p in self.closed:
                self.closed.remove(p)
                self.closed.add(to)

    def list(self, path):
        if path not in self.held:
            return "Missing"
        if self.held[path] is not None:
            return "NotDir"
        inside = sorted(p for p in self.held if p != "/" and self.parent(p) == path)
        return " ".join(["entries"] + [p.rsplit("/", 1)[1] + ("/" if self.held[p] is None else "") for p in inside])

    def exists(self, path):
        if path not in self.held:
            return "nothing"
        return "a directory" if self.held[path] is None else "a file"

    def read(self, path):
        if path not in self.held:
            return "Missing"
        return "NotFile" if self.held[path] is None else f"bytes {self.held[path]}"

    def bar(self, whose):
        self.barred.add(whose)
        return "done"
