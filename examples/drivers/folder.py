"""A store over a real folder: makes the calls that `mrsim step` asks for, and says what came of them.

A path `/out/x` is the file or folder ROOT/out/x. One driver at a time may use the folder; what two of them need beside
(a fence and barred attempts) such a folder doesn't have.
"""
import os
import shutil
from urllib.parse import quote_from_bytes, unquote_to_bytes


def no_room(place):
    """Why nothing can be made at a place, where the folder above it is at fault."""
    parent = os.path.dirname(place)
    if not os.path.lexists(parent):
        return "NoParent"
    if not os.path.isdir(parent):
        return "NotDir"
    return None


class Folder:
    def __init__(self, root):
        self.root = os.fsencode(root)

    def place(self, word):
        return self.root + unquote_to_bytes(word).rstrip(b"/")

    def call(self, line):
        """The answer to a call, both as lines without a line feed."""
        verb, *words = line.split(" ")
        try:
            return getattr(self, verb)(*words)
        except (FileNotFoundError, NotADirectoryError):
            return "Missing"

    def mkdirs(self, path):
        try:
            os.makedirs(self.place(path), exist_ok=True)
        except (FileExistsError, NotADirectoryError):
            return "NotDir"
        return "done"

    def create(self, path, closed=None):
        place = self.place(path)
        if os.path.lexists(place):
            return "Exists"
        if why := no_room(place):
            return why
        open(place, "xb").close()
        return "done"

    def delete(self, path):
        place = self.place(path)
        if place == self.root or not os.path.lexists(os.path.dirname(place)):
            return "NoParent"
        if os.path.isdir(place):
            shutil.rmtree(place)
        else:
            os.remove(place)
        return "done"

    def rename(self, source, target):
        source, target = self.place(source), self.place(target)
        if not os.path.lexists(source):
            return "Missing"
        if target == source or target.startswith(source + b"/"):
            return "IntoItself"
        if os.path.lexists(target):
            return "Exists"
        if why := no_room(target):
            return why
        os.rename(source, target)
        return "done"

    def list(self, path):
        place = self.place(path)
        if os.path.isfile(place):
            return "NotDir"
        words = ["entries"]
        for name in sorted(os.listdir(place)):
            is_folder = os.path.isdir(os.path.join(place, name))
            words.append(quote_from_bytes(name) + ("/" if is_folder else ""))
        return " ".join(words)

    def exists(self, path):
        place = self.place(path)
        if not os.path.lexists(place):
            return "nothing"
        return "a directory" if os.path.isdir(place) else "a file"

    def read(self, path):
        place = self.place(path)
        if os.path.isdir(place):
            return "NotFile"
        with open(place, "rb") as file:
            return "bytes " + quote_from_bytes(file.read())
