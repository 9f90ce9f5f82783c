#!/usr/bin/env python3
"""Tells what a reader would have seen before the success marker: which files stood in /out when it was made.

usage: mrsim play --json < run.play | examples/seen_before_marker.py
"""
import json
import sys


def seen_name(path):
    """The name of a file that a reader of /out sees, if the path is one: directly beneath /out, and not hidden."""
    parent, _, name = path.rpartition("/")
    return name if parent == "/out" and not name.startswith(("_", ".")) else None


seen, marker = [], None
for line in sys.stdin:
    happened = json.loads(line)
    # An unanswered call was made, and nobody heard its answer.
    if happened.get("answer") not in ("done", "unanswered"):
        continue
    words = happened["call"].split(" ")
    if words[0] == "rename" and seen_name(words[2]):
        seen.append(seen_name(words[2]))
    if words[:2] == ["create", "/out/_SUCCESS"]:
        marker = happened["place"]
        break
print("no marker" if marker is None else f"marker at event {marker}")
for name in sorted(seen):
    print(name)
