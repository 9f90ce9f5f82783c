#!/usr/bin/env python3
"""Tests a committer with the vectors: try.py COMMAND.. runs `COMMAND.. OPERATION .. --generation K` for each, as `mrsim step`."""
import glob, json, os, subprocess, sys

for path in sorted(glob.glob(os.path.join(os.path.dirname(__file__), "*.jsonl"))):
    for vector in map(json.loads, open(path)):
        steps = [step for step in vector["steps"] if "call" in step]
        answers = "".join(step["answer"] + "\n" for step in steps)
        command = [*sys.argv[1:], *vector["operation"], "--generation", str(vector["generation"])]
        told = subprocess.run(command, input=answers, capture_output=True, text=True).stdout.splitlines()
        if told != [step["call"] for step in steps] + ([vector["end"]] if vector["end"] else []):
            sys.exit(f"{path}: {vector['name']}: {told}")
print("try.py: each vector passed")
