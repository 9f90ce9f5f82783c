#!/bin/sh
# GNU parallel: four tasks at once, each tried up to three times, for an hour at most.
out=${1:-out/$(date +%F)}
mkdir -p "${out%/*}"
mrout begin "$out" --tasks 8 --again || exit
seq 0 7 | parallel --jobs 4 --retries 3 --timeout 3600 --joblog "$out.log" mrout-try "$out" {} ./work {}
mrout resume "$out" && mrout check "$out"
