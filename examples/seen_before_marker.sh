#!/bin/sh
# Tells what a reader would have seen before the success marker: which files stood in /out when it was made.
#
# usage: mrsim play --json < run.play | examples/seen_before_marker.sh
#
# An object is a line, and its keys stand in the order of their letters, so that lines can be searched without a reader of JSON.
awk '
  !/^\{"answer":"(done|unanswered)"/ { next }
  match($0, /"call":"rename [^ "]* \/out\/[^\/"]*"/) {
    name = substr($0, RSTART, RLENGTH - 1)
    sub(/.*\//, "", name)
    if (name !~ /^[_.]/) seen[++n] = name
  }
  /"call":"create \/out\/_SUCCESS closed"/ {
    match($0, /"place":[0-9]+/)
    marker = substr($0, RSTART + 8, RLENGTH - 8)
    exit
  }
  END {
    print marker == "" ? "no marker" : "marker at event " marker
    for (i = 1; i <= n; i++) print seen[i] | "sort"
  }'
