#!/bin/sh
# A job over a real folder, committed by `mrsim step`: 20 reduce tasks, a second attempt, and a crash of the driver.
#
# driver.sh MRSIM            crashes the driver before each store call in turn, and recovers; says how many runs there were. With FIRST=1 EVERY=2 in
#                            the environment before each second call, beginning with call 1, which takes half the time
# driver.sh MRSIM FOLDER     runs the job once, in this folder
#
# Needs a POSIX shell with mkfifo. Its names have no byte that is written %XX. The folder is of one driver at a time.
set -u
mrsim=$1
job=200707121733_0003
tasks=20

# The answer to a store call.
call() {
    verb=$1 path=$root$2
    case $verb in
        mkdirs) mkdir -p "$path" 2>/dev/null && echo done || echo NotDir ;;
        create)
            if [ -e "$path" ]; then echo Exists
            elif [ ! -e "${path%/*}" ]; then echo NoParent
            elif [ ! -d "${path%/*}" ]; then echo NotDir
            else : > "$path" && echo done
            fi ;;
        delete)
            if [ "$2" = / ] || [ ! -e "${path%/*}" ]; then echo NoParent
            elif [ ! -e "$path" ]; then echo Missing
            else rm -r "$path" && echo done
            fi ;;
        rename)
            to=$root$3
            if [ ! -e "$path" ]; then echo Missing
            elif [ -e "$to" ]; then echo Exists
            elif [ ! -e "${to%/*}" ]; then echo NoParent
            elif [ ! -d "${to%/*}" ]; then echo NotDir
            else mv "$path" "$to" && echo done
            fi ;;
        list)
            if [ -f "$path" ]; then echo NotDir
            elif [ ! -e "$path" ]; then echo Missing
            else
                printf entries
                for name in "$path"/*; do
                    if [ -d "$name" ]; then printf ' %s/' "${name##*/}"
                    elif [ -e "$name" ]; then printf ' %s' "${name##*/}"
                    fi
                done
                echo
            fi ;;
        exists)
            if [ -d "$path" ]; then echo "a directory"
            elif [ -e "$path" ]; then echo "a file"
            else echo nothing
            fi ;;
        *) echo "driver.sh: no call: $verb" >&2; exit 1 ;;
    esac
}

# Makes an operation of the committer, call by call. Status 0: finished; 1: refused, and `fault` says why; 9: the driver is gone, before store call number $crash.
step() {
    "$mrsim" step "$@" --generation "$generation" < "$work/answers" > "$work/calls" 2> /dev/null &
    exec 3> "$work/answers" 4< "$work/calls"
    told=8
    while [ $told = 8 ] && read -r line <&4; do
        case $line in
            finished) told=0 ;;
            fault\ *) fault=${line#fault } told=1 ;;
            *)
                if [ "$calls" = "$crash" ]; then
                    told=9
                else
                    calls=$((calls + 1))
                    # (the words of a call are words of the shell)
                    # shellcheck disable=SC2086
                    call $line >&3
                fi ;;
        esac
    done
    exec 3>&- 4<&-
    wait
    return $told
}

# The number of a task in its name: six digits.
digits() { if [ "$1" -lt 10 ]; then digits=00000$1; else digits=0000$1; fi; }

# An attempt writes its part file. Who writes it doesn't matter here.
write() {
    folder=$root/out/_temporary/$generation/_temporary/attempt_${job}_r_$1_$2
    mkdir -p "$folder"
    echo "the output of task $1" > "$folder/part-r-${1#0}"
}

# The job, as this generation of its master.
run() {
    generation=$1 crash=$2 calls=0
    first=$((1000 * (generation - 1)))
    step setup-job || return
    n=0
    while [ $n -lt $tasks ]; do
        digits $n
        step recover-task "task_${job}_r_$digits"
        case $? in
            0) n=$((n + 1)); continue ;;
            1) [ "$fault" = OutputMissing ] || return 1 ;;
            *) return 9 ;;
        esac
        write "$digits" $first
        # a second attempt at one task, which has to yield
        if [ $n = 7 ]; then write "$digits" $((first + 1)); fi
        step commit-task "attempt_${job}_r_${digits}_$first" || return
        if [ $n = 7 ]; then step abort-task "attempt_${job}_r_${digits}_$((first + 1))" || return; fi
        n=$((n + 1))
    done
    step commit-job
}

# Whether the marker and each task's file are there, whole, and nothing else.
is_right() {
    set -- "$root"/out/*
    [ $# -eq $((tasks + 1)) ] && [ -e "$root/out/_SUCCESS" ] && [ ! -s "$root/out/_SUCCESS" ] || return 1
    n=0
    while [ $n -lt $tasks ]; do
        digits $n
        # one line, and no other one behind it
        { read -r line && ! read -r more; } < "$root/out/part-r-${digits#0}" || return 1
        [ "$line" = "the output of task $digits" ] && [ -z "$more" ] || return 1
        n=$((n + 1))
    done
}

work=$(mktemp -d)
trap 'rm -rf "$work"' EXIT
mkfifo "$work/answers" "$work/calls"
if [ $# -eq 2 ]; then
    root=$2
    run 1 none
    exit
fi
root=$work/root
runs=0 call=${FIRST:-0} crashed=yes
while [ $crashed = yes ]; do
    rm -rf "$root"
    mkdir "$root"
    crashed=no
    run 1 "$call"
    told=$?
    if [ $told = 9 ]; then
        crashed=yes
        # Where the marker is there the job is done; else the next generation goes on.
        [ -e "$root/out/_SUCCESS" ] || run 2 none
        told=$?
    fi
    if [ $told != 0 ] || ! is_right; then
        echo "driver.sh: wrong output after a crash before call $call" >&2
        exit 1
    fi
    runs=$((runs + 1)) call=$((call + ${EVERY:-1}))
done
echo "driver.sh: $runs runs, each with the whole output"
