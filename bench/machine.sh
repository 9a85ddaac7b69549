#!/usr/bin/env bash
# Times the machine on a counting loop and on a loop of calls, and `java -Xint` beside it where there is one, and prints the
# instructions in a second and the ratio of the two. A time is the processor's, the difference between two lengths of a
# loop, so that no start counts, and the best of three. Needs the Rattle kit and Python 3.
set -eu
top=$(cd "$(dirname "${BASH_SOURCE[0]}")/.." && pwd)
work=$(mktemp -d)
trap 'rm -rf "$work"' EXIT

cd "$top/crates/class_runner"
echo 'building' >&2
rt run -- >"$work/build.log" 2>&1 </dev/null || true
program=$PWD/out/class_runner
[ -x "$program" ] || { tail -n 20 "$work/build.log" >&2; exit 1; }

loops=${1:-20000000}
calls=${2:-10000000}

# java makes so many times the turns, for it is faster and its start takes longer
more=5
classes() { mkdir "$1"; python3 "$top/bench/machine_classes.py" "$1" $(($2 * loops)) $(($2 * calls)); }
classes "$work/short" 1
classes "$work/long" 2
classes "$work/more" $((2 * more))

# the milliseconds of processor time of a command, the best of three
TIMEFORMAT=%3U
took() {
    local best= seconds
    for _ in 1 2 3; do
        seconds=$({ time "$@" >/dev/null 2>&1; } 2>&1)
        seconds=$((10#${seconds/[.,]/}))
        if [ -z "$best" ] || [ "$seconds" -lt "$best" ]; then best=$seconds; fi
    done
    echo "$best"
}

# the milliseconds by which one run takes longer than another, at least one
longer() { [ "$1" -gt "$2" ] && echo $(($1 - $2)) || echo 1; }
by_machine() { longer "$(took "$program" "$work/long/$1.class")" "$(took "$program" "$work/short/$1.class")"; }
by_java() { longer "$(took java -Xint -cp "$work/more" "$1")" "$(took java -Xint -cp "$work/short" "$1")"; }

echo 'loop      instructions/s  java -Xint      ratio'
# a class, and the instructions of so many turns as it makes in its short form
measure() {
    local own others
    own=$(($2 / $(by_machine "$1")))
    if command -v java >/dev/null; then
        others=$(($2 * (2 * more - 1) / $(by_java "$1")))
        printf '%-9s %11d K  %11d K  %5d %%\n' "$1" "$own" "$others" $((100 * own / others))
    else
        printf '%-9s %11d K\n' "$1" "$own"
    fi
}
# a turn of the first loop has 13 instructions, one of the second 18 with those of the method
measure Counting $((13 * loops))
measure Calling $((18 * calls))
