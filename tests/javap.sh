#!/usr/bin/env bash
# Lets javap read what the writer of class files writes: each sample class of crates/class_copy is read and written again, and javap
# has to list the copy, as it lists the sample where both have the same bytes. Skipped where javap is missing. Needs the Rattle kit.
set -eu
top=$(cd "$(dirname "${BASH_SOURCE[0]}")/.." && pwd)
if ! command -v javap >/dev/null; then
    echo 'skipped: there is no javap'
    exit 0
fi
work=$(mktemp -d)
trap 'rm -rf "$work"' EXIT

crate=$top/crates/class_copy
(cd "$crate" && rt run --) >"$work/build.log" 2>&1 </dev/null || true
program=$crate/out/class_copy
[ -x "$program" ] || { tail -n 20 "$work/build.log" >&2; exit 1; }

mkdir "$work/samples" "$work/copies"
cp "$crate"/data/*.class "$work/samples"
(cd "$work/samples" && "$program" *.class) >"$work/told"
for copy in "$work"/samples/*.copy; do
    mv "$copy" "$work/copies/$(basename "$copy" .copy)"
done

# without the lines that tell the file's own path, time, length and sum
listing() { javap -v -p "$1" 2>"$2.errors" | grep -v -e '^Classfile ' -e '^  Last modified ' -e '^  SHA-256 checksum ' -e '^  MD5 checksum ' >"$2"; }

failed=0
count=0
for copy in "$work"/copies/*.class; do
    name=$(basename "$copy")
    count=$((count + 1))
    if ! listing "$copy" "$work/copy" || [ ! -s "$work/copy" ]; then
        echo "FAILED $name: javap does not read the copy"
        cat "$work/copy.errors"
        failed=1
    elif cmp -s "$copy" "$work/samples/$name"; then
        listing "$work/samples/$name" "$work/sample" && cmp -s "$work/copy" "$work/sample" || { echo "FAILED $name: the copy is listed otherwise"; failed=1; }
    fi
done
[ "$count" -gt 0 ] || { echo 'FAILED: no class was written'; failed=1; }
[ "$failed" -eq 0 ] && echo "javap reads each of $count classes"
exit "$failed"
