#!/usr/bin/env bash
# Times the reader and the writer of class files on generated classes of growing size, by the program of crates/class_copy, and prints
# the seconds and how they grow when the class doubles: methods with long code, then methods whose many frames all have many locals,
# which the bytes spell once, then methods whose frames name a class with a long name many times, for which the program gets 512 MiB.
# A class with a byte behind its end is read whole and then refused, which is the time of reading alone.
# Needs the Rattle kit.
set -eu
top=$(cd "$(dirname "${BASH_SOURCE[0]}")/.." && pwd)
work=$(mktemp -d)
trap 'rm -rf "$work"' EXIT

crate=$top/crates/class_copy
echo 'building' >&2
(cd "$crate" && rt run --) >"$work/build.log" 2>&1 </dev/null || true
program=$crate/out/class_copy
[ -x "$program" ] || { tail -n 20 "$work/build.log" >&2; exit 1; }

u2() { printf "\\x$(printf %02x $(($1 / 256)))\\x$(printf %02x $(($1 % 256)))"; }
u4() { u2 $(($1 / 65536)); u2 $(($1 % 65536)); }
text() { printf '\x01'; u2 ${#1}; printf %s "$1"; }

# the head of a class, with so many entries of the pool, and the entries that each class has
begin() {
    printf '\xca\xfe\xba\xbe\0\0\0\x34'
    u2 "$1"
    text M
    printf '\x07\0\x01'
    text java/lang/Object
    printf '\x07\0\x03'
    text '()V'
    text Code
}

# so many static methods of 65,535 bytes of code each
class() {
    begin $((7 + $1))
    for ((i = 0; i < $1; i++)); do text "m$i"; done
    printf '\0\x21\0\x02\0\x04\0\0\0\0'
    u2 "$1"
    for ((i = 0; i < $1; i++)); do
        printf '\0\x09'
        u2 $((7 + i))
        printf '\0\x05\0\x01\0\x06'
        u4 $((12 + 65535))
        printf '\0\0\0\0'
        u4 65535
        head -c 65534 /dev/zero
        printf '\xb1\0\0\0\0'
    done
    printf '\0\0'
}

# one method of 65,535 bytes of code, up to the frames of its stack map: so many bytes, and so many frames
mapped() {
    printf '\0\x21\0\x02\0\x04\0\0\0\0\0\x01\0\x09\0\x07\0\x05\0\x01\0\x06'
    u4 $((12 + 65535 + 6 + $1))
    printf '\0\0\xff\xff'
    u4 65535
    head -c 65534 /dev/zero
    printf '\xb1\0\0\0\x01\0\x08'
    u4 "$1"
    u2 "$2"
}

# one method with so many frames, each with 60,000 locals: the first frame tells them all, the others that they are the same
framed() {
    begin 9
    text m
    text StackMapTable
    mapped $((2 + 7 + 60000 + $1 - 1)) "$1"
    printf '\xff\0\0'
    u2 60000
    head -c 60000 /dev/zero | tr '\0' '\1'
    printf '\0\0'
    head -c $(($1 - 1)) /dev/zero
    printf '\0\0'
}

# one method with so many frames, each of which names a class of 2,000 letters 60,000 times
named() {
    begin 11
    text m
    text StackMapTable
    text "$(head -c 2000 /dev/zero | tr '\0' L)"
    printf '\x07\0\x09'
    mapped $((2 + $1 * (7 + 3 * 60000))) "$1"
    for ((i = 0; i < $1; i++)); do
        printf '\xff\0\0'
        u2 60000
        printf '\x07\0\x0a%.0s' {1..60000}
        printf '\0\0'
    done
    printf '\0\0'
}

# milliseconds that the program takes for a file
took() {
    local start end
    start=$(date +%s%N)
    "$program" "$1" >"$work/told"
    end=$(date +%s%N)
    echo $(((end - start) / 1000000))
}

seconds() { printf '%d.%03d' $(($1 / 1000)) $(($1 % 1000)); }

# a row of numbers for the class in M.class
row() {
    { cat M.class; printf '\0'; } >Trailing.class
    local read both ratio=-
    read=$(took Trailing.class)
    both=$(took M.class)
    [ -n "$before" ] && [ "$before" -gt 0 ] && ratio=$((both * 100 / before))%
    printf '%6d  %s  %s  %s  %s\n' "$1" "$(seconds "$read")" "$(seconds "$both")" "$ratio" "$(cat told)"
    before=$both
}

cd "$work"
before=
echo '   MiB  read  and written  ratio  told'
for size in 1 2 4 8 16; do
    class $((size * 16)) >M.class
    row "$size"
done
before=
echo 'frames  read  and written  ratio  told'
for size in 4000 8000 16000 32000 64000; do
    framed "$size" >M.class
    row "$size"
done
before=
ulimit -v 524288
echo 'frames  read  and written  ratio  told'
for size in 1 2 4 8; do
    named "$size" >M.class
    row "$size"
done
