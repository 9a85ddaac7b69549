#!/usr/bin/env bash
# Times the parser of files on generated sources of growing size, and prints the seconds and how they grow when the source doubles. It
# builds a small program over the crates of this repository in a folder of its own. Needs the Rattle kit.
set -eu
top=$(cd "$(dirname "${BASH_SOURCE[0]}")/.." && pwd)
work=$(mktemp -d)
trap 'rm -rf "$work"' EXIT

crates='kc_text kc_tree grammars kt_lexer kt_grammar kt_names kt_suffixes kt_bodies kt_calls kt_control kt_when kt_parser kt_functions kt_members
    kt_class_heads kt_classes kt_files kt_decls'
mkdir -p "$work/crates/parser_bench/src" "$work/crates/parser_bench/specs"
for crate in $crates; do
    cp -r "$top/crates/$crate" "$work/crates/$crate"
    rm -rf "$work/crates/$crate/out"
    grep -E "^$crate:" "$top/crates.txt" >>"$work/crates.txt"
done
echo 'parser_bench: kc_text kc_tree kt_lexer kt_names kt_decls sqlite_items' >>"$work/crates.txt"
: >"$work/crates/parser_bench/specs/Lib.antt"
cat >"$work/crates/parser_bench/src/main.rt" <<'PROGRAM'
//! Prints how many tokens the file `source.kt` has, and how many declarations, or where it is refused.
#![tactic(auto)]

use kc_text::{Fail, Text};
use kt_decls::{ParseFault, parse_file};
use kt_lexer::{Token, tokens};
use kt_names::reserved_names;
use std::alloc::Global;
use std::{fs, io};

/// The number of declarations, or the place that is refused.
fn told(alloc: Global, tokens: &[Token]) -> (&'static str, usize) {
    match parse_file(alloc, tokens) {
        Ok(file) => ("declarations", file.decls.len()),
        Err(Fail::Found(ParseFault::Syntax(place))) => ("refused", place),
        Err(Fail::Found(ParseFault::NestingTooDeep(deep))) => ("deep", deep.at),
        Err(Fail::Memory) => ("memory", 0),
    }
}

fn parse(alloc: Global, source: &str) -> (usize, &'static str, usize) {
    let Ok(mut names) = reserved_names(alloc) else {
        return (0, "memory", 0);
    };
    match Text::from_str(alloc, source) {
        Ok(text) => match tokens(alloc, &text, 0, &mut names) {
            Ok(cut) => {
                let (what, number) = told(alloc, cut.as_slice());
                (cut.len(), what, number)
            }
            Err(_) => (0, "uncut", 0),
        },
        Err(_) => (0, "memory", 0),
    }
}

fn main(rt: HostRuntime) -> io::Result<()> {
    let alloc = rt.alloc();
    let source = fs::read_to_string(&rt, "source.kt")?;
    let (count, what, number) = parse(alloc, source.as_str());
    println!(rt; "{count} {what} {number}")?;
    Ok(())
}
PROGRAM

cd "$work/crates/parser_bench"
echo 'building' >&2
rt run -- >"$work/build.log" 2>&1 </dev/null || true
program=$work/crates/parser_bench/out/parser_bench
[ -x "$program" ] || { tail -n 20 "$work/build.log" >&2; exit 1; }
cd "$work"

# The source's lines on the standard input, timed. The first word of what is printed is the number of tokens.
timed() {
    local start end
    cat >source.kt
    start=$(date +%s%N)
    told=$("$program")
    end=$(date +%s%N)
    took=$(((end - start) / 1000000))
}

grows() { # name, then a command that prints a source for a number
    local before= size
    echo "$1: tokens, what they are; seconds; ratio"
    for size in $3; do
        timed < <($2 "$size")
        ratio=-
        [ -n "$before" ] && [ "$before" -gt 0 ] && ratio=$((took * 100 / before))
        printf '  %s  %d.%03d  %s%%\n' "$told" $((took / 1000)) $((took % 1000)) "$ratio"
        before=$took
    done
}

many() { # a text, a number of times, each on a line of its own
    yes "$1" 2>/dev/null | head -n "$2" || true
}
functions() {
    many 'fun f(x: Int, y: List<Int> = g()): Int { val a: Int = if (x <= 1 && y != -1) f(x - 1, a.b[2]) { it + 1 } else when (x) { 1, 2 -> "s${x + 1}t"; else -> 0 }; return a }' "$1"
}
classes() {
    many 'data class A<T : B>(private val a: T, var b: Int = 1) : C(a), D { val c: Int get() = b; init { e(c) }; fun d(x: T) = x; var f = 1; }' "$1"
}
comparisons() {
    printf 'val a = f('
    many 'a < b, ' "$1" | tr -d '\n'
    printf ')\n'
}
brackets() { # nested type arguments that no `>` ends, which tests look through
    printf 'val a = f('
    many 'a<b<c<d, ' "$1" | tr -d '\n'
    printf ')\n'
}
chain() { # an `if` on each line
    echo 'fun f() {'
    many 'if (a)' "$1"
    printf 'b\n}\n'
}
grows 'functions' functions '2500 5000 10000 20000'
grows 'classes' classes '2500 5000 10000 20000'
grows 'comparisons in a list' comparisons '20000 40000 80000 160000'
grows 'opened brackets in a list' brackets '20000 40000 80000 160000'
grows 'nested by lines' chain '32 64 128 250'
