#!/usr/bin/env bash
# Times the lexer on generated sources of growing size, and prints the seconds and how they grow when the source doubles.
# It builds a small program over the crates of this repository in a folder of its own. Needs the Rattle kit.
set -eu
top=$(cd "$(dirname "${BASH_SOURCE[0]}")/.." && pwd)
work=$(mktemp -d)
trap 'rm -rf "$work"' EXIT

mkdir -p "$work/crates/lexer_bench/src" "$work/crates/lexer_bench/specs"
for crate in kc_text kc_tree kt_lexer; do
    cp -r "$top/crates/$crate" "$work/crates/$crate"
    rm -rf "$work/crates/$crate/out"
done
grep -E '^(kc_text|kc_tree|kt_lexer):' "$top/crates.txt" >"$work/crates.txt"
echo 'lexer_bench: kc_text kc_tree kt_lexer sqlite_items' >>"$work/crates.txt"
: >"$work/crates/lexer_bench/specs/Lib.antt"
cat >"$work/crates/lexer_bench/src/main.rt" <<'PROGRAM'
//! Prints how many tokens the file `source.kt` has.
#![tactic(auto)]

use kc_text::{Names, Text};
use kt_lexer::tokens;
use std::alloc::Global;
use std::{fs, io};

fn count(alloc: Global, source: &str) -> usize {
    let mut names = Names::new(alloc);
    match Text::from_str(alloc, source) {
        Ok(text) => match tokens(alloc, &text, 0, &mut names) {
            Ok(cut) => cut.len(),
            Err(_) => 0,
        },
        Err(_) => 0,
    }
}

fn main(rt: HostRuntime) -> io::Result<()> {
    let alloc = rt.alloc();
    let source = fs::read_to_string(&rt, "source.kt")?;
    let tokens = count(alloc, source.as_str());
    println!(rt; "{tokens}")?;
    Ok(())
}
PROGRAM

cd "$work/crates/lexer_bench"
echo 'building' >&2
rt run -- >"$work/build.log" 2>&1 </dev/null || true
program=$work/crates/lexer_bench/out/lexer_bench
[ -x "$program" ] || { tail -n 20 "$work/build.log" >&2; exit 1; }

line='fun f(x: Int): String { val s = "a${x + 1}b"; return if (x <= 0x1F && x != -1) s else f(x - 1) /* again */ } // end'
cd "$work"
before=
echo 'MiB  tokens  seconds  ratio'
for size in 1 2 4 8 16; do
    yes "$line" 2>/dev/null | head -c $((size * 1048576 / (${#line} + 1) * (${#line} + 1))) >source.kt || true
    start=$(date +%s%N)
    tokens=$("$program")
    end=$(date +%s%N)
    took=$(((end - start) / 1000000))
    ratio=-
    [ -n "$before" ] && [ "$before" -gt 0 ] && ratio=$((took * 100 / before))
    printf '%3d  %s  %d.%03d  %s%%\n' "$size" "$tokens" $((took / 1000)) $((took % 1000)) "$ratio"
    before=$took
done
