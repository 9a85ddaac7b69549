#!/usr/bin/env bash
# Times the table of types on growing numbers of different types, half of them classes and half boxes of these, and prints the seconds
# and how they grow when the number doubles. It builds a small program over the crates of this repository in a folder of its own.
# Needs the Rattle kit.
set -eu
top=$(cd "$(dirname "${BASH_SOURCE[0]}")/.." && pwd)
work=$(mktemp -d)
trap 'rm -rf "$work"' EXIT

mkdir -p "$work/crates/types_bench/src" "$work/crates/types_bench/specs"
for crate in kc_text kc_types; do
    cp -r "$top/crates/$crate" "$work/crates/$crate"
    rm -rf "$work/crates/$crate/out"
done
grep -E '^(kc_text|kc_types):' "$top/crates.txt" >"$work/crates.txt"
echo 'types_bench: kc_text kc_types' >>"$work/crates.txt"
: >"$work/crates/types_bench/specs/Lib.antt"
cat >"$work/crates/types_bench/src/main.rt" <<'PROGRAM'
//! Interns twice so many types as each argument says, and prints how many the table has.
#![tactic(auto)]

ghost use Rattle.std.specs.Prelude.{◌<◌, length, IfOk};

use kc_text::Fail;
use kc_types::{ClassId, Parts, Ty, TyArg, TypeId, TypeTable, TypeTooDeep};
use std::alloc::Global;
use std::{env, io};

const BOX: ClassId = ClassId(40);

fn plain(alloc: Global, table: &mut TypeTable, class: usize) -> Result<TypeId, Fail<TypeTooDeep>>
    ensures { IfOk result (λ id. id.0 < length table.new) }
{
    table.intern(alloc, Ty::Class(ClassId(class), Parts::from_vec(Vec::new(alloc))))
}

fn boxed(alloc: Global, table: &mut TypeTable, argument: TypeId) -> Result<TypeId, Fail<TypeTooDeep>>
    requires { argument.0 < length table.old }
    ensures { IfOk result (λ id. id.0 < length table.new) }
{
    let arguments = vec![in alloc; TyArg::Exact(argument)]?;
    table.intern(alloc, Ty::Class(BOX, Parts::from_vec(arguments)))
}

fn fill(alloc: Global, table: &mut TypeTable, halves: usize) -> Result<(), Fail<TypeTooDeep>> {
    for class in 0..halves {
        let argument = plain(alloc, table, class)?;
        boxed(alloc, table, argument)?;
    }
    Ok(())
}

fn count(alloc: Global, halves: usize) -> usize {
    let mut table = TypeTable::new(alloc);
    match fill(alloc, &mut table, halves) {
        Ok(()) => table.len(),
        Err(_) => 0,
    }
}

fn main(rt: HostRuntime) -> io::Result<()> {
    let alloc = rt.alloc();
    for word in env::args(&rt)?.skip(1) {
        if let Ok(halves) = word.parse::<usize>() {
            let types = count(alloc, halves);
            println!(rt; "{types}")?;
        }
    }
    Ok(())
}
PROGRAM

cd "$work/crates/types_bench"
echo 'building' >&2
rt run -- >"$work/build.log" 2>&1 </dev/null || true
program=$work/crates/types_bench/out/types_bench
[ -x "$program" ] || { tail -n 20 "$work/build.log" >&2; exit 1; }

before=
echo 'types    seconds  ratio'
for halves in 62500 125000 250000 500000 1000000; do
    start=$(date +%s%N)
    types=$("$program" "$halves")
    end=$(date +%s%N)
    took=$(((end - start) / 1000000))
    ratio=-
    [ -n "$before" ] && [ "$before" -gt 0 ] && ratio=$((took * 100 / before))
    printf '%7d  %d.%03d  %s%%\n' "$types" $((took / 1000)) $((took % 1000)) "$ratio"
    before=$took
done
