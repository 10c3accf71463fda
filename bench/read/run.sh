#!/bin/sh
# How long `read_file` takes on the tokens of files of several shapes, most of them of 400,000 tokens, as LLVM builds
# it: the least of five runs in microseconds.
# It copies the crates to a folder of its own, adds a small program there, and runs it: bench/read/run.sh [FOLDER]
set -eu
top=$(cd "$(dirname "$0")/../.." && pwd)
work=${1:-$(mktemp -d)}
mkdir -p "$work/crates"
[ -f "$top/HANDLES" ] && cp "$top/HANDLES" "$work/HANDLES"
for crate in mdg_base mdg_text mdg_tree mdg_read; do
    rm -rf "$work/crates/$crate"
    mkdir -p "$work/crates/$crate"
    (cd "$top/crates/$crate" && tar cf - --exclude=./out .) | (cd "$work/crates/$crate" && tar xf -)
done
grep -E '^(#|mdg_base:|mdg_text:|mdg_tree:|mdg_read:)' "$top/crates.txt" > "$work/crates.txt"
echo 'bench_read: mdg_base mdg_text mdg_tree mdg_read anyhow' >> "$work/crates.txt"
mkdir -p "$work/crates/bench_read/src"
cat > "$work/crates/bench_read/src/main.rt" <<'PROGRAM'
#![tactic(auto)]

ghost use Rattle.std.specs.Prelude.{◌≤◌, length, vec_len, IfOk};

use anyhow::Result;
use mdg_read::read_file;
use mdg_text::{Token, tokens};
use std::alloc::{AllocError, Global};
use std::time::{Clock, Instant};

// The directive, the head, and then the part again and again, `size` bytes or a little more.
fn repeated(alloc: Global, head: &[u8], part: &[u8], size: usize) -> Result<Vec<u8>, AllocError> {
    let mut bytes = Vec::new(alloc);
    bytes.extend_from_slice(b"'use strict';\n")?;
    bytes.extend_from_slice(head)?;
    for _turn in 0..size {
        if size <= bytes.len() {
            return Ok(bytes);
        }
        bytes.extend_from_slice(part)?;
    }
    Ok(bytes)
}

// What the answer says, and the least time of five runs.
fn least(rt: &impl Clock, alloc: Global, all: &[Token]) -> Result<(u128, String)> {
    let mut micros = u128::MAX;
    let mut said = String::new(alloc);
    for _run in 0..5 {
        let start = Instant::now(rt)?;
        let answer = read_file(alloc, all);
        micros = micros.min(start.elapsed(rt)?.as_micros());
        said = match answer {
            Ok(tree) => format!(in alloc; "{} items", tree.items.as_slice().len())?,
            Err(refusal) => refusal.to_string(alloc)?,
        };
    }
    Ok((micros, said))
}

fn measure(rt: &(impl Print + Clock), alloc: Global, name: &str, head: &[u8], part: &[u8], size: usize) -> Result<()> {
    let bytes = repeated(alloc, head, part, size)?;
    if bytes.len() <= 1_048_576 {
        match tokens(alloc, bytes.as_slice()) {
            Ok(all) => {
                let count = all.as_slice().len();
                let (micros, said) = least(rt, alloc, all.as_slice())?;
                println!(rt; "{name:<16} {count:>7} tokens {micros:>8} us, {said}")?;
            }
            Err(fault) => println!(rt; "{name:<16} {fault}")?,
        }
    }
    Ok(())
}

fn main(rt: HostRuntime) -> Result<()> {
    let alloc = rt.alloc();
    measure(&rt, alloc, "code", b"", b"var total = first + items[12].length; // sum\nif (total === 'x\\n') { exports.put(total, 1) }\n", 1_000_000)?;
    measure(&rt, alloc, "functions", b"", b"function f(a,b){return a+b}", 770_000)?;
    measure(&rt, alloc, "calls", b"", b"a(b,c);", 400_000)?;
    measure(&rt, alloc, "semicolons", b"", b";", 400_000)?;
    measure(&rt, alloc, "names", b"", b"a;", 400_000)?;
    measure(&rt, alloc, "comma list", b"a", b",b", 399_000)?;
    measure(&rt, alloc, "array", b"a=[b", b",b", 399_000)?;
    measure(&rt, alloc, "declarations", b"var a", b",b", 399_000)?;
    measure(&rt, alloc, "open ( ", b"", b"(", 399_000)?;
    measure(&rt, alloc, "open [ ", b"", b"[", 399_000)?;
    measure(&rt, alloc, "open { ", b"", b"{", 399_000)?;
    measure(&rt, alloc, "open ({a:", b"", b"({a:", 399_000)?;
    measure(&rt, alloc, "open a(", b"", b"a(", 399_000)?;
    measure(&rt, alloc, "open (new a(", b"", b"new a(", 399_000)?;
    measure(&rt, alloc, "new", b"", b"new ", 1_000_000)?;
    measure(&rt, alloc, "functions in", b"", b"(function(){", 399_000)?;
    measure(&rt, alloc, "if", b"", b"if(a)", 399_000)?;
    measure(&rt, alloc, "for", b"", b"for(;;)", 399_000)?;
    measure(&rt, alloc, "operators", b"a", b"+b", 399_000)?;
    measure(&rt, alloc, "assignments", b"", b"a=", 399_000)?;
    measure(&rt, alloc, "choices", b"", b"a?b:", 399_000)?;
    measure(&rt, alloc, "open choices", b"", b"a?", 399_000)?;
    measure(&rt, alloc, "members", b"a", b".b", 399_000)?;
    measure(&rt, alloc, "minus", b"", b"- ", 799_000)?;
    Ok(())
}
PROGRAM
cd "$work/crates/bench_read"
rt run
