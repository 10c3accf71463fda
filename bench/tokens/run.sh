#!/bin/sh
# How long `tokens` takes on files of 64 KiB, 256 KiB and 1 MiB, of several shapes, as LLVM builds it:
# the least of five runs in microseconds.
# It copies the crates to a folder of its own, adds a small program there, and runs it: bench/tokens/run.sh [FOLDER]
set -eu
top=$(cd "$(dirname "$0")/../.." && pwd)
work=${1:-$(mktemp -d)}
mkdir -p "$work/crates"
cp "$top/crates.txt" "$work/crates.txt"
[ -f "$top/HANDLES" ] && cp "$top/HANDLES" "$work/HANDLES"
for crate in mdg_base mdg_text; do
    rm -rf "$work/crates/$crate"
    mkdir -p "$work/crates/$crate"
    (cd "$top/crates/$crate" && tar cf - --exclude=./out .) | (cd "$work/crates/$crate" && tar xf -)
done
grep -E '^(#|mdg_base:|mdg_text:)' "$top/crates.txt" > "$work/crates.txt"
echo 'bench_tokens: mdg_base mdg_text anyhow' >> "$work/crates.txt"
mkdir -p "$work/crates/bench_tokens/src"
cat > "$work/crates/bench_tokens/src/main.rt" <<'PROGRAM'
#![tactic(auto)]

ghost use Rattle.std.specs.Prelude.{◌≡◌, ◌≤◌, length, vec_len, IfOk};

use anyhow::Result;
use mdg_text::tokens;
use std::alloc::{AllocError, Global};
use std::time::{Clock, Instant};

// A text of `size` bytes: the head, and then the part again and again.
fn repeated(alloc: Global, head: &[u8], part: &[u8], size: usize) -> Result<Vec<u8>, AllocError> {
    let mut bytes = Vec::new(alloc);
    bytes.extend_from_slice(head)?;
    for _turn in 0..size {
        for byte in part {
            if bytes.len() < size {
                bytes.push(*byte)?;
            }
        }
        if size <= bytes.len() {
            return Ok(bytes);
        }
    }
    Ok(bytes)
}

// What the answer says, and the least time of five runs.
fn least(rt: &impl Clock, alloc: Global, bytes: &[u8]) -> Result<(u128, String)>
    requires { length bytes.now ≤ 1048576 }
{
    let mut micros = u128::MAX;
    let mut said = String::new(alloc);
    for _run in 0..5 {
        let start = Instant::now(rt)?;
        let answer = tokens(alloc, bytes);
        micros = micros.min(start.elapsed(rt)?.as_micros());
        said = match answer {
            Ok(all) => format!(in alloc; "{} tokens", all.as_slice().len())?,
            Err(fault) => fault.to_string(alloc)?,
        };
    }
    Ok((micros, said))
}

fn measure(rt: &(impl Print + Clock), alloc: Global, name: &str, head: &[u8], part: &[u8]) -> Result<()> {
    for size in [65_536, 262_144, 1_048_576] {
        let bytes = repeated(alloc, head, part, size)?;
        if bytes.len() <= 1_048_576 {
            let (micros, said) = least(rt, alloc, bytes.as_slice())?;
            println!(rt; "{name:<16} {size:>8} bytes {micros:>8} us, {said}")?;
        }
    }
    Ok(())
}

fn main(rt: HostRuntime) -> Result<()> {
    let alloc = rt.alloc();
    measure(&rt, alloc, "code", b"", b"var total = first + items[12].length; // sum\nif (total === 'x\\n') { return }\n")?;
    measure(&rt, alloc, "names", b"", b"name value other\n")?;
    measure(&rt, alloc, "marks", b"", b" >>>=")?;
    measure(&rt, alloc, "semicolons", b"", b"; \n")?;
    measure(&rt, alloc, "numerals", b"", b"1.5e10 ")?;
    measure(&rt, alloc, "spaces", b"", b" ")?;
    measure(&rt, alloc, "line ends", b"", b"\r\n")?;
    measure(&rt, alloc, "stars", b"", b"*")?;
    measure(&rt, alloc, "slashes", b"", b"/")?;
    measure(&rt, alloc, "open comments", b"", b"/* \n")?;
    measure(&rt, alloc, "open then marks", b"", b"a/*")?;
    measure(&rt, alloc, "open text", b"'", b"ab\\n\\u0041")?;
    measure(&rt, alloc, "line comment", b"//", b"ab ")?;
    measure(&rt, alloc, "open comment", b"/*", b"ab\n")?;
    measure(&rt, alloc, "comments", b"", b"/* ab */")?;
    measure(&rt, alloc, "quotes", b"", b"''")?;
    measure(&rt, alloc, "units", b"", b"'\\u00e9\\ud83d\\ude00'")?;
    measure(&rt, alloc, "digits", b"", b"1")?;
    measure(&rt, alloc, "dots", b"", b"..1")?;
    measure(&rt, alloc, "greek", b"", b"\xce\xb1\xce\xb2 ")?;
    Ok(())
}
PROGRAM
cd "$work/crates/bench_tokens"
rt run
