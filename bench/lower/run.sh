#!/bin/sh
# How long `lower` takes on the bindings of files of several shapes, most of them of nearly 32,768 statements, as LLVM
# builds it: the least of five runs in microseconds.
# It copies the crates to a folder of its own, adds a small program there, and runs it: bench/lower/run.sh [FOLDER]
set -eu
top=$(cd "$(dirname "$0")/../.." && pwd)
work=${1:-$(mktemp -d)}
mkdir -p "$work/crates"
[ -f "$top/HANDLES" ] && cp "$top/HANDLES" "$work/HANDLES"
: > "$work/crates.txt"
for crate in mdg_base mdg_text mdg_tree mdg_read mdg_profile mdg_scope mdg_code mdg_lower; do
    rm -rf "$work/crates/$crate"
    mkdir -p "$work/crates/$crate"
    (cd "$top/crates/$crate" && tar cf - --exclude=./out .) | (cd "$work/crates/$crate" && tar xf -)
    grep "^$crate:" "$top/crates.txt" >> "$work/crates.txt"
done
echo 'bench_lower: mdg_text mdg_read mdg_profile mdg_scope mdg_code mdg_lower anyhow' >> "$work/crates.txt"
mkdir -p "$work/crates/bench_lower/src"
cat > "$work/crates/bench_lower/src/main.rt" <<'PROGRAM'
#![tactic(auto)]

ghost use Rattle.std.specs.Prelude.{◌≤◌, length, vec_len, IfOk};

use anyhow::Result;
use mdg_lower::lower;
use mdg_profile::{Profile, default_profile};
use mdg_read::read_file;
use mdg_scope::{Bound, bind};
use mdg_text::tokens;
use std::alloc::{AllocError, Global};
use std::time::{Clock, Instant};

// A file: the head, `count` parts, as many ends, and the tail. A `#` in a part is the number of that part.
#[derive(Clone, Copy)]
struct Shape {
    name: &'static str,
    head: &'static str,
    part: &'static str,
    end: &'static str,
    tail: &'static str,
    count: u32,
}

fn flat(name: &'static str, head: &'static str, part: &'static str, tail: &'static str, count: u32) -> Shape {
    Shape { name, head, part, end: "", tail, count }
}

fn nested(name: &'static str, part: &'static str, end: &'static str, count: u32) -> Shape {
    Shape { name, head: "var a;", part, end, tail: ";", count }
}

fn add_part(alloc: Global, text: &mut String, part: &str, number: u32) -> Result<(), AllocError> {
    for sign in part.chars() {
        if sign == '#' {
            text.push_str(format!(in alloc; "{number}")?.as_str())?;
        } else {
            text.push(sign)?;
        }
    }
    Ok(())
}

fn add_parts(alloc: Global, text: &mut String, part: &str, count: u32) -> Result<(), AllocError> {
    for number in 0..count {
        add_part(alloc, text, part, number)?;
    }
    Ok(())
}

fn text_of(alloc: Global, shape: Shape) -> Result<String, AllocError> {
    let mut text = String::from_str(alloc, "'use strict';\n")?;
    text.push_str(shape.head)?;
    add_parts(alloc, &mut text, shape.part, shape.count)?;
    add_parts(alloc, &mut text, shape.end, shape.count)?;
    text.push_str(shape.tail)?;
    Ok(text)
}

// What the answer says, and the least time of five runs.
fn least(rt: &impl Clock, alloc: Global, files: &[Bound], profile: &Profile) -> Result<(u128, String)> {
    let mut micros = u128::MAX;
    let mut said = String::new(alloc);
    for _run in 0..5 {
        let start = Instant::now(rt)?;
        let answer = lower(alloc, files, profile);
        micros = micros.min(start.elapsed(rt)?.as_micros());
        said = match answer {
            Ok(code) => {
                let lines = code.lines.as_slice().len();
                let columns = code.columns.as_slice().len();
                let shared = code.shared.as_slice().len();
                format!(in alloc; "{lines} statements, {columns} names, {shared} shared")?
            }
            Err(refusal) => refusal.to_string(alloc)?,
        };
    }
    Ok((micros, said))
}

// The bindings of a file of at most 1 MiB.
fn bound(alloc: Global, bytes: &[u8], profile: &Profile) -> Result<Option<Bound>> {
    if bytes.len() > 1_048_576 {
        return Ok(None);
    }
    let all = tokens(alloc, bytes)?;
    let tree = read_file(alloc, all.as_slice())?;
    Ok(Some(bind(alloc, "index.js", tree, profile)?))
}

fn measure(rt: &(impl Print + Clock), alloc: Global, shape: Shape) -> Result<()> {
    let text = text_of(alloc, shape)?;
    let profile = default_profile(alloc)?;
    if let Some(file) = bound(alloc, text.as_str().as_bytes(), &profile)? {
        let files = [file];
        let (micros, said) = least(rt, alloc, files.as_slice(), &profile)?;
        println!(rt; "{:<16} {micros:>8} us, {said}", shape.name)?;
    }
    Ok(())
}

fn main(rt: HostRuntime) -> Result<()> {
    let alloc = rt.alloc();
    measure(&rt, alloc, flat("literals, 1/4", "", "1;", "", 8_190))?;
    measure(&rt, alloc, flat("literals, 1/2", "", "1;", "", 16_380))?;
    measure(&rt, alloc, flat("literals", "", "1;", "", 32_760))?;
    measure(&rt, alloc, flat("calls", "var a,b,c;", "a(b,c);", "", 6_500))?;
    measure(&rt, alloc, flat("functions", "", "function f#(a,b){return a+b}", "", 3_600))?;
    measure(&rt, alloc, nested("functions in", "a=function(b){", "};", 60))?;
    measure(&rt, alloc, flat("captured", "var a;", "(function(b){a=b});", "", 4_600))?;
    measure(&rt, alloc, flat("properties", "({n:1", ",n#:1", "})", 2_040))?;
    measure(&rt, alloc, flat("members", "var a;", "a.n=a.m;", "", 8_180))?;
    measure(&rt, alloc, flat("variables", "", "var v#=1;", "", 16_370))?;
    measure(&rt, alloc, flat("modules, 1/4", "", "require('m#');", "", 7_500))?;
    measure(&rt, alloc, flat("modules, 1/2", "", "require('m#');", "", 15_000))?;
    measure(&rt, alloc, flat("modules", "", "require('m#');", "", 30_000))?;
    measure(&rt, alloc, flat("shared members", "var fs=require('fs');", "fs.readFile(Math.max(1));", "", 3_200))?;
    measure(&rt, alloc, flat("loops", "var a;", "while(a){if(a)break;continue}", "", 4_600))?;
    measure(&rt, alloc, nested("loops in", "for(;;a)", "", 240))?;
    measure(&rt, alloc, flat("for in", "var a;", "for(var k in a)a=k;", "", 3_600))?;
    measure(&rt, alloc, flat("if", "var a;", "if(a)a=1;else a=2;", "", 4_600))?;
    measure(&rt, alloc, flat("arguments", "var a;a(1", ",a", ");", 32_000))?;
    measure(&rt, alloc, flat("assigning", "var a;a(1", ",a=1", ");", 16_000))?;
    Ok(())
}
PROGRAM
cd "$work/crates/bench_lower"
rt run
