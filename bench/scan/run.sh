#!/bin/sh
# How long `mdg scan` takes on files of the first form with 18, 36, 72 and 144 functions, 144 being nearly all that
# 4,096 bytes have room for: the mean of ten runs, in milliseconds.
# The program has to be built: ./scan-example builds it.
set -eu
top=$(cd "$(dirname "$0")/../.." && pwd)
program=$top/crates/mdg/out/mdg
work=$(mktemp -d)
trap 'rm -rf "$work"' EXIT
cd "$work"
for count in 18 36 72 144; do
    awk -v count="$count" 'BEGIN {
        letters = "abcdefghijklmnopqrstuvwxyz"
        print "\047use strict\047;"
        for (i = 0; i < count; i++) {
            name = substr(letters, i % 26 + 1, 1) (i < 26 ? "" : substr("qwxyzjkv", int(i / 26), 1))
            print "function " name "(a) { eval(a); }"
        }
        print "module.exports = " name ";"
    }' > index.js
    bytes=$(wc -c < index.js)
    answer=$("$program" scan | tail -n 1) || true
    start=$(date +%s%N)
    for _ in 1 2 3 4 5 6 7 8 9 10; do "$program" scan > /dev/null || true; done
    end=$(date +%s%N)
    echo "$count functions, $bytes bytes: $(( (end - start) / 10000000 )) ms, $answer"
done
