#!/usr/bin/env bash
# The processor time of `replay` over 10,000 operations, beside a plain program that does the same
# without proofs: both in one run, in turn, the least of 200 runs of each. The operations are those of
# 3,400 calls of one account, 100 of them at once: each reserves, settles and returns.
set -eu
cd "$(dirname "$0")/.."
work=$(mktemp -d)
trap 'rm -rf "$work"' EXIT

rustc --edition 2021 -O -o "$work/plain" bench/plain_replay.rs
awk -v rows=10000 -v calls=100 '
function row(text) {
    if (rows-- <= 0) exit
    print text
}
BEGIN {
    print "seat,op,call,x1,x2,x3,x4,x5,x6,x7"
    for (first = 1; ; first += calls) {
        for (c = first; c < first + calls; c++) row(c % 16 ",reserve," c ",50,1000,400,600,50,0," first)
        for (c = first; c < first + calls; c++) row(c % 16 ",settle," c "," c ",n," 1 + c * 7 % 600 ",,,,")
        for (c = first; c < first + calls; c++) row(c % 16 ",return," c ",,,,,,,")
    }
}' > "$work/ops.csv"

echo "replay of 10,000 operations:"
bench/beside.py 200 "$work/ops.csv" bin/prepaid replay --opening 1000000000 -- "$work/plain" 1000000000
