#!/usr/bin/env bash
# The processor time of `audit` over a book of 16 MiB, beside a plain program that does the same
# without proofs: both in one run, in turn, the least of 20 runs of each. The book has the calls of 1,000
# accounts by turns: each reserves for a call, settles it and returns the rest.
set -eu
cd "$(dirname "$0")/.."
work=$(mktemp -d)
trap 'rm -rf "$work"' EXIT

rustc --edition 2021 -O -o "$work/plain" bench/plain_audit.rs
awk -v size=16777216 -v accounts=1000 '
function row(text) {
    size -= length(text) + 1
    if (size < 0) exit
    print text
}
BEGIN {
    row("account,seat,op,call,x1,x2,x3,x4,x5,x6,x7,reply,y1,y2,y3")
    for (a = 0; a < accounts; a++) {
        row(a ",,opening,,100000,,,,,,,,,,")
        left[a] = 100000
    }
    for (first = 1; ; first += accounts) {
        for (a = 0; a < accounts; a++) {
            left[a] -= 1050
            row(a "," a % 16 ",reserve," first + a ",50,1000,400,600,50,0," first ",granted,600,more," left[a])
        }
        for (a = 0; a < accounts; a++) {
            time = 1 + (first + a) * 7 % 600
            paid[a] = 50 + int((time * 1000 + 599) / 600)
            row(a "," a % 16 ",settle," first + a "," first ",n," time ",,,,,settled," paid[a] ",," left[a])
        }
        for (a = 0; a < accounts; a++) {
            left[a] += 1050 - paid[a]
            row(a "," a % 16 ",return," first + a ",,,,,,,,returned," paid[a] ",," left[a])
        }
    }
}' > "$work/book.csv"

echo "audit of $(wc -l < "$work/book.csv") rows:"
bench/beside.py 20 "$work/book.csv" bin/prepaid audit -- "$work/plain"
for order in 'rise: 0 1 527757' 'fall: 527757 -1 0'; do
    { head -n 1 "$work/book.csv"; seq ${order#*:} | sed 's/$/,,opening,,1500,,,,,,,,,,/'; } > "$work/openings.csv"
    echo "audit of 527,758 openings that ${order%:*}:"
    bench/beside.py 5 "$work/openings.csv" bin/prepaid audit -- "$work/plain"
done
