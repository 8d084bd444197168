#!/usr/bin/env bash
# The processor time of `price` over 10,000 reports, beside a plain program that does the same without
# proofs: both in one run, in turn, the least of 200 runs of each.
set -eu
cd "$(dirname "$0")/.."
work=$(mktemp -d)
trap 'rm -rf "$work"' EXIT

rustc --edition 2021 -O -o "$work/plain" bench/plain_price.rs
{ echo before,after; seq 1 10000 | sed 's/$/,0/'; } > "$work/reports.csv"

echo "price of 10,000 reports:"
bench/beside.py 200 "$work/reports.csv" bin/prepaid price --fee 50 --before 1000 -- "$work/plain" 50 1000
