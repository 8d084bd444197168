#!/usr/bin/env bash
# The processor time and the memory of `run` with 1, 2 and 4 workers, and in 16 parts by 1 and 4 threads,
# beside a plain program that does the same in one thread without proofs: all in one run, in turn. 1,000
# accounts have 1,000, 10,000 and 100,000 calls, each of 20 s to 3 minutes: ten new calls a second
# (dense), or one every 4 seconds (sparse), where a round mostly has less than one post.
set -eu
cd "$(dirname "$0")/.."
work=$(mktemp -d)
trap 'rm -rf "$work"' EXIT

rustc --edition 2021 -O -o "$work/plain" bench/plain_run.rs

rows() { # CALLS GAP : what happens in so many calls, which begin with this gap
    awk -v calls="$1" -v gap="$2" 'BEGIN {
        for (call = 0; call < calls; call++) {
            at = call * gap
            print at "," call ",start,4917" 1000000 + call % 1000 ",4930" call
            print at + 50 "," call ",answer,,"
            print at + 250 + call * 7919 % 1600 "," call ",disconnect," 1 + call % 2 ","
        }
    }' | sort -s -n -t , -k 1,1
}

input() { # CALLS GAP : a tariff, 1,000 accounts with a subscriber each, and the calls
    printf 'prefix,from,fee,rate\n49,00:00,50,1000\n49,08:00,50,400\n%%%%\nkind,key,value\n'
    for at in $(seq 0 999); do
        echo "account,$at,1000000000"
        echo "subscriber,4917$((1000000 + at)),$at"
    done
    printf '%%%%\nmoment,call,what,x,y\n'
    rows "$1" "$2"
}

for gap in 1 40; do
    for calls in 1000 10000 100000; do
        input "$calls" "$gap" > "$work/input"
        [ "$gap" = 1 ] && kind=dense || kind=sparse
        [ "$calls" = 100000 ] && turns=3 || turns=10
        echo "run of $calls calls, $kind:"
        bench/beside.py "$turns" "$work/input" bin/prepaid run --workers 1 -- bin/prepaid run --workers 2 \
            -- bin/prepaid run --workers 4 -- bin/prepaid run --parts 16 -- bin/prepaid run --parts 16 --threads 4 \
            -- "$work/plain"
    done
done
