#!/usr/bin/env bash
# `serve` live, beside a plain program that does the same without proofs: the round trip of a row over two pipes, with
# a log and without, and the rows a second where they are sent without waiting. The log is where TMPDIR says: the
# figures with a log are those of that disk. The last program of the last table only logs. With a log the service can take
# the time that it takes without one, and that of the syncs: the first two lines say the one, the last line the other.
set -eu
cd "$(dirname "$0")/.."
program=${PREPAID:-bin/prepaid}
work=$(mktemp -d)
trap 'rm -rf "$work"' EXIT

for name in plain_serve round_trips; do
    rustc --edition 2021 -O -o "$work/$name" "bench/$name.rs"
done

rows() { # CALLS : the messages of so many calls, of which a quarter talk for more than a period
    awk -v calls="$1" 'BEGIN {
        for (call = 0; call < calls; call++) {
            at = call * 3
            time = 100 + call * 7919 % 700
            print at ",," call ",switch,InitialDP,4917" 1000000 + call % 1000 ",4930" call ",,"
            print at + 50 ",," call ",switch,EventReportBCSM,answer,,notify,"
            if (time > 600) print at + 650 ",," call ",switch,ApplyChargingReport,active,n,600,"
            print at + 50 + time ",," call ",switch,ApplyChargingReport,inactive,n," time ","
            print at + 50 + time ",," call ",switch,EventReportBCSM,disconnect,1,interrupted,"
            print at + 52 + time ",," call ",switch,Ended,,,,"
        }
    }' | sort -s -n -t , -k 1,1
}

input() { # CALLS : a tariff, 1,000 accounts with a subscriber each, and the messages
    printf 'prefix,from,fee,rate\n49,00:00,50,1000\n49,08:00,50,400\n%%%%\nkind,key,value\n'
    for at in $(seq 0 999); do
        echo "account,$at,1000000000"
        echo "subscriber,4917$((1000000 + at)),$at"
    done
    printf '%%%%\nmoment,number,call,from,what,x1,x2,x3,x4\n'
    rows "$1"
}

times() { # each|all TURNS -- PROGRAM [WORD..]..
    "$work/round_trips" "$1" "$2" "$work/input" "$work/wanted" "$work/log" "${@:3}"
}

make_input() { # CALLS
    input "$1" > "$work/input"
    "$work/plain_serve" < "$work/input" > "$work/wanted"
}

make_input 4000
echo "round trips of rows, each sent once the answer to the one before it has come:"
times each 10 -- "$program" serve --lines -- "$work/plain_serve"
make_input 200
echo "the same with a log:"
times each 3 -- "$program" serve --lines --log "$work/log" -- "$work/plain_serve" "$work/log"
make_input 20000
echo "$(rows 20000 | wc -l) rows, sent without waiting:"
times all 10 -- "$program" serve --lines -- "$work/plain_serve"
echo "the same, the least processor time:"
bench/beside.py 10 "$work/input" "$program" serve --lines -- "$work/plain_serve"
make_input 1000
echo "$(rows 1000 | wc -l) rows with a log, sent without waiting:"
times all 10 -- "$program" serve --lines -- "$work/plain_serve" -- "$program" serve --lines --log "$work/log" \
    -- "$work/plain_serve" "$work/log" -- "$work/plain_serve" "$work/log" silent
