#!/usr/bin/env bash
# How many operations a second shared accounts take, from 1 to 16 threads, on 1 account and on 100:
# the account under its lock and the one that is handed on by turns, beside a plain std::sync::Mutex
# and a plain ticket whose waiters sleep, all in one run, in turn, the median of 3 runs of each. All
# four judge and keep the same. The operations are credits, or calls that each are granted time,
# settled and returned, and that are all kept.
set -eu
cd "$(dirname "$0")/.."
work=$(mktemp -d)
trap 'rm -rf "$work"' EXIT
operations=400000
forms="mutex lock ticket turns"

rustc --edition 2021 -O -o "$work/plain" bench/plain_contend.rs

# The proved program is built in a repository of its own, so that the gate needn't prove it. Its
# source has another ending, since the gate refuses a .rt file that is in no crate.
below="price_core account_core turn_account locked_account"
repository="$work/repository"
program="$repository/crates/contend"
mkdir -p "$program/src" "$program/proofs/seat_all"
cp HANDLES "$repository"
for crate in $below; do
    cp -a "crates/$crate" "$repository/crates"
    grep "^$crate:" crates.txt >> "$repository/crates.txt"
done
echo "contend: price_core account_core turn_account locked_account" >> "$repository/crates.txt"
cp bench/contend.rattle "$program/src/main.rt"
cat > "$program/proofs/seat_all/Invariants.antt" <<'PROOF'
use Rattle.std.proofs.Common.{◌≡◌}
use Rattle.std.specs.Prelude.{All}
use Rattle.contend.proofs.seat_all.Given as goal

-- the seats that are left are of the account
abbrev pub invariant-loop-number : goal.invariant-loop-number
invariant-loop-number g l = All (λ seat. g.S.Shared.reads.key seat ≡ g.S.Shared.key l.account.value) l.seats.items
PROOF
echo "proving the program of the bench, which takes some minutes"
(cd "$program" && rt run -- lock calls 1 1 3 > "$work/built" 2>&1) || { tail "$work/built"; exit 1; }

rate() { # FORM MIX THREADS ACCOUNTS : operations a second, of one run
    local binary="$program/out/contend"
    case $1 in mutex | ticket) binary="$work/plain" ;; esac
    echo $((operations * 1000000000 / $("$binary" "$1" "$2" "$3" "$4" $((operations / $3)))))
}

median() { # NUMBER NUMBER NUMBER
    printf '%s\n' "$@" | sort -n | sed -n 2p
}

echo "operations a second, the median of 3 runs, on $(nproc) processors"
printf '%10s %8s %8s' operations accounts threads
printf ' %10s' $forms
echo
for mix in credits calls; do
    for accounts in 1 100; do
        for threads in 1 2 4 8 16; do
            for run in 1 2 3; do
                for form in $forms; do
                    rate "$form" "$mix" "$threads" "$accounts" >> "$work/$form.$mix.$accounts.$threads"
                done
            done
            printf '%10s %8s %8s' "$mix" "$accounts" "$threads"
            for form in $forms; do
                printf ' %10s' "$(median $(cat "$work/$form.$mix.$accounts.$threads"))"
            done
            echo
        done
    done
done
