#!/usr/bin/env bash
# The processor time and the memory of `rate` over 100,000, 1,000,000 and 10,000,000 records, beside a
# plain program over the crate `csv` that does the same without proofs: both in one run, in turn, the
# least of several runs of each. No record differs. It wants Debian's librust-csv-dev, and 1.2 GB.
set -eu
cd "$(dirname "$0")/.."
program=${PREPAID:-bin/prepaid}
[ -d /usr/share/cargo/registry/csv-1.1.6 ] || { echo "the crate csv isn't here: apt-get install librust-csv-dev"; exit 1; }
work=$(mktemp -d)
trap 'rm -rf "$work"' EXIT

mkdir -p "$work/plain/src" "$work/plain/.cargo"
cp bench/plain_rate.rs "$work/plain/src/main.rs"
printf '[package]\nname = "plain"\nversion = "0.0.0"\nedition = "2021"\n[dependencies]\ncsv = "1"\nitoa = "1"\n' > "$work/plain/Cargo.toml"
printf '[source.crates-io]\nreplace-with = "debian"\n[source.debian]\ndirectory = "/usr/share/cargo/registry"\n' > "$work/plain/.cargo/config.toml"
(cd "$work/plain" && cargo build -q --release --offline)

cat > "$work/tariff.csv" <<'END'
prefix,from,fee,rate,free
49,00:00,50,400,0
49,08:00,50,1000,0
49,20:00,50,400,0
4915,00:00,0,1900,100
44,00:00,100,2400,0
44,18:00,100,1200,0
1,00:00,0,900,0
END
records() {
    cat "$work/tariff.csv"
    echo %%
    awk -v rows="$1" 'BEGIN {
        print "id,calling,called,answer,time,paid"
        for (i = 1; i <= rows; i++) {
            prefix = i % 4 == 0 ? 4915 : i % 4 == 1 ? 49 : i % 4 == 2 ? 44 : 1
            time = i * 7919 % 3600 + 1
            printf "%d,49171%07d,%d%07d,%d,%d,\n", i, i % 9999991, prefix, i * 31 % 9999991, i * 37 % 86400000, time
        }
    }'
}

for size in "100000 20" "1000000 5" "10000000 2"; do
    set -- $size
    records "$1" > "$work/records.csv"
    echo "rate of $1 records, $(stat -c %s "$work/records.csv") bytes:"
    bench/beside.py "$2" "$work/records.csv" "$program" rate -- "$work/plain/target/release/plain"
done
