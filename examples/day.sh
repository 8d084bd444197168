#!/usr/bin/env bash
# A day of a service: bash examples/day.sh FOLDER [FIRST] < MESSAGES > ANSWERS
# FOLDER has head.txt: a tariff, a setup and the header of the messages, with their dividers. Messages are answered
# until they end. Then the book of the day is made from its log and audited, and head.txt gets the setup of the next
# day; what the day came to is in a folder of FOLDER/kept. Where it is cut off anywhere, call it again: it goes on. With
# FIRST it prints the rows of the messages that it has from that number on once more. While day.log is there, leave
# head.txt as it is: a service that is started again with another head is refused.
set -euo pipefail
prepaid=$(realpath "$(command -v "${PREPAID:-prepaid}")")
examples=$(realpath "$(dirname "$0")")
cd "$1"
[ -e day.log ] || [ ! -e next.txt ] || mv next.txt head.txt
cat head.txt - | "$prepaid" serve --log day.log ${2:+--again "$2"}

IFS=, read -r _ _ wanted least tccd < day.log
tail -n +2 day.log | "$prepaid" serve --wanted "$wanted" --least "$least" --tccd "$tccd" --book |
    sed '1,/^%%$/d' > book.csv
"$prepaid" audit --long < book.csv > audit.txt
awk '/^%%/ { part++; next } part == 1' head.txt > setup.csv
awk -f "$examples/next_setup.awk" setup.csv book.csv > next.csv
{ sed '/^%%/q' head.txt && cat next.csv && awk '/^%%/ { part++ } part > 1' head.txt; } > next.txt
sync
mkdir -p kept
kept=$(mktemp -d "kept/$(date +%FT%T).XXXXXX")
mv book.csv audit.txt setup.csv next.csv day.log "$kept"
mv next.txt head.txt
