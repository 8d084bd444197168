# The setup of the next day, from this day's and its book: awk -f examples/next_setup.awk setup.csv book.csv > next.csv
# Each account opens with what was available to it at the end, and with the last moment that it had then; one that the
# book hasn't opens as the setup says. A call that still holds money is named, and the status is 1: end it first. No field
# of the setup has quotes.
function plain(number) {
    sub(/^0+/, "", number)
    return number == "" ? "0" : number
}
BEGIN { FS = OFS = "," }
{ sub(/\r$/, "") }
FNR == NR {
    if ($1 == "account" || $1 == "subscriber") rows[++count] = $0
    next
}
FNR == 1 { next }
$3 == "opening" { left[$1] = $5; until[$1] = $6; next }
{ left[$1] = $NF }
$(NF - 3) == "credited" && $6 != "" { until[$1] = $6 }
$(NF - 3) == "granted" { open[$4 " of account " $1] }
$(NF - 3) == "returned" { delete open[$4 " of account " $1] }
END {
    for (call in open) {
        print "call " call " holds money" > "/dev/stderr"
        status = 1
    }
    if (status) exit status
    print "kind", "key", "value", "until"
    for (row = 1; row <= count; row++) {
        split(rows[row], field)
        number = plain(field[2])
        if (field[1] == "account" && number in left) print field[1], number, left[number], until[number]
        else print field[1], field[2], field[3], field[4]
    }
}
