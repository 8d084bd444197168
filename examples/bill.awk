# The bill of a subscriber, from the table of calls: awk -v number=DIGITS -f examples/bill.awk calls.csv
# A line for each call that was answered: its start, the number called, the seconds talked, and what it has paid.
function clock(units) {
    return sprintf("%02d:%02d:%02d", units / 36000 % 24, units / 600 % 60, units / 10 % 60)
}
BEGIN { FS = "," }
# Digits are compared as texts: 0491 is another number than 491.
$2 "" == number && $7 != "" {
    printf "%s %s %.1f s %s\n", clock($6), $3, ($9 + $10) / 10, $11
    total += $11
}
END { printf "total %.0f\n", total }
