# Moments in units of 100 ms, and back: awk -f examples/units.awk
# A line HH:MM:SS.T, or DAY HH:MM:SS.T with days from 0, becomes its units; a line of units becomes the latter.
/:/ {
    split($NF, part, ":")
    printf "%.0f\n", (NF > 1 ? $1 : 0) * 864000 + part[1] * 36000 + part[2] * 600 + part[3] * 10
    next
}
{ printf "%d %02d:%02d:%02d.%d\n", $1 / 864000, $1 / 36000 % 24, $1 / 600 % 60, $1 / 10 % 60, $1 % 10 }
