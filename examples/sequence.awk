# A call as a sequence diagram that Mermaid draws, from a trace: awk -v call=N -f examples/sequence.awk trace.csv
# Behind each message are the operations that answer it, which come to the switch after the delay. Numbers of calls are
# compared as texts, since awk has no numbers beyond 2^53.
function clock(units) {
    return sprintf("%02d:%02d:%02d.%d", units / 36000 % 24, units / 600 % 60, units / 10 % 60, units % 10)
}
BEGIN {
    FS = ","
    print "sequenceDiagram"
    print "    participant switch"
    print "    participant service"
}
NR > 1 && $3 != "" && $3 "" == call {
    said = $5
    for (i = 6; i <= NF; i++) if ($i != "") said = said " " $i
    if ($1 != moment) printf "    Note over switch,service: %s\n", clock($1)
    if ($4 == "switch") printf "    switch->>service: %s\n", said
    else if ($5 == "stray" || $5 == "refused") printf "    Note right of service: %s\n", said
    else printf "    service->>switch: %s\n", said
    moment = $1
}
