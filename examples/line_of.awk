# The line of a file that a fault names: awk -v section=script -v row=N -f examples/line_of.awk FILE
# The section is the word of the fault: tariff, setup or script of an input of `run`, records of `rate`, messages of
# `serve`, else that of the only table.
# It counts as the fault does, the header being row 1 and an empty line none. A quoted field may not go over a line's end.
BEGIN {
    wanted = section == "setup" || section == "records" ? 1 : section == "script" || section == "messages" ? 2 : 0
}
{ sub(/\r$/, "") }
$0 == "%%" { at++; count = 0; next }
at == wanted && $0 != "" && ++count == row { print "line " NR ": " $0; exit }
