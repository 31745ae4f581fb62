# base-flow.awk: the QI lines that stand for the BF of a basin in its HEC-1 deck
#
#     ./hec1 --hydrograph BASIN DECK | awk -f base-flow.awk STRTQ QRCSN RTIOR
#
# Reads the basin's hydrograph as --hydrograph prints it, of a deck that has no base flow yet. STRTQ is in cfs: where BF has
# it below 0, as cfs to a square mile, multiply it by the area first. QRCSN is in cfs, or below 0 the part of the peak that
# it is; RTIOR is the ratio of a flow to the one an hour later, 1 at least. Prints QI lines in free form, a value for each
# interval, with two places. Their block and the basin's, joined by HC 2, are the basin with its base flow.
#
# By t hours after the start the first flow has fallen to STRTQ / RTIOR ^ t; the runoff and this are the sum. Where the sum
# falls below QRCSN behind a peak, a recession sets in: QRCSN / RTIOR ^ t, with t from the time at which QRCSN is passed, on a
# straight line between two intervals. The flow is then the recession or the sum, whichever is larger. Where the sum is, a
# new peak is looked for, and a QRCSN below 0 is a part of that one. A value is what the flow has above the runoff.

BEGIN {
    FS = ","
    start = ARGV[1] + 0
    part = ARGV[2] + 0
    ratio = ARGV[3] + 0
    if (ARGC != 4 || start < 0 || ratio < 1) {
        print "base-flow.awk: usage: awk -f base-flow.awk STRTQ QRCSN RTIOR <HYDROGRAPH (cfs; cfs, or below 0 a part of the peak; 1 or more)" | "cat 1>&2"
        close("cat 1>&2")
        failed = 2
        exit
    }
    ARGC = 1
}

$1 ~ /^[0-9]+$/ {
    hour = $2 / 60
    sum = $3 + start / ratio ^ hour
    below = part < 0 ? -part * peak : part
    if (count++ && sum < below && old_sum >= below) {
        begun = old_hour + (hour - old_hour) * (old_sum - below) / (old_sum - sum)
        from = below
    }
    held = from / ratio ^ (hour - begun)
    flow = sum
    if (held > sum) {
        flow = held
        peak = 0
    } else if (sum > peak) peak = sum
    line = line (line == "" ? "QI " : ",") sprintf("%.2f", flow - $3)
    if (count % 8 == 0) {
        print line
        line = ""
    }
    old_hour = hour
    old_sum = sum
}

END {
    if (failed) exit failed
    if (line != "") print line
}
