# ui-from-ud.awk: the UI lines of a basin that has a UD in its HEC-1 deck (the SCS dimensionless unit hydrograph)
#
#     awk -f ui-from-ud.awk AREA LAG MINUTES
#
# AREA in square miles (BA), LAG in hours (UD), MINUTES of an interval (IT). Prints a KM line and UI lines in free form,
# with two places, ready to paste. They add up to an inch over the area: 38,720 x AREA / MINUTES cfs.
#
# The peak comes half an interval and the lag after the start, T = MINUTES / 120 + LAG hours, and is 484 x AREA / T cfs.
# Ordinate i is that peak times the curve below at i intervals / T, on a straight line between two points of it. All are
# then multiplied by one factor, so that they add up. They are rounded by their running sums, so that they still do.

BEGIN {
    area = ARGV[1] + 0
    lag = ARGV[2] + 0
    minutes = ARGV[3] + 0
    if (ARGC != 4 || area <= 0 || lag <= 0 || minutes < 1) {
        tell("usage: awk -f ui-from-ud.awk AREA LAG MINUTES (square miles, hours, minutes)")
        exit 2
    }
    # t / T and the flow at it, as a part of the peak
    curve = "0 0 .1 .03 .2 .1 .3 .19 .4 .31 .5 .47 .6 .66 .7 .82 .8 .93 .9 .99 1 1 1.1 .99 1.2 .93 1.3 .86 1.4 .78 1.5 .68 1.6 .56"
    curve = curve " 1.7 .46 1.8 .39 1.9 .33 2 .28 2.2 .207 2.4 .147 2.6 .107 2.8 .077 3 .055 3.2 .04 3.4 .029 3.6 .021 3.8 .015 4 .011 4.5 .005 5 0"
    points = split(curve, at, " ") / 2
    hours = minutes / 60
    peak_time = hours / 2 + lag
    peak = 484 * area / peak_time
    k = 1
    for (count = 0; (count + 1) * hours < 5 * peak_time; ) {
        t = ++count * hours / peak_time
        while (at[2 * k + 1] < t) k++
        u[count] = peak * (at[2 * k] + (at[2 * k + 2] - at[2 * k]) * (t - at[2 * k - 1]) / (at[2 * k + 1] - at[2 * k - 1]))
        sum += u[count]
    }
    inch = 38720 * area / minutes
    for (i = 1; i <= count; i++) u[i] *= inch / sum
    printf "KM UI from UD %s: %s square miles, %s minutes, %.2f cfs in all\n", ARGV[2], ARGV[1], ARGV[3], inch
    write()
    if (hours > .29 * lag) tell("the interval is over 0.29 of the lag, which HEC-1's manual advises against: the peak may be cut off")
    exit faults
}

# write: u[1] to u[count] as UI lines, eight values to a line; zeros at the end are left out
function write(    i, shown, before, last, now, value, line) {
    for (i = 1; i <= count; i++) {
        now += u[i]
        shown = int(now * 100 + .5)
        value[i] = (shown - before) / 100
        if (value[i] > 0) last = i
        if (value[i] > 99999.99) faults = 1
        before = shown
    }
    for (i = 1; i <= last; i++) {
        line = line (line == "" ? "UI " : ",") sprintf("%.2f", value[i])
        if (i % 8 == 0 || i == last) {
            print line
            line = ""
        }
    }
    if (faults) tell("an ordinate is over 99,999.99 cfs, the most that UI takes: divide the basin")
    if (last > 150) {
        tell(last " ordinates, and UI takes 150: take a longer interval")
        faults = 1
    }
}

function tell(words) {
    print "ui-from-ud.awk: " words | "cat 1>&2"
    close("cat 1>&2")
}
