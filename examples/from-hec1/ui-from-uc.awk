# ui-from-uc.awk: the UI lines of a basin that has a UC (Clark) or a US (Snyder) in its HEC-1 deck, without a UA
#
#     awk -f ui-from-uc.awk UC AREA TC R MINUTES
#     awk -f ui-from-uc.awk US AREA TP CP MINUTES
#
# AREA in square miles (BA), the two fields of UC or US, MINUTES of an interval (IT). Prints a KM line and UI lines in
# free form, with two places, ready to paste.
#
# Clark: by i intervals after the start the part S(i / TC) of the area has begun to run off, where S(x) is the root of 2
# times x to the power of 1.5 up to the half, and 1 - S(1 - x) above it. What begins in an interval goes through a storage
# of R hours: of what flows in, C = M / (R + M / 2) is let out, and of what flowed out before, 1 - C. An ordinate is the mean
# of the storage's outflow at both ends of its interval. The list ends where it has passed 0.995 inch: HEC-1 ends it there
# and does not scale it. With -v whole=1 before -f it is scaled to one inch.
#
# Snyder: TC and R are sought until the unit hydrograph has the TP and the CP that are asked for. HEC-1 ends its own search
# within one per cent of both, so its ordinates may differ by that.

BEGIN {
    kind = ARGV[1]
    area = ARGV[2] + 0
    first = ARGV[3] + 0
    second = ARGV[4] + 0
    hours = ARGV[5] / 60
    if (ARGC != 6 || kind != "UC" && kind != "US" || area <= 0 || first <= 0 || second <= 0 || hours <= 0) {
        tell("usage: awk -f ui-from-uc.awk UC AREA TC R MINUTES, or US AREA TP CP MINUTES (square miles, hours, minutes)")
        exit 2
    }
    inch = 38720 * area / ARGV[5]
    if (kind == "UC") {
        if (first < hours || second < hours / 2) {
            tell("TC must be an interval at least, and R half of one")
            exit 2
        }
        clark(first, second)
    } else if (!snyder(first, second)) {
        tell("no TC of an interval or more, and R of half of one or more, gives TP " ARGV[3] " and CP " ARGV[4] " within one per cent")
        exit 2
    }
    printf "KM UI from %s %s,%s: %s square miles, %s minutes\n", kind, ARGV[3], ARGV[4], ARGV[2], ARGV[5]
    if (kind == "US") printf "KM by Clark with TC %.3f and R %.3f hours: TP %.3f, CP %.3f\n", used_tc, used_r, tp, cp
    if (whole) for (i = 1; i <= count; i++) u[i] *= inch / sum
    printf "KM %.2f cfs in all, %.4f inch\n", (whole ? inch : sum), (whole ? 1 : sum / inch)
    write()
    if (sum <= .995 * inch) {
        tell("150 ordinates, all that UI takes, have not more than " sprintf("%.4f", sum / inch) " inch: take a longer interval")
        faults = 1
    }
    exit faults
}

# clark TC R: the ordinates u[1] to u[count], their sum, and Snyder's tp and cp of them
function clark(tc, r,    c, before, out, i, begun, now, high, rise, fall, time) {
    used_tc = tc
    used_r = r
    c = hours / (r + hours / 2)
    sum = count = high = begun = before = 0
    while (sum <= .995 * inch && count < 150) {
        now = begun_by(++count * hours / tc)
        out = c * (now - begun) * inch + (1 - c) * before
        u[count] = (before + out) / 2
        sum += u[count]
        if (u[count] > u[high]) high = count
        begun = now
        before = out
    }
    # the time of the peak lies beside the highest ordinate, where two lines of the steeper slope meet
    u[0] = u[count + 1] = 0
    rise = u[high] - u[high - 1]
    fall = u[high] - u[high + 1]
    time = (high + (rise - fall) / (2 * (rise > fall ? rise : fall))) * hours
    tp = 1.048 * (time - .75 * hours)
    cp = u[high] * (time - .5 * hours) / (inch * hours)
}

function begun_by(x) {
    if (x >= 1) return 1
    return x <= .5 ? sqrt(2 * x * x * x) : 1 - sqrt(2 * (1 - x) * (1 - x) * (1 - x))
}

# snyder TP CP: seeks TC and R from a first guess on, by steps that are halved where none leads nearer; whether both are met
# within one per cent
function snyder(wanted_tp, wanted_cp,    tc, r, step, best, off, i, j, nearer, new_tc, new_r) {
    tc = within(1.1 * wanted_tp, hours)
    r = within(tc * (1 / wanted_cp - .75), hours / 2)
    best = 1e9
    for (step = .2; step > .000001; ) {
        nearer = 0
        for (i = -1; i <= 1; i++) {
            for (j = -1; j <= 1; j++) {
                clark(within(tc * (1 + i * step), hours), within(r * (1 + j * step), hours / 2))
                off = (tp / wanted_tp - 1) * (tp / wanted_tp - 1) + (cp / wanted_cp - 1) * (cp / wanted_cp - 1)
                if (off < best) {
                    best = off
                    new_tc = used_tc
                    new_r = used_r
                    nearer = 1
                }
            }
        }
        if (nearer) {
            tc = new_tc
            r = new_r
        } else step /= 2
    }
    clark(tc, r)
    return near(tp, wanted_tp) && near(cp, wanted_cp)
}

function within(value, least) {
    return value < least ? least : value
}

function near(found, wanted) {
    return found > .99 * wanted && found < 1.01 * wanted
}

# write: u[1] to u[count] as UI lines, eight values to a line, rounded by their running sums; zeros at the end are left out
function write(    i, shown, before, last, now, value, line) {
    for (i = 1; i <= count; i++) {
        now += u[i]
        shown = int(now * 100 + .5)
        value[i] = (shown - before) / 100
        if (value[i] > 0) last = i
        if (value[i] > 99999.99) faults = 1
        before = shown
    }
    for (i = 1; i <= last; i++) {
        line = line (line == "" ? "UI " : ",") sprintf("%.2f", value[i])
        if (i % 8 == 0 || i == last) {
            print line
            line = ""
        }
    }
    if (faults) tell("an ordinate is over 99,999.99 cfs, the most that UI takes: divide the basin")
}

function tell(words) {
    print "ui-from-uc.awk: " words | "cat 1>&2"
    close("cat 1>&2")
}
