#!/usr/bin/awk -f
# Takes the fullest bin that stays below the target, else bin 0. The shell's `read` takes one line and no byte after it;
# an awk that reads ahead would wait for lines that don't come.
function next_line(read_one, told) {
    read_one = "read -r line && echo \"$line\""
    told = (read_one | getline) > 0
    close(read_one)
    return told
}
BEGIN {
    next_line()
    bins = $2; target = $4
    while (next_line() && $1 == "item") {
        best = 0; most = -1
        for (bin = 0; bin < bins; bin++)
            if (loads[bin] + $2 < target && loads[bin] > most) { best = bin; most = loads[bin] }
        loads[best] += $2
        print "bin " best
        fflush()
    }
}
