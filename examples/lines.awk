# awk -f lines.awk READ WRITTEN REPORT: tells of each line of the file WRITTEN of which lines of the file READ it has bytes,
# by a report whose sinks are what was written on one channel and whose sources what was read on one. Lines are counted from
# 1; one that has none isn't told.
function note(from) {
    if (!((to, from) in has)) {
        has[to, from]
        if (!(to in first) || from < first[to]) first[to] = from
        if (!(to in last) || from > last[to]) last[to] = from
    }
}
FNR == 1 { file++ }
file < 3 {
    for (i = 0; i <= length($0); i++) line[file, end[file] + i] = FNR
    end[file] += length($0) + 1
    lines = FNR
    next
}
NF > 1 && $1 != "end" {
    to = line[2, substr($1, index($1, ":") + 1)]
    for (i = 2; i <= NF; i++) note(line[1, substr($i, index($i, ":") + 1)])
}
END {
    for (to = 1; to <= lines; to++) {
        if (!(to in first)) continue
        told = ""
        for (from = first[to]; from <= last[to]; from++) if ((to, from) in has) told = told " " from
        print "line " to " has bytes of line" (first[to] < last[to] ? "s" : "") told
    }
}
