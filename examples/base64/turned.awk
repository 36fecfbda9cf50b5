# Turns a report round: for each of the first `count` bytes of channel 0, the output bytes whose lines list it.
$1 != "end" {
    for (i = 2; i <= NF; i++) sinks[$i] = sinks[$i] " " $1
}

END {
    for (offset = 0; offset < count; offset++) print "0:" offset sinks["0:" offset]
    print "end " count
}
