# Reads a report on channel 1 and tells, for each reply, how many of its bytes came from another order than the one
# that it answers. Orders and replies have 48 bytes each, and reply n answers order n.
BEGIN { FS = "[ :]" }

$1 == "end" { next }

{
    if (int($2 / 48) != reply) tell()
    reply = int($2 / 48)
    seen = reply
    for (i = 4; i <= NF; i += 2) {          # the sources of a byte ascend
        order = int($i / 48)
        if (order != reply && order != seen) bytes[order]++
        seen = order
    }
}

END { tell() }

function tell(    order) {
    for (order in bytes)
        print "reply " reply " has " bytes[order] (bytes[order] == 1 ? " byte" : " bytes") " of order " order
    split("", bytes)
}
