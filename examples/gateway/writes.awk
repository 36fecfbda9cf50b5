# Reads the bytes of a log in version 2, one number a line (od -An -v -t u1 -w1), and tells of each write the step, the
# channel and the length. docs/FORMATS.md has the form.
BEGIN {
    need = 48
    what = "header"
    split("24 24 16 12 12 16 8", fields, " ")   # of each tag, without the tag itself
}

skip > 0 { skip--; next }

{ byte[have++] = $1 }

have == need { have = 0; take() }

function word(at) { return byte[at] + 256 * (byte[at + 1] + 256 * (byte[at + 2] + 256 * byte[at + 3])) }

function take() {
    if (what == "header") {
        inputs = word(44)
    } else if (what == "channel") {
        skip = word(0)
        inputs--
    } else if (what == "tag") {
        tag = byte[0]
    } else if (tag == 2 && word(20) < 2147483648) {
        skip = word(20)
        print word(0) + 4294967296 * word(4), word(8), word(20)
    }
    what = inputs > 0 ? "channel" : what == "tag" ? "fields" : "tag"
    need = what == "channel" ? 4 : what == "tag" ? 1 : fields[tag]
}
