# Of a report on channel 1, the lines of offsets from `from` up to and without `past`, each with those of its source
# bytes whose offset on channel 0 is below `sources`.
BEGIN { FS = "[ :]" }

$1 != "end" && $2 >= from && $2 < past {
    line = $1 ":" $2
    for (i = 4; i <= NF; i += 2) if ($i < sources) line = line " " $(i - 1) ":" $i
    print line
    lines++
}

END { print "end " lines + 0 }
