# Writes 1,000 trades, the same each time.
function next_of(count) {
    seed = (seed * 1103515245 + 12345) % 2147483648
    return int(seed / 65536) % count
}
BEGIN {
    split("ACME OSLO RIGA KYIV", symbol, " ")
    print "id,account,symbol,side,qty,cents"
    for (id = 1; id <= 1000; id++)
        print id ",C" 100 + next_of(900) "," symbol[1 + next_of(4)] "," (next_of(2) ? "S" : "B") "," 1 + next_of(500) "," 100 + next_of(30000)
}
