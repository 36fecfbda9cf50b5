# awk -f orders.awk: writes 8,000 orders as gateway.c reads them, the same each time. One of fifty has no account.

# The generator of Park and Miller. No product exceeds 2^46, so every awk computes it exactly.
function below(n) { state = (state * 16807) % 2147483647; return state % n }

BEGIN {
    state = 20261129
    split("ACME BERN KYIV OSLO RIGA", symbols, " ")
    for (i = 0; i < 8000; i++) {
        customer = 1 + below(300)
        account = below(50) == 0 ? "" : 1000000000 + customer * 4417829
        symbol = symbols[1 + below(5)]
        side = below(2) ? "B" : "S"
        quantity = below(500)
        printf "C%03d,%s,%s,%s,%d,%d\n", customer, account, symbol, side, quantity, 100 + below(40000)
    }
}
