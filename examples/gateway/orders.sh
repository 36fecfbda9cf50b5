#!/bin/sh
# Writes 8,000 orders of 48 bytes, 384,000 bytes in all, the same each time. The fields are text, with blanks between
# them and a line feed after the last:
#
#   0 to 5     customer
#   7 to 16    account; the last digit is a check digit
#   18 to 24   the customer's own reference
#   26         side, B or S
#   28 to 32   quantity
#   34 to 37   symbol
#   39 to 46   price in cents
awk '
# The generator of Park and Miller. No product exceeds 2^46, so every awk computes it exactly.
function below(n) { state = (state * 16807) % 2147483647; return state % n }

function account(customer,    digits, sum, i) {
    digits = sprintf("%09d", 100000000 + customer * 4417829)
    for (i = 1; i <= 9; i++) sum += substr(digits, i, 1)
    return digits sum % 10
}

BEGIN {
    state = 20260101
    split("acme oslo riga bern kyiv", symbols, " ")
    for (i = 0; i < 8000; i++) {
        customer = 1 + below(200)
        quantity = 1 + below(999)
        if (below(40) == 0) quantity = 0            # the gateway rejects it
        side = below(2) ? "B" : "S"
        symbol = symbols[1 + below(5)]
        price = 100 + below(90000)
        printf "C%05d %s R%06d %s %05d %s %08d\n",
            customer, account(customer), below(1000000), side, quantity, symbol, price
    }
}' </dev/null
