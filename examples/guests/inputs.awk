# inputs.awk: writes the guests' inputs into the folder `out`, the same each time. Only printable bytes are written, so that
# every awk writes the same.

# The generator of Park and Miller. No product exceeds 2^46, so every awk computes it exactly.
function below(n) { state = (state * 16807) % 2147483647; return state % n }
function letters(n,    s) { while (n-- > 0) s = s substr("abcdefghijklmnopqrstuvwxyz0123456789", 1 + below(36), 1); return s }

BEGIN {
    state = 20261127
    file = out "/parser.0"
    printf "[\n" > file
    for (i = 0; i < 2500; i++)
        printf "{\"id\": %d, \"name\": \"%s\", \"at\": [%d, %d, {\"size\": %d}]},\n", i, letters(8), below(100000), below(1000), below(50) > file
    printf "0]\n" > file

    file = out "/cipher.0"
    for (i = 0; i < 1600; i++) print letters(63) > file
    file = out "/cipher.1"
    printf "%s", letters(44) > file

    file = out "/sort.0"
    for (i = 0; i < 6000; i++) printf "%s", letters(16) > file

    file = out "/store.0"
    for (i = 0; i < 20000; i++) printf "%s%07d%s", below(3) ? "G" : "P", below(1500), letters(16) > file
}
