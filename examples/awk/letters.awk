# Writes a line for the letter to each customer, into the file letters, and what each owes.
BEGIN { FS = "," }
NR > 1 {
    if ($3 != "")
        account = $3
    print $2 ": pay " $4 " from " account >"letters"
    owed[$2] += $4
}
END { for (name in owed) print name, owed[name] }
