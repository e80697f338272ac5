# For the scripts beside it, which source it: the table that each of them prints.

# Prints rows from standard input as a table. A row has, with tabs between, what was measured, its unit, this repository's figure
# and, where something stands beside it, that one's figure; the ratio is the first through the second. NAME names what stands
# beside: [NAME]
print_table() {
    awk -F '\t' -v beside="${1-}" '
        function show(measured, unit, ours, theirs, ratio) {
            line = sprintf("%-48s %-10s %12s %12s %7s", measured, unit, ours, theirs, ratio)
            sub(/ +$/, "", line)
            print line
        }
        BEGIN { show("measured", "unit", "t1check", beside, beside == "" ? "" : "ratio") }
        { show($1, $2, $3, $4, $4 > 0 ? sprintf("%.2f", $3 / $4) : "") }'
}
