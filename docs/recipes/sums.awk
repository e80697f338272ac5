# Adds up the summaries of shards, which each wrote its own to standard error: awk -f sums.awk errors.* | sort -rn
/ fonts?: / {
    sub(/font:/, "fonts:")
    n = split($0, part, /: |, /)
    for (i = 1; i <= n; i++) sum[substr(part[i], index(part[i], " ") + 1)] += part[i]
}
/^ +[0-9]+ [A-Z]/ { n = $1; sub(/^ *[0-9]+ /, ""); sum[$0] += n }
END { for (what in sum) print sum[what], what }
