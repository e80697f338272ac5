# Looks in a glyph's trace for a cause of FontForge's overlapped hints: awk -f stems.awk TRACE
# Prints `edge hints` if the band of a stem of width -20 or -21 overlaps or touches another stem, and else `hints replaced before a point` if stems do of two
# hint sets between which nothing is drawn. FontForge takes bands for bands, and gives a point all hints that are set before it.

# Adds a stem to the hint set and to those that the next point gets.
function add(direction, position, width,    low, high) {
    low = width < 0 ? position + width : position
    high = width < 0 ? position : position + width
    stems++
    way[stems] = direction
    from[stems] = low
    to[stems] = high
    edge[stems] = width == -20 || width == -21
    set_of[stems] = set
}

# Looks at the stems that the next point gets; with these of earlier sets go.
function look(    i, j) {
    for (i = first; i <= stems; i++) for (j = i + 1; j <= stems; j++) {
        if (way[i] != way[j] || from[i] > to[j] || from[j] > to[i] || (from[i] == from[j] && to[i] == to[j])) continue
        if (set_of[i] != set_of[j]) replaced = 1
        else if (edge[i] || edge[j]) edges = 1
    }
    for (i = first; i <= stems && set_of[i] != set; i++) first = i + 1
}

BEGIN { first = 1; set = 1 }
$3 ~ /^-?[0-9]/ { stack[++depth] = $3; next }
$3 == "div" { depth--; stack[depth] = stack[depth] / stack[depth + 1]; next }
$3 == "callsubr" { depth--; next }
$3 == "pop" { stack[++depth] = 0; next }
$3 == "return" { next }
$3 == "callothersubr" {
    if (stack[depth] == 3 && stack[depth - 1] == 1) set++
    depth -= 2 + stack[depth - 1]
    if (depth < 0) depth = 0
    next
}
$3 ~ /^[hv]stem/ { for (i = 1; i < depth; i += 2) add(substr($3, 1, 1), stack[i], stack[i + 1]) }
$3 ~ /line|curve/ { look() }
{ depth = 0 }
END {
    if (edges) print "edge hints"
    else if (replaced) print "hints replaced before a point"
}
