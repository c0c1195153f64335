# Prints, from the lines of all placements (call, record, length, nanoseconds of the verified call and of the peer's), the times of each
# call to the file `tables`, and to standard output the ratios beside their bars. A ratio above its bar is marked; the exit status is then 1,
# unless that is known. With `bar` set it is the bar of every row, and an earlier archive stands in the peer's place.
function number(ns,    digits, text) {
    if (ns < 100) return sprintf("%.1f", ns)
    digits = sprintf("%.0f", ns)
    for (text = ""; length(digits) > 3; digits = substr(digits, 1, length(digits) - 3)) text = "," substr(digits, length(digits) - 2) text
    return digits text
}
# The row of the ratios that a record counts in. A comparison's time is its entry where the words differ within 64 bytes; a summary's is
# its answer where the list has one or two parts. The test refuses records with marks; in the cuts, most of the work on many marks is theirs.
function row_of(call, record) {
    if (call ~ /two starts/) return call " " record
    if (call ~ /metsroeb_compare/) return call (record ~ /^(random|falling ramp|rising plateaus)/ ? ": ends at once" : ": long")
    if (call ~ /metsroeb_summarize/) return call (record ~ /^(falling ramp|c\^k)/ ? ": one or two parts" : ": more parts")
    if (call ~ /metsroeb_test/ && record ~ /mark/) return call ": refused by 9"
    if (call ~ /metsroeb_(icfl|cfl_in)/ && record ~ /^(marks|a and a mark)/) return call ": many marks"
    return call
}
# Reader and summary are called once for a page. The breaks may cost something, beside the cut without them. The peer of the comparison
# reads eight bytes in a step as the verified one does.
function bar_of(row) {
    if (bar != "") return bar
    if (row ~ /both verified/) return 1.30
    if (row ~ /metsroeb_compare/) return 1.15
    return row ~ /metsroeb_(factor|summarize)/ ? 1.25 : 1.00
}
# Bars that are known to be missed (docs/DECISIONS.md, the summary and marks): the run fails only above these.
function limit_of(row) {
    if (bar == "" && row ~ /bands are read/) return 1.65
    if (bar == "" && row ~ /refused by 9/) return 12.00
    if (bar == "" && row ~ /many marks/) return 3.00
    return bar_of(row)
}
function marked(ratio, bar,    shown) {
    shown = sprintf("%.2f", ratio)
    return shown + 0 > bar ? "**" shown "**" : shown
}
BEGIN {
    FS = "\t"
    if (tables == "") tables = "/dev/stdout"
    count = split("512 1024 2048 4096", lengths, " ")
    print "# Times\n" > tables
    print "Written by `bench/run`; [docs/BENCHMARKS.md](../docs/BENCHMARKS.md) says how they are taken. Nanoseconds of a call," > tables
    other = bar == "" ? "peer" : "earlier"
    print "verified / " other " = ratio, marked where it is above its bar. Each number is the least of 48 medians, twelve for each" > tables
    print "of four placements of the code in memory; a median is of 25 batches, verified and " other " in alternation. Growth: of the" > tables
    print "verified call's time, from each length to the next." > tables
}
{
    key = $1 FS $2 FS $3
    if (!($1 in records)) calls[++call_count] = $1
    if (!(($1, $2) in seen)) { seen[$1, $2] = 1; record[$1, ++records[$1]] = $2 }
    if (!(key in verified) || $4 < verified[key]) verified[key] = $4
    if (!(key in peer) || $5 < peer[key]) peer[key] = $5
}
END {
    for (c = 1; c <= call_count; c++) {
        call = calls[c]
        printf "\n## %s\n\n| record | 512 | 1,024 | 2,048 | 4,096 | growth |\n|---|---|---|---|---|---|\n", call > tables
        for (r = 1; r <= records[call]; r++) {
            row = row_of(call, record[call, r])
            if (!(row in ratios)) rows[++row_count] = row
            line = "| " record[call, r] " |"
            growth = ""
            for (k = 1; k <= count; k++) {
                key = call FS record[call, r] FS lengths[k]
                ratio = verified[key] / peer[key]
                line = line " " number(verified[key]) " / " number(peer[key]) " = " marked(ratio, bar_of(row)) " |"
                if (k > 1) growth = growth " " sprintf("%.1f", verified[key] / before)
                before = verified[key]
                if (!(row in ratios) || ratio < least[row]) least[row] = ratio
                if (ratio > most[row]) most[row] = ratio
                sum[row] += log(ratio)
                ratios[row]++
            }
            print line growth " |" > tables
        }
    }
    if (tables == "/dev/stdout") print "\n## Ratios\n"
    print "| call | least | geometric mean | greatest | bar |\n|---|---|---|---|---|"
    for (r = 1; r <= row_count; r++) {
        row = rows[r]
        greatest = marked(most[row], bar_of(row))
        printf "| %s | %.2f | %.2f | %s | %.2f |\n", row, least[row], exp(sum[row] / ratios[row]), greatest, bar_of(row)
        if (sprintf("%.2f", most[row]) + 0 > limit_of(row)) above = above "\nabove its bar: " row ": " sprintf("%.2f", most[row])
    }
    if (above != "") { print above > "/dev/stderr"; exit 1 }
}
