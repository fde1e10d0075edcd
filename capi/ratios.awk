# Makes one row of the lines of a loop that tell times, 'NAME: from Rattle ..' and 'NAME: by hand .., from C ..', and one of
# those that tell instructions, 'NAME|from Rattle|COUNT', 'NAME|by hand|COUNT' and 'NAME|from C|COUNT'. The line from Rattle is
# the first and can be left out. Where its checksum isn't that by hand, the row says so, and the status is 1.
/: from Rattle [0-9.]+ ns, checksum / {
    split($0, it, /: from Rattle | ns, checksum /)
    times[it[1]] = it[2]
    sums[it[1]] = it[3]
    next
}
/: by hand [0-9.]+ ns, from C / {
    split($0, it, /: by hand | ns, from C |, checksum /)
    if (!(it[1] in times)) {
        print
    } else if (it[4] "" == sums[it[1]] "") {
        shown = sprintf("%s ns, %.2f times", times[it[1]], times[it[1]] / it[2])
        printf "%s: by hand %s ns, from Rattle %s, from C %s, checksum %s\n", it[1], it[2], shown, it[3], it[4]
    } else {
        print it[1] ": what came out of Rattle's calls isn't what came out by hand"
        failed = 1
    }
    next
}
/[|]from Rattle[|]/ {
    split($0, it, "|")
    counts[it[1]] = it[3]
    next
}
/[|]by hand[|]/ {
    split($0, hand, "|")
    next
}
/[|]from C[|]/ {
    split($0, both, "|")
    shown = ""
    if (both[1] in counts)
        shown = sprintf("from Rattle %d, %.2f times, ", counts[both[1]], counts[both[1]] / hand[3])
    printf "%s: by hand %d instructions, %sfrom C %d, %.2f times\n", both[1], hand[3], shown, both[3], both[3] / hand[3]
    next
}
{ print }
END { exit failed }
