# Of lines that end in a number and are the same before that, keeps the first's place and the largest number. Lines with
# the same beginning, up to the first `|`, come together.
{
    number = $0
    sub(/.*[|]/, "", number)
    line = substr($0, 1, length($0) - length(number))
    head = substr(line, 1, index(line, "|"))
    if (!(head in lines))
        heads[++count] = head
    if (!(line in largest))
        lines[head] = lines[head] line "\n"
    if (!(line in largest) || number + 0 > largest[line])
        largest[line] = number + 0
}
END {
    for (k = 1; k <= count; k++) {
        split(lines[heads[k]], each, "\n")
        for (n = 1; each[n] != ""; n++)
            print each[n] largest[each[n]]
    }
}
