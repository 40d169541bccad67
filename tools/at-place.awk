# Reads a text, and at least 200 bytes behind a `place` of it. Prints, each on a line: the number of the
# place's line and its column, counted from 1; what is shown of the line; the blanks before the caret; what
# stands before the place, without the blanks there; what stands at the place and behind it in its line. The
# end of the text is right behind its last byte that isn't blank, and nothing stands there.

place < start + length($0) {
    found = 1
    tell(NR, $0, place - start + 1)
    exit
}

{
    start += length($0) + 1
}

match($0, /^.*[^ \t\r\f]/) {
    last = substr($0, 1, RLENGTH)
    last_number = NR
}

END {
    if (!found)
        tell(last_number ? last_number : 1, last, length(last) + 1)
}

function tell(number, line, column,    before) {
    print number, column
    print shown(line, column)
    print sprintf("%" caret "s", "")
    before = (found ? substr(last, length(last) < 200 ? 1 : length(last) - 199) " " : "") substr(line, column > 200 ? column - 200 : 1, column > 200 ? 200 : column - 1)
    sub(/[ \t\r\f]+$/, "", before)
    print before
    print found ? substr(line, column, 200) : ""
}
