# Reads a name, alone on the first line, and then a module, which stands in the file FILE of the environment.
# Prints, for each of the first three lines of the module on which the name stands outside comments and
# attributes: FILE, the line's number, the column of the first one there, and what is shown of the line. In a
# line of more than 20,000 bytes comments and attributes aren't told apart.

NR == 1 {
    file = ENVIRON["FILE"]
    name = $0
    is_word = name ~ /^[A-Za-z_][A-Za-z0-9_$]*$/
    next
}

# (most lines of attributes are passed over at once)
inside != "" || index($0, name) || !/^[ \t]*\(\*[^*]*\*\)[ \t\r]*$/ {
    line = $0
    if (length(line) <= 20000 && (inside != "" || line ~ /\/[\/*]|\(\*/))
        line = without_comments(line)
    at = index(line, name) ? first_place(line) : 0
    if (at) {
        print file ":" NR - 1 ":" at ": " shown($0, at)
        if (++found == 3)
            exit
    }
}

# Where the name first stands in the line as a name, counted from 1, or 0.
function first_place(line,    rest, at, skipped, tries) {
    rest = line
    for (tries = 0; tries < 200 && (at = index(rest, name)); tries++) {
        if (is_name_at(line, skipped + at))
            return skipped + at
        skipped += at
        rest = substr(rest, at + 1)
    }
    return 0
}

# Whether what stands there is the whole name: between bytes that are of no word, or, where the run of bytes
# before it has a backslash, from right behind that to the next blank.
function is_name_at(line, at,    from, before, behind, slash) {
    behind = substr(line, at + length(name), 1)
    if (index(line, "\\")) {
        from = at > 200 ? at - 200 : 1
        before = substr(line, from, at - from)
        sub(/^.*[^!-~]/, "", before)
        slash = index(before, "\\")
        if (slash)
            return slash == length(before) && behind !~ /[!-~]/
    }
    return is_word && (at == 1 || substr(line, at - 1, 1) !~ /[A-Za-z0-9_$]/) && behind !~ /[A-Za-z0-9_$]/
}

# The line with blanks for comments and attributes. What is open at its end is kept in `inside`.
function without_comments(line,    count, pieces, i, out) {
    gsub(/\\[!-~]+|\/\/|\/\*|\*\/|\(\*\)|\(\*|\*\)/, "\n&\n", line)
    count = split(line, pieces, "\n")
    for (i = 1; i <= count; i++) {
        if (inside == "" && i % 2 == 0 && pieces[i] == "//")
            return out
        if (inside == "" && i % 2 == 0 && (pieces[i] == "/*" || pieces[i] == "(*")) {
            inside = pieces[i]
            out = out "  "
        } else if (inside == "")
            out = out pieces[i]
        else {
            out = out sprintf("%" length(pieces[i]) "s", "")
            if (closes(pieces[i], pieces[i + 1]))
                inside = ""
        }
    }
    return out
}

function closes(piece, next_piece) {
    if (inside == "(*")
        return index(piece, "*)")
    return index(piece, "*/") || (piece == "/*" && substr(next_piece, 1, 1) == "/")
}
