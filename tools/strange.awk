# Reads the tokens of a dot library's JSON, each on a line, as `grep -oE` cuts them, and then the lines of a design.
# Prints for the tile (x, y): its dots, counted within the tile, and the form of its group that comes nearest, with the
# dots by which the two differ. Both texts were taken by the program, so nothing of their form is tested here.

FNR == NR {
    read_token($0)
    next
}

/^<created_by>/ {
    gsub(/[^0-9]+/, " ")
    split($0, side, " ")
    columns = side[1]
    rows = side[2]
    left = x * width + (y % 2) * width / 2
    top = y * height
}

/^<dbdot>/ {
    gsub(/[^0-9]+/, " ")
    split($0, at, " ")
    n = at[1] - left
    m = at[2] - top
    if (n >= 0 && n < width && m >= 0 && m < height)
        is_there[n "," m "," at[3]] = 1
}

END {
    for (form in dots_of)
        if (group(form) == group_here())
            try_form(form)
    printf "the dots of the tile, as [n, m, l] within it:%s\n", spelt(is_there)
    if (best != "") {
        printf "the form that comes nearest is `%s`", best
        printf missing ? ", which has also%s" : "", missing
        printf extra ? (missing ? ", and hasn't%s" : ", which hasn't%s") : "", extra
        print ""
    }
}

# Goes on in the JSON by a token. Keys of the object stand at depth 1, names of forms at depth 2.
function read_token(token) {
    if (token ~ /^[[{]$/) {
        depth++
        is_value = 0
        if (depth == 3 && field == "forms")
            delete_form(name)
        if (depth == 4)
            count = 0
    } else if (token ~ /^[]}]$/) {
        if (depth == 4 && field == "forms")
            dots_of[name] = dots_of[name] " " number[1] "," number[2] "," number[3]
        depth--
    } else if (token == ":" || token == ",")
        is_value = token == ":"
    else if (depth == 1 && !is_value)
        field = substr(token, 2, length(token) - 2)
    else if (depth == 2 && field == "forms" && !is_value)
        name = substr(token, 2, length(token) - 2)
    else if (depth == 1 && field == "width")
        width = token
    else if (depth == 1 && field == "height")
        height = token
    else if (depth == 4)
        number[++count] = token
}

function delete_form(form) {
    dots_of[form] = ""
}

function group(form) {
    return form ~ /^input_/ ? "input" : form ~ /^output_/ ? "output" : "other"
}

# (inputs stand in the first row, and outputs in the last)
function group_here() {
    return y == 0 ? "input" : y == rows - 1 ? "output" : "other"
}

# Takes the form where it differs in fewer dots than those before, or in as many and its name is less.
function try_form(form,    list, k, has, count, lacks, more, dot, i) {
    k = split(dots_of[form], list, " ")
    for (i = 1; i <= k; i++)
        has[list[i]] = 1
    for (dot in has)
        if (!(dot in is_there)) {
            count++
            lack[dot] = 1
        }
    for (dot in is_there)
        if (!(dot in has)) {
            count++
            more_of[dot] = 1
        }
    if (best == "" || count + 0 < least || count + 0 == least && form < best) {
        best = form
        least = count + 0
        missing = spelt(lack)
        extra = spelt(more_of)
    }
    for (dot in lack)
        delete lack[dot]
    for (dot in more_of)
        delete more_of[dot]
}

# Dots in order, by m, then l, then n, eight at most.
function spelt(dots,    list, count, i, j, dot, text) {
    for (dot in dots) {
        for (i = count++; i > 0 && comes_before(dot, list[i]); i--)
            list[i + 1] = list[i]
        list[i + 1] = dot
    }
    for (j = 1; j <= count && j <= 8; j++)
        text = text " [" list[j] "]"
    gsub(/,/, ", ", text)
    return text (count > 8 ? " .." : "")
}

function comes_before(dot, other,    a, b) {
    split(dot, a, ",")
    split(other, b, ",")
    return a[2] != b[2] ? a[2] + 0 < b[2] + 0 : a[3] != b[3] ? a[3] + 0 < b[3] + 0 : a[1] + 0 < b[1] + 0
}
