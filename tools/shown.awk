# What is shown of a line: what stands about a column of it, 100 bytes at most, with `..` where it was cut, a
# blank for a tab and a dot for any other byte that can't be printed. `caret` is how many bytes are shown
# before the column.
function shown(line, column,    cut, text) {
    cut = column > 61 ? column - 61 : 0
    text = substr(line, cut + 1, 101)
    sub(/\r$/, "", text)
    if (cut)
        text = ".." substr(text, 3)
    if (length(text) > 100)
        text = substr(text, 1, 98) ".."
    gsub(/\t/, " ", text)
    gsub(/[^ -~]/, ".", text)
    caret = column - cut - 1
    return text
}
