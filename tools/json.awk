# Reads the tokens of a text, as `grep -obE` prints them, each behind its place in bytes and a colon. Without `field` it
# prints the place of the first token with which the text begins no JSON, or "end" where more is wanted, and nothing
# where each token may stand; whether strings are UTF-8 is not looked at. With `field` it prints what stands last
# as this field of the object or, where `form` is set, as that field's own field `form`.

{
    at = index($0, ":")
    place = substr($0, 1, at - 1)
    token = substr($0, at + 1)
    if (field != "")
        note(token)
    else if (!goes_on(token)) {
        print place
        found = 1
        exit
    }
}

END {
    if (field != "")
        print value
    else if (!found && (depth > 0 || state != "end"))
        print "end"
}

# Whether the token may stand next. `state` is what may: a value (at first), a value or `]`, a key, a key or `}`, a colon,
# or what stands behind a value.
function goes_on(token) {
    if (state == "" || state == "value" || state == "first value" && token != "]")
        return starts_value(token)
    if (state == "first value" || state == "first key" && token == "}")
        return closes()
    if (state == "key" || state == "first key") {
        state = "colon"
        return is_string(token)
    }
    if (state == "colon") {
        state = "value"
        return token == ":"
    }
    if (state == "end")
        return 0
    if (token == ",") {
        state = inside[depth] == "{" ? "key" : "value"
        return 1
    }
    return token == (inside[depth] == "{" ? "}" : "]") && closes()
}

function starts_value(token) {
    if (token == "{" || token == "[") {
        inside[++depth] = token
        state = token == "{" ? "first key" : "first value"
        return depth <= 127
    }
    state = depth ? "behind" : "end"
    return token ~ /^(true|false|null|-?(0|[1-9][0-9]*)(\.[0-9]+)?([eE][-+]?[0-9]+)?)$/ || is_string(token)
}

function closes() {
    state = --depth ? "behind" : "end"
    return 1
}

function is_string(token) {
    return token ~ /^"([^"\\\001-\037]|\\["\\\/bfnrt]|\\u[0-9a-fA-F][0-9a-fA-F][0-9a-fA-F][0-9a-fA-F])*"$/
}

# Follows the tokens of a JSON object, and keeps the value of the field.
function note(token) {
    if (token ~ /^[]}]$/)
        depth--
    if (depth == level + 0 && token ~ /^[,}]$/ || depth < level + 0)
        is_kept = 0
    if (is_kept)
        value = length(value) < 200 ? value token : value
    if (token == ":" && depth == 1) {
        name = before
        start(form == "" && name == "\"" field "\"", 1)
    } else if (token == ":" && depth == 2 && form != "" && name == "\"" field "\"")
        start(before == "\"" form "\"", 2)
    if (token ~ /^[[{]$/)
        depth++
    before = token
}

function start(is_it, at_depth) {
    if (is_it) {
        is_kept = 1
        level = at_depth
        value = ""
    }
}
