# Sourced by ./bestagon and tools/explain: which files the words of a command name.

# Sets `names` to the words behind the command that are no options, and of `net`, `lib`, `design` and `cert` those that
# the command has, in its order. Up to a word `--` an option takes the word behind it, where it has no `=`.
find_files() {
    local word value= ended=
    names=()
    for word in "${@:2}"; do
        if [[ -n $value ]]; then
            value=
        elif [[ -z $ended && $word == -- ]]; then
            ended=1
        elif [[ -z $ended && $word == --* ]]; then
            [[ $word == *=* ]] || value=1
        else
            names+=("$word")
        fi
    done
    net='' lib='' design='' cert=''
    case ${1-} in
        sample) ;;
        extract) lib=${names[0]-} design=${names[1]-} ;;
        *) net=${names[0]-} lib=${names[1]-} design=${names[2]-} cert=${names[3]-} ;;
    esac
}

# Whether by the words of `design` a file is written that is another of the four, by this name or another one. It sets
# `file` and `other` to what the usage calls the two, and `paths` to their names.
find_clash() {
    local pair
    local -A path whole
    find_files "$@"
    [[ ${1-} == design && ${#names[@]} -eq 4 ]] || return
    path=([NET]=$net [LIB]=$lib [DESIGN]=$design [CERT]=$cert)
    for file in "${!path[@]}"; do
        whole[$file]=$(readlink -m -- "${path[$file]}" 2>/dev/null)
    done
    for pair in 'DESIGN NET' 'DESIGN LIB' 'CERT NET' 'CERT LIB' 'CERT DESIGN'; do
        read -r file other <<<"$pair"
        paths=("${path[$file]}" "${path[$other]}")
        [[ ${whole[$file]} == "${whole[$other]}" || ${paths[0]} -ef ${paths[1]} ]] && return
    done
    return 1
}
