# Sourced by ./bestagon, ./bestagon-sat, ./bestagon-draw, .ci/run and tools/dist, which set `top`, the repository's folder. It says
# which sources the programs are made from, and finds the program of the sources as they stand: the one in dist/
# where that is theirs and fits this machine, else the one in out/, else it proves and builds it. In out/ a
# program's name has the stamp of its sources, so both come into being by one rename, and no call can see one
# without the other.

# The crates of the programs: `bestagon`, the same telling how far it is, the one that draws, and the solver.
PROGRAMS=(bestagon_cli bestagon_progress bestagon_draw bestagon_sat)

# The crates that these crates are made of, lowest first, as crates.txt has them.
crates_of_program() {
    awk -v programs="$*" '
        BEGIN { split(programs, names, " "); for (i in names) wanted[names[i]] = 1 }
        /^[^#]/ { sub(/:/, " "); name = $1; order[++count] = name; below[name] = $0 }
        END {
            for (i = count; i > 0; i--)
                if (order[i] in wanted) {
                    words = split(below[order[i]], word)
                    for (j = 1; j <= words; j++)
                        wanted[word[j]] = 1
                }
            for (i = 1; i <= count; i++)
                if (order[i] in wanted)
                    print order[i]
        }' "$top/crates.txt"
}

# One checksum of all that the programs are made from but the toolchain: code, definitions and proofs of their
# crates, what each stands on, and the handles. Tests aren't in it.
whole_stamp() (
    cd "$top" || exit
    mapfile -t crates < <(crates_of_program "${PROGRAMS[@]}")
    folders=()
    for crate in "${crates[@]}"; do
        for part in src specs proofs; do
            [[ -d crates/$crate/$part ]] && folders+=("crates/$crate/$part")
        done
    done
    {
        ((${#folders[@]})) && find "${folders[@]}" -type f -print0 | LC_ALL=C sort -z | xargs -0 sha256sum
        for crate in "${crates[@]}"; do
            grep "^$crate:" crates.txt
        done
        cat HANDLES
    } | sha256sum | cut -d ' ' -f 1
)

# The same checksum, kept in out/seen, which is dated before the last whole one began: where no file or folder has
# changed since, it is taken from there.
sources_stamp() {
    local seen=$top/out/seen began stamp
    if [[ -r $seen && -z $(cd "$top" &&
        find crates crates.txt HANDLES -regex 'crates/[^/]*/out' -prune -o -cnewer out/seen -print -quit) ]]; then
        printf '%s\n' "$(<"$seen")"
        return
    fi
    began=$(($(date +%s) - 1))
    stamp=$(whole_stamp) || return
    if mkdir -p "$top/out" 2>/dev/null && [[ -w $top/out ]]; then
        printf '%s\n' "$stamp" >"$seen.$$" && touch -d "@$began" "$seen.$$" && mv -f "$seen.$$" "$seen"
    fi
    printf '%s\n' "$stamp"
}

# The line that names the toolchain. rt takes half a second to say it, so it is kept beside what rt is as a file.
toolchain_line() {
    local file kept=$top/out/toolchain identity line
    file=$(command -v rt) && identity=$(stat -Lc '%d %i %s %Z' "$file") || return
    if [[ -r $kept && $(head -n 1 "$kept") == "$identity" ]]; then
        tail -n 1 "$kept"
        return
    fi
    line=$(rt version 2>/dev/null) || return
    if [[ -w $top/out ]]; then
        printf '%s\n' "$identity" "$line" >"$kept.$$" && mv -f "$kept.$$" "$kept"
    fi
    printf '%s\n' "$line"
}

# ---- dist/, which has the programs of some sources, and says of which.

# What dist/MANIFEST says behind this word.
manifest() {
    sed -n "s/^$1 //p" "$top/dist/MANIFEST" 2>/dev/null
}

# Whether the file in dist/ has the bytes that the manifest says.
has_its_sum() {
    local sum
    sum=$(sha256sum <"$top/dist/$1") 2>/dev/null && grep -qxF "${sum%% *} $1" "$top/dist/MANIFEST"
}

# Whether what dist/ needs is here.
fits_machine() {
    local machine library version here
    read -r machine library version < <(manifest needs)
    here=$(getconf GNU_LIBC_VERSION 2>/dev/null)
    [[ $machine == "$HOSTTYPE" && $here == "$library "* &&
        $(printf '%s\n' "$library $version" "$here" | sort -V | tail -n 1) == "$here" ]]
}

# Whether the program in dist/ is that of the sources of this stamp, and runs here.
is_in_dist() {
    local stamp=$1 crate=$2
    [[ $(manifest sources) == "$stamp" ]] && fits_machine && has_its_sum "$crate"
}

# ---- out/, where a program is kept that was built here.

# Where the program of these sources is kept, which this crate is. Another toolchain makes another program.
program_of() {
    local stamp=$1 crate=$2 line
    line=$(toolchain_line) || return
    printf '%s\n' "$top/out/$crate-$(sha256sum <<<"$stamp $line" | cut -d ' ' -f 1)"
}

# Keeps the program that rt has just built from the sources of this stamp.
keep_program() {
    local stamp=$1 crate=$2 kept
    kept=$(program_of "$stamp" "$crate")
    if [[ $(whole_stamp) != "$stamp" ]]; then
        echo "bestagon: the sources have changed meanwhile; run it again" >&2
        return 1
    fi
    mkdir -p "$top/out" &&
        cp "$top/crates/$crate/out/$crate" "$kept.$$" &&
        mv -f "$kept.$$" "$kept" || return
    find "$top/out" -name "$crate-*" -mtime +7 -delete
}

# Sets `program` to the program of the sources as they stand. The further words are some on which it ends with
# status 0, with which it is run once it is built.
find_program() {
    local crate=$1 stamp
    shift
    if ! stamp=$(sources_stamp); then
        echo "bestagon: the sources could not be read" >&2
        return 1
    fi
    program=$top/dist/$crate
    is_in_dist "$stamp" "$crate" && return
    if ! program=$(program_of "$stamp" "$crate"); then
        echo "bestagon: dist/ has no program of these sources for this machine, and the toolchain's command rt could not be run" >&2
        return 1
    fi
    [[ -x $program ]] || build_program "$stamp" "$crate" "$@"
}

# Proves and builds the program of the sources as they stand. Of several calls one builds, and the others wait.
build_program() {
    local stamp=$1 crate=$2 log=$top/out/build.log
    shift 2
    mkdir -p "$top/out" || return
    tell "proving and building the program, once for these sources; it takes minutes; log: $log"
    (
        flock 9
        [[ -x $(program_of "$stamp" "$crate") ]] && exit
        : >"$log"
        (trap - INT QUIT && prove_crates "$crate" "$@") </dev/null 9>&- &
        builder=$!
        trap 'kill "$builder"' TERM HUP
        if ! wait "$builder"; then
            echo "bestagon: it could not be built; the log says why" >&2
            exit 1
        fi
        keep_program "$stamp" "$crate" && tell "built in $(minutes "$SECONDS")"
    ) 9>>"$top/out/lock"
}

# Proves the crates of a program, each behind those that it stands on, as many side by side as there are processors
# and memory for, and runs the program on the further words. It tells when a crate begins, and each minute.
prove_crates() {
    local crate=$1 crates most said=$SECONDS name pid failed=
    local -A at=() is_done=()
    shift
    mapfile -t crates < <(crates_of_program "$crate")
    most=$(jobs_at_once)
    trap 'kill "${at[@]}" 2>/dev/null; exit 1' TERM HUP
    while ((${#is_done[@]} < ${#crates[@]})); do
        for name in "${crates[@]}"; do
            [[ -n $failed || -n ${at[$name]-} || -n ${is_done[$name]-} ]] && continue
            ((${#at[@]} < most)) && stands_on_done "$name" || continue
            prove_crate "$name" "$crate" "$@" &
            at[$name]=$!
            tell_progress
        done
        ((${#at[@]})) || return 1
        for name in "${!at[@]}"; do
            kill -0 "${at[$name]}" 2>/dev/null && continue
            pid=${at[$name]}
            unset "at[$name]"
            if wait "$pid"; then is_done[$name]=1; else failed=1; fi
        done
        ((SECONDS - said < 60)) || tell_progress
        sleep 0.2
    done
}

# Whether all crates of the program that this one stands on are proved.
stands_on_done() {
    local below
    for below in $(sed -n "s/^$1://p" "$top/crates.txt"); do
        [[ " ${crates[*]} " != *" $below "* || -n ${is_done[$below]-} ]] || return
    done
}

# Proves one crate, and runs it where it is the program.
prove_crate() {
    local name=$1 crate=$2
    shift 2
    cd "$top/crates/$name" || return
    if [[ $name == "$crate" ]]; then
        exec rt run -- "$@" >>"$log" 2>&1
    fi
    exec rt lib >>"$log" 2>&1
}

# Tells how far `prove_crates` is.
tell_progress() {
    said=$SECONDS
    tell "${#is_done[@]} of ${#crates[@]} crates proved, at ${!at[*]}; $(minutes "$SECONDS") so far"
}

# As many crates as there are processors, and 5 GB of memory for each.
jobs_at_once() {
    local free jobs
    free=$(awk '/^MemAvailable:/ { print int($2 / 5000000) }' /proc/meminfo)
    jobs=$(nproc)
    ((free < jobs)) && jobs=$free
    ((jobs > 1)) || jobs=1
    echo "$jobs"
}

# Proves and builds the program, says which sources and which toolchain it is of, and whether dist/ has the same.
prove_program() {
    local crate=$1 stamp kept
    stamp=$(whole_stamp) && kept=$(program_of "$stamp" "$crate") || {
        echo "bestagon: the toolchain's command rt could not be run" >&2
        return 70
    }
    [[ -x $kept ]] || build_program "$stamp" "$@" || return 70
    printf 'proved and built: %s\n' "$kept"
    if [[ $(manifest sources) != "$stamp" ]]; then
        echo "dist/ has programs of other sources"
    elif cmp -s "$kept" "$top/dist/$crate"; then
        echo "dist/$crate has the same bytes"
    else
        echo "dist/$crate has other bytes"
        return 1
    fi
}

minutes() {
    printf '%d min %02d s' $(($1 / 60)) $(($1 % 60))
}

tell() {
    [[ ${BESTAGON_QUIET-} == 1 ]] || echo "bestagon: $1" >&2
}
