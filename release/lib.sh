# What ./route-desk, ./test and release/refresh share. A script sets `me`, its name in messages, and `top`, the top of the
# repository, and then reads this file.
#
# A program stands beside a record, a text of three lines: the toolchain that built it, the SHA-256 of the sources that it is
# of, and its own SHA-256. The one that was built here has its record in its folder, the shipped one in release/.
# Where both sums hold, the program is of the sources as they stand, whatever the times of files say.

made=crates/route_desk/out/route_desk
made_record=crates/route_desk/out/BUILT
shipped=release/x86_64-linux/route_desk
shipped_record=release/BUILT

say() {
    printf '%s: %s\n' "$me" "$*" >&2
}

# Whether the toolchain is at hand.
has_rt() {
    command -v rt >/dev/null || {
        say "the toolchain's rt is not on the path, and nothing is proved or built without it"
        return 1
    }
}

# Writes standard input into the file $1 with the mode $2, so that the file is at no time half written.
put() (
    room=$(mktemp -- "$1.XXXXXX") || exit 1
    trap 'rm -f -- "$room"' EXIT
    cat >"$room" && chmod -- "$2" "$room" && mv -fT -- "$room" "$1"
)

# Prints the crate $1 and those that it stands on. What crates.txt does not list is a library of the toolchain.
crates_of() {
    local -A below=()
    local -a found=("$1")
    local line name words at dep
    while IFS= read -r line || [ -n "$line" ]; do
        line=${line%%#*}
        [[ $line == *:* ]] || continue
        # Before the colon words about the crate may follow its name.
        words=${line%%:*}
        for name in $words; do
            below[$name]=${line#*:}
            break
        done
    done <"$top/crates.txt" || return 1
    if [ -z "${below[$1]+listed}" ]; then
        say "crates.txt has no line for $1"
        return 1
    fi
    for ((at = 0; at < ${#found[@]}; at++)); do
        for dep in ${below[${found[at]}]}; do
            if [ -n "${below[$dep]+listed}" ] && [[ " ${found[*]} " != *" $dep "* ]]; then
                found+=("$dep")
            fi
        done
    done
    printf '%s\n' "${found[@]}"
}

# Prints the paths of the sources, each ended by a zero byte: crates.txt, HANDLES, and the code, definitions and proofs of each
# crate that the program stands on. Wrong bodies and tests are not among them.
sources() {
    local crates crate part
    local -a paths=(crates.txt)
    crates=$(crates_of route_desk) || return 1
    [ ! -e HANDLES ] || paths+=(HANDLES)
    for crate in $crates; do
        # Each crate has code.
        paths+=("crates/$crate/src")
        for part in specs proofs; do
            [ ! -e "crates/$crate/$part" ] || paths+=("crates/$crate/$part")
        done
    done
    find -L "${paths[@]}" -type f -print0
}

# Prints the SHA-256 of the sources: of the list of their own sums and paths, in the order of the paths. Where one cannot be
# read it prints nothing.
sources_sum() (
    set -o pipefail
    cd -- "$top" || exit 1
    sum=$(sources | LC_ALL=C sort -z | xargs -0 sha256sum -- | sha256sum) && printf '%s\n' "${sum%% *}"
)

program_sum() {
    local sum
    sum=$(sha256sum <"$top/$1") && printf '%s\n' "${sum%% *}"
}

# Reads the record $1 into `record_toolchain`, `record_sources` and `record_program`. One that is not whole is none.
read_record() {
    local text sum='([0-9a-f]{64})' end=$'\n'
    # The point keeps the last line's end.
    text=$(cat -- "$top/$1" 2>/dev/null && echo .) || return 1
    [[ $text =~ ^toolchain:\ ([^$end]+)${end}sources:\ ${sum}${end}program:\ ${sum}${end}\.$ ]] || return 1
    record_toolchain=${BASH_REMATCH[1]}
    record_sources=${BASH_REMATCH[2]}
    record_program=${BASH_REMATCH[3]}
}

# Writes the record of the program that was built here just now, of the sources that had the sum $1 before that.
write_made_record() {
    local toolchain program
    if [ "$(sources_sum)" != "$1" ]; then
        say "the sources changed while the program was built: run this again"
        return 1
    fi
    toolchain=$(rt version) && program=$(program_sum "$made") || return 1
    printf 'toolchain: %s\nsources: %s\nprogram: %s\n' "$toolchain" "$1" "$program" | put "$top/$made_record" 644
}

# Prints why the program $1 with the record $2 is not known to be of the sources as they stand; nothing where it is.
doubt_of() {
    if ! read_record "$2"; then
        echo "$2 is missing or not whole"
    elif [ ! -f "$top/$1" ] || [ "$(program_sum "$1")" != "$record_program" ]; then
        echo "$1 is not the program that ${2##*/} names"
    elif [ "$(sources_sum)" != "$record_sources" ]; then
        echo "the sources are not those of $2"
    fi
}

# Whether this machine can run the program $1: without words that prints its usage line and ends with status 3.
can_run() {
    (
        ulimit -c 0
        "$top/$1" </dev/null
        exit "$?"
    ) >/dev/null 2>&1
    [ "$?" -eq 3 ]
}

# Prints how many crates are done: those that the toolchain's lines $1 call proved, and all that these stand on.
count_done() {
    local name
    while read -r name; do
        crates_of "$name" 2>/dev/null
    done < <(sed -n 's/^crate \([a-z0-9_]*\): .*/\1/p' <<<"$1") | sort -u | wc -l
}

# Reads what a build says from the descriptor $1 to its end, and keeps it in `said`. Where standard error is a terminal, it
# tells every half minute how many of $2 crates are done.
follow_build() {
    local part status=0 due=$((SECONDS + 30))
    said=
    until [ "$status" -eq 1 ]; do
        # Where the wait ends first, a line's beginning is read.
        IFS= read -r -t 1 part <&"$1"
        status=$?
        said+=$part
        [ "$status" -ne 0 ] || said+=$'\n'
        if [ -t 2 ] && ((SECONDS >= due)); then
            due=$((SECONDS + 30))
            say "$(count_done "$said") of $2 crates done"
        fi
    done
}

# Proves and builds the program here, and writes its record. The run that comes with it takes the crate's own example, whose
# status is 0: so the status is 0 exactly where all is proved and the program runs. It is built as the gate builds it, by
# LLVM, whatever compiler RT_BACKEND names.
build() {
    local before said crates lines maker status
    has_rt || return 1
    say "proving and building the program, which takes twenty minutes or more on four processors the first time"
    if ! before=$(sources_sum); then
        say "the sources cannot be read"
        return 1
    fi
    crates=$(crates_of route_desk) || return 1
    exec {lines}< <(cd -- "$top/crates/route_desk" &&
        exec env -u RT_BACKEND rt run -- check data/base data/new data/properties.toml </dev/null 2>&1)
    maker=$!
    # Where this ends early, so does the build.
    trap 'kill "$maker" 2>/dev/null' EXIT
    follow_build "$lines" "$(wc -l <<<"$crates")"
    exec {lines}<&-
    wait "$maker"
    status=$?
    trap - EXIT
    if [ "$status" -ne 0 ]; then
        printf '%s' "$said" >&2
        say "the program could not be built"
        return 1
    fi
    write_made_record "$before"
}
