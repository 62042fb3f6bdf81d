#!/usr/bin/env bash
# Runs each example of the pages that it finds, and holds what is printed to what the page shows.
#
#   examples/run-all.sh [PROGRAM]
#
# An example is a block of a page: a line `$ ./route-desk WORDS`, the lines that it prints, a line `$ echo $?`, and its
# status. The pages are README.md in each folder of examples/, docs/PIPELINE.md and docs/REPORT.md; the walk through the desk
# is one more. The scripts of docs/PIPELINE.md are run by examples/run-scripts.sh, and so from here.
# For each example one line is printed; where something else came out, it is told on standard error, and the status is 1.
# PROGRAM runs in the place of ./route-desk, with the top of the repository as its folder.
set -u
top=$(dirname -- "$(dirname -- "$(readlink -f -- "${BASH_SOURCE[0]}")")")
cd -- "$top" || exit 1
program=${1-./route-desk}
run=0 differing=0

# Runs the example of the page $1 with the words $2, which has to print $3 and to end with the status $4.
run_example() {
    local page=$1 wanted=$3 wanted_status=$4 printed status
    local -a asked
    read -ra asked <<<"$2"
    # The point keeps the last line's end.
    printed=$("$program" "${asked[@]}" 2>&1 </dev/null; status=$?; printf .; exit "$status")
    status=$?
    run=$((run + 1))
    if [ "$printed" = "$wanted." ] && [ "$status" = "$wanted_status" ]; then
        printf 'as shown: %s: %s\n' "$page" "$2"
        return
    fi
    differing=$((differing + 1))
    printf 'DIFFERS: %s: %s\n' "$page" "$2"
    {
        printf 'the status is %s, and %s is shown; what is shown (<) and what is printed (>):\n' "$status" "$wanted_status"
        diff <(printf '%s' "$wanted") <(printf '%s' "${printed%.}")
    } >&2
}

run_page() {
    local page=$1 line words='' text='' is_over=''
    if [ ! -r "$page" ]; then
        printf 'DIFFERS: %s is not there\n' "$page"
        differing=$((differing + 1))
        return
    fi
    while IFS= read -r line; do
        if [ -n "$is_over" ]; then
            run_example "$page" "$words" "$text" "$line"
            words='' text='' is_over=''
        elif [[ $line == '$ ./route-desk '* ]]; then
            words=${line#'$ ./route-desk '}
        elif [ -n "$words" ] && [ "$line" = '$ echo $?' ]; then
            is_over=yes
        elif [ -n "$words" ]; then
            text+=$line$'\n'
        fi
    done <"$page"
    if [ -n "$words" ]; then
        printf 'DIFFERS: %s: %s: no line `$ echo $?` ends it\n' "$page" "$words"
        differing=$((differing + 1))
    fi
}

# Plays the walk through the desk, where curl is there: what is printed before the tables has to be as the page shows.
run_walk() {
    local page=examples/desk/README.md wanted printed
    if ! type curl >/dev/null 2>&1; then
        printf 'not run, without curl: %s\n' "$page"
        return
    fi
    run=$((run + 1))
    wanted=$(awk '/^\$ examples\/desk\/walk-through.sh$/ { on = 1; next } /^\$ echo/ { on = 0 } on' "$page")
    printed=$(examples/desk/walk-through.sh "$program" 2>/dev/null | sed '/^the desk ended/q')
    if [ "$printed" = "$wanted" ]; then
        printf 'as shown: %s\n' "$page"
        return
    fi
    differing=$((differing + 1))
    printf 'DIFFERS: %s\n' "$page"
    diff <(printf '%s\n' "$wanted") <(printf '%s\n' "$printed") >&2
}

for page in examples/*/README.md docs/PIPELINE.md docs/REPORT.md; do
    run_page "$page"
done
run_walk
examples/run-scripts.sh "$program" || differing=$((differing + 1))
[ "$run" -gt 0 ] && [ "$differing" -eq 0 ]
