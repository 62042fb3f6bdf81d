#!/usr/bin/env bash
# Copies the scripts out of docs/PIPELINE.md and runs them as they stand: the git hook, the CI job, and what a pipeline does
# with the desk. What is printed is held to what the page shows.
#
#   examples/run-scripts.sh [PROGRAM]
#
# In the page a comment `script NAME` stands before a script, `shown NAME` before a block that shows what is printed, and
# `session NAME` before one with commands behind `$ ` and what each prints. What is needed is git, and for the desk curl
# and python3; what cannot be run is passed over. For each thing tried one line is printed; what differs is told on standard error, and the status
# is 1. PROGRAM runs in the place of ./route-desk, with the top of the repository as its folder.
set -u
top=$(dirname -- "$(dirname -- "$(readlink -f -- "${BASH_SOURCE[0]}")")")
cd -- "$top" || exit 1
program=$(readlink -f -- "${1-./route-desk}")
page=$top/docs/PIPELINE.md
differing=0
work=$(mktemp -d) || exit 1
supervisor=
trap 'stop_desk; rm -rf -- "$work"' EXIT

# Git as it is where nobody has set anything.
export HOME=$work GIT_CONFIG_NOSYSTEM=1 GIT_CONFIG_GLOBAL=/dev/null
export GIT_AUTHOR_NAME=a GIT_AUTHOR_EMAIL=a@network.example GIT_COMMITTER_NAME=a GIT_COMMITTER_EMAIL=a@network.example
unset GIT_DIR GIT_WORK_TREE GIT_INDEX_FILE

# Prints the block of the page behind the comment `$1`.
block() {
    awk -v mark="<!-- $1 -->" '
        $0 == mark { found = 1; next }
        found && /^```/ { if (on) exit; on = 1; next }
        on' "$page"
}

# Says how `$1` came out: as it should where the texts $2, wanted, and $3, printed, are one.
compare() {
    if [ -n "$2" ] && [ "$2" = "$3" ]; then
        printf 'as shown: docs/PIPELINE.md: %s\n' "$1"
        return
    fi
    differing=$((differing + 1))
    printf 'DIFFERS: docs/PIPELINE.md: %s\n' "$1"
    diff <(printf '%s\n' "$2") <(printf '%s\n' "$3") >&2
}

# What a push prints, without what is another each time: the server's path, the commits, blanks at the ends of lines.
leveled() {
    sed -E -e 's/[[:space:]]+$//' -e 's/^To .*/To SERVER/' -e "s/'.*'\$/SERVER/" -e 's/[0-9a-f]{7,}\.\.[0-9a-f]{7,}/OLD..NEW/'
}

# Commits the state of the clone with the configurations of the folder $1.
commit_net() {
    rm -rf "$work/clone/net" && cp -R "$1" "$work/clone/net" && git -C "$work/clone" add -A &&
        git -C "$work/clone" commit -q -m change
}

# Pushes, and compares with the block `$1`.
push() {
    compare "$1" "$(block "shown $1" | sed 1d | leveled)" "$(git -C "$work/clone" push origin main 2>&1 | leveled)"
}

run_hook() {
    local hooks=$work/network.git/hooks
    git init -q --bare -b main "$work/network.git" && git clone -q "$work/network.git" "$work/clone" 2>/dev/null
    git -C "$work/clone" checkout -q -B main
    cp -- "$shipped" "$hooks/route-desk"
    block 'script pre-receive' >"$hooks/pre-receive" && chmod +x "$hooks/pre-receive"
    mkdir "$work/clone/properties" && cp examples/fabric/properties.toml "$work/clone/properties/fabric.toml"
    commit_net examples/fabric/new
    compare 'the first push is taken' 0 "$(git -C "$work/clone" push -q origin main >/dev/null 2>&1; echo $?)"
    commit_net examples/refused-change/new
    push push-refused
    # The attribute would keep the file out of an archive.
    echo 'net/spine2.conf export-ignore' >"$work/clone/.gitattributes"
    commit_net examples/refused-change/new
    push push-refused
    rm "$work/clone/.gitattributes"
    commit_net examples/refused-change/mended
    mv "$work/clone/net/spine2.conf" "$work/clone/elsewhere" && ln -s ../elsewhere "$work/clone/net/spine2.conf"
    git -C "$work/clone" add -A && git -C "$work/clone" commit -q -m link
    push push-link
    rm "$work/clone/elsewhere"
    git -C "$work/clone" reset -q --hard origin/main
    git -C "$work/clone" clean -qfd
    commit_net examples/refused-change/mended
    push push-taken
}

# Runs the CI job on a branch with the configurations of $1, and compares its status with $2.
run_job() {
    git -C "$work/clone" checkout -q -B change "$first" && commit_net "$1"
    compare "the CI job on $1 ends with $2" "$2" \
        "$(cd "$work/clone" && TARGET=before ROUTE_DESK=$shipped sh "$work/ci-job" >/dev/null 2>&1; echo $?)"
}

# Prints the session `$1` of the page, with what its commands print now in the place of what is shown.
play() {
    local line
    while IFS= read -r line <&3; do
        [[ $line == '$ '* ]] || continue
        printf '%s\n' "$line"
        eval "${line#'$ '}" 2>&1
    done 3< <(block "session $1")
}

# Serves 20 conversations at a time, and is begun anew after them, as a service is.
supervise() {
    local desk
    trap 'kill "$desk" 2>/dev/null; wait "$desk"; exit' TERM
    while :; do
        "$shipped" serve "$work/desk/desk.db" "$port" 20 examples/desk/users.toml >/dev/null 2>&1 &
        desk=$!
        wait "$desk"
    done
}

stop_desk() {
    [ -n "$supervisor" ] || return 0
    kill "$supervisor" && wait "$supervisor"
    supervisor=
}

# Plays the session `$1` in the folder of the desk.
run_session() {
    compare "the session $1" "$(block "session $1")" "$(cd "$work/desk" && play "$1")"
}

run_desk() {
    local port=$((20000 + $$ % 10000))
    DESK=http://127.0.0.1:$port
    mkdir "$work/desk" && ln -s "$top/examples" "$work/desk/examples"
    block 'script route-review' >"$work/desk/route-review" && chmod +x "$work/desk/route-review"
    supervise &
    supervisor=$!
    run_session desk
    stop_desk
    if type sqlite3 >/dev/null 2>&1; then
        run_session tables
    else
        echo 'not run, without sqlite3: the tables of the desk in docs/PIPELINE.md'
    fi
}

# Whether the tools after the first word are there; where one is not, says that the first is not run.
has() {
    local what=$1 tool
    shift
    for tool; do
        if ! type "$tool" >/dev/null 2>&1; then
            printf 'not run, without %s: docs/PIPELINE.md: %s\n' "$tool" "$what"
            return 1
        fi
    done
}

# The file that ./route-desk starts, as it is copied beside a hook.
shipped=$program
if [ "$program" -ef route-desk ]; then
    mkdir "$work/bin" && ./route-desk --install "$work/bin" 2>/dev/null && shipped=$work/bin/route-desk
fi
if has 'the hook and the job' git; then
    run_hook
    block 'script ci-job' >"$work/ci-job"
    first=$(git -C "$work/clone" rev-list --max-parents=0 HEAD)
    git -C "$work/network.git" branch before "$first"
    run_job examples/refused-change/new 1
    run_job examples/refused-change/mended 0
fi
if has 'the desk' curl python3 sha256sum; then
    run_desk
fi
[ "$differing" -eq 0 ]
