#!/usr/bin/env bash
# Plays one change against a desk of its own, from the policy to the merge, and prints each reply.
#
#   examples/desk/walk-through.sh [PROGRAM [PORT]]
#
# PROGRAM runs in the place of ./route-desk. The desk listens on PORT of the loopback, 47700 where none is said, and keeps
# its tables in a folder that is removed at the end. What is needed is curl; where sqlite3 is there, it shows the tables.
set -u
here=$(dirname -- "$(readlink -f -- "${BASH_SOURCE[0]}")")
program=${1-$here/../../route-desk}
port=${2-47700}
work=$(mktemp -d) || exit 1
desk=
trap 'if [ -n "$desk" ]; then kill "$desk" 2>/dev/null; fi; rm -rf -- "$work"' EXIT

# How many conversations the desk serves: each ask below is one.
"$program" serve "$work/desk.db" "$port" 9 "$here/users.toml" >"$work/printed" &
desk=$!

# Asks with the method $1, the path $2 and the token $3, and further words for curl, and prints the reply.
ask() {
    local method=$1 path=$2 token=$3
    shift 3
    printf '%s %s\n' "$method" "$path"
    curl --silent --show-error --retry 30 --retry-connrefused --retry-delay 1 \
        --request "$method" --header "x-desk-token: $token" --write-out '\n-- %{http_code}\n\n' "$@" \
        "http://127.0.0.1:$port$path" || exit 1
}

# Gives a command under the key $4 with the body $5.
command() {
    ask "$1" "$2" "$3" --header "x-desk-key: $4" --data-binary "$5"
}

command POST /policy token-of-adm policy-1 "@$here/policy.json"
command POST /reviews token-of-ann line-1 "@$here/review.json"
command POST /reviews/1/merge token-of-ann merge-1 '{}'
command POST /reviews/1/certify token-of-ann certify-1 '{}'
ask GET /reviews/1/report token-of-bea
command POST /reviews/1/approve token-of-bea approve-1 '{}'
command POST /reviews/1/merge token-of-ann merge-1 '{}'
command POST /reviews/1/merge token-of-ann merge-1 '{}'
ask GET /head token-of-bea

wait "$desk"
status=$?
desk=
cat -- "$work/printed"
printf 'the desk ended with status %s\n' "$status"
if type sqlite3 >/dev/null 2>&1; then
    sqlite3 "$work/desk.db" 'select id, author, title, base, state, head from review' \
        'select user, key, kind, target from kept'
fi
exit "$status"
