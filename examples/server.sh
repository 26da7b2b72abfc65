#!/usr/bin/env bash
# Starts a server, and talks to it as to CouchDB: a document, its next revision, a conflict, and a change that somebody waits for.
#
#     examples/server.sh [PROGRAM]     PROGRAM is crates/couchd/out/couchd where none is given
set -eu
program=${1:-$(dirname "$0")/../crates/couchd/out/couchd}

ask() {
    echo "$ curl $*"
    curl --silent --show-error "$@"
    echo
}

coproc server { exec "$program" serve --port 0 --workers 4; }
trap 'kill $server_PID' EXIT
read -r _ address <&"${server[0]}"
db=http://$address/db

ask -X PUT "$db/shopping" -d '{"items":["bread"]}'
ask "$db/shopping"

# a next revision names the one that it follows
ask -X PUT "$db/shopping?rev=1-373a45f23b6d05f95668ccd9bba35494" -d '{"items":["bread","milk"]}'

# one that names none is a conflict
ask -X PUT "$db/shopping" -d '{"items":["tea"]}'

# what changed since the second update: nothing yet, so this waits for the next one
ask "$db/_changes?feed=longpoll&since=2" &
waiting=$!
sleep 1
ask -X PUT "$db/party" -d '{"date":"Friday"}'
wait $waiting

# the old bodies go, while others may write
ask -X POST "$db/_compact"
