#!/bin/sh
# Keeps `persod serve` running on the database file shop.db of the current folder.
#
#     PORT=8807 TURNS=100000 KEEP=14 sh serve.sh
#
# After TURNS connections the server exits. The script then copies the file to backup/, checks the copy, deletes all copies except
# the last KEEP, and starts the server again. After an error it waits one second and starts the server again.
# Exit status 82: an operator must act. The file is missing or damaged, its WAL is damaged, or an argument or a program is wrong.
# Only an event line reports a damaged WAL.
: "${PORT:=8807}" "${TURNS:=100000}" "${KEEP:=14}" "${PERSOD_LOG:=1}"
export PERSOD_LOG
umask 077

say() {
    printf 'serve.sh: %s\n' "$*" >&2
}

give_up() {
    say "$*"
    exit 82
}

# After an exit without error the file is complete without its WAL. A copy gets its name only after it passed the check.
copy() {
    mkdir -p backup && rm -f backup/new.db backup/new.db-wal
    if ! { cp shop.db backup/new.db && sync backup/new.db; }; then
        rm -f backup/new.db
        say "no copy was made"
    elif ! shopbook check --db backup/new.db >/dev/null; then
        mv backup/new.db backup/failed.db
        say "the copy failed its check and is now backup/failed.db"
    else
        mv backup/new.db "backup/$(date +%F).db"
        set -- backup/????-??-??.db
        while [ $# -gt "$KEEP" ]; do
            rm -f "$1"
            shift
        done
    fi
    rm -f backup/new.db-wal
}

stop() {
    [ -z "$running" ] || { kill $! && wait $!; } 2>/dev/null
    rm -rf "$folder"
}

for program in persod shopbook; do
    command -v $program >/dev/null || give_up "$program is not in PATH"
done
case $KEEP in
*[!0-9]* | 0*) give_up "KEEP must be a number, at least 1" ;;
esac

running=
folder=$(mktemp -d) && mkfifo "$folder/lines" || exit 1
trap stop EXIT
trap 'exit 129' HUP
trap 'exit 130' INT
trap 'exit 143' TERM
# If the reader of the output has exited, the server keeps running.
trap '' PIPE

while [ -e shop.db ]; do
    attention=
    running=1
    persod serve --db shop.db --port "$PORT" --turns "$TURNS" >"$folder/lines" 2>&1 &
    while IFS= read -r line; do
        printf '%s\n' "$line"
        case $line in
        "refused 82" | "refused code=81 cause=damaged-wal "* | "error: "* | "bad name") attention=1 ;;
        esac
    done <"$folder/lines"
    wait $!
    status=$?
    running=
    [ -z "$attention" ] || exit 82
    if [ $status -eq 0 ]; then copy; else sleep 1; fi
done
give_up "shop.db is missing. To start with an empty file: install -m 600 /dev/null shop.db"
