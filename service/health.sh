#!/bin/sh
# Checks whether `persod serve` works, with one request to 127.0.0.1, and prints one line that begins with `up` or `down`.
#
#     PORT=8807 TIMEOUT=60 PRODUCT=monitor sh health.sh read
#     PORT=8807 TIMEOUT=60 CLIENT=monitor STATE=monitor.state sh health.sh write
#
# `read` reads the account of PRODUCT's blanks. An unknown product also shows that the server is up, but each check writes an event line.
# `write` sends a reset as CLIENT, or as the first request of a day (UTC) a release of all its kept replies. The server is up if it stores
# the reply. No machine may use this name. STATE is a file with the last request number and the request without a reply.
# Run one check at a time. While the server starts, or serve.sh makes a backup, the server is down, so raise an alarm only if it is down
# for longer. With persod.nft, run the script as the user persod.
# Exit status: 0 up; 1 down; 2 no check: an argument is wrong, curl is missing, or STATE can't be read or written.
: "${PORT:=8807}" "${TIMEOUT:=60}" "${PRODUCT:=monitor}" "${CLIENT:=monitor}" "${STATE:=monitor.state}"
LC_ALL=C
export LC_ALL
umask 077

give_up() {
    printf 'health.sh: %s\n' "$*" >&2
    exit 2
}

say() {
    printf '%s' "$*" | tr -c '[:print:]' ' ' | cut -c 1-200
}

up() {
    say "up $reply"
    exit 0
}

down() {
    say "down $reply"
    exit 1
}

# Sends a message. `reply` is then the status and the body of the response, or the error of curl.
ask() {
    path=$1
    shift
    if reply=$(curl -q -sS --noproxy '*' --max-time "$TIMEOUT" -w ' %{http_code}' "$@" "http://127.0.0.1:$PORT$path" 2>&1); then
        reply="${reply##* } ${reply% *}"
    else
        reply=$(printf 'curl: %s' "${reply##*curl: }" | head -n 1)
    fi
}

# Writes the state file: the last request number, the day of the last release, and the pending request, or `-`.
keep() {
    {
        printf '%s %s %s\n' "$number" "$day" "$request" >"$STATE.new" && sync "$STATE.new" && mv "$STATE.new" "$STATE" &&
            sync "$(dirname "$STATE")"
    } 2>/dev/null || give_up "$STATE can't be written"
}

# Draws a number above all earlier ones and keeps the request before it is sent. If the state file was lost, the seconds since 1970 are
# above them, because there was at most one check each second.
draw() {
    last=$number
    number=$(date +%s)
    [ "$number" -gt "$last" ] || number=$((last + 1))
    request='{"do":"reset"}'
    [ "$day" = "$today" ] || request='{"do":"release","upto":'$((number - 1))'}'
    keep
}

# Sends the pending request. It stays pending unless it gets its reply or its number is refused.
send() {
    ask "/c/$CLIENT/$number" -d "$request"
    stored=
    case $reply in
    '200 {"mark":'*',"result":"released"}') stored=1 day=$today ;;
    '200 {"result":"reset","session":'*'}') stored=1 ;;
    '409 {"code":72,"refused":"number-reused"}') ;;
    '409 {"code":73,"mark":'*',"refused":"number-released"}')
        number=${reply#*:73,\"mark\":}
        number=$((${number%%,*} + 1)) # the number of the release
        ;;
    *) down ;;
    esac
    request=-
    keep
}

for number in "$PORT" "$TIMEOUT"; do
    case $number in
    *[!0-9]* | 0*) give_up "PORT and TIMEOUT must be numbers, at least 1" ;;
    esac
done
case $PRODUCT$CLIENT in
*[!A-Za-z0-9_-]*) give_up "PRODUCT and CLIENT must be names of letters, digits, _ and -" ;;
esac
command -v curl >/dev/null || give_up "curl is not in PATH"

case $#$1 in
1read)
    ask "/blanks/$PRODUCT"
    case $reply in
    '200 {"charged":'*',"product":"'"$PRODUCT"'",'* | '409 {"code":52,"refused":"product-unknown"}')
        reply=${reply%% *}
        up
        ;;
    esac
    down
    ;;
1write)
    number=0 day=- request=-
    today=$(date -u +%F)
    [ ! -e "$STATE" ] || read -r number day request <"$STATE" || number=
    case $number in
    '' | *[!0-9]* | ???????????????????*) give_up "$STATE can't be read; it may be deleted" ;;
    esac
    [ "$request" = - ] || send
    for _ in first second; do
        draw
        send
        [ -z "$stored" ] || up
    done
    down
    ;;
*) give_up "usage: health.sh read, or health.sh write" ;;
esac
