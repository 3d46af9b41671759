# For a test of a command of bin/ that has set `name`: the cases, each with its exit status and with what it writes on standard
# output and on standard error.
room="$(mktemp -d)"
trap 'rm -rf "$room"' EXIT
cases=0
failed=0

# same WHAT FOUND WANTED
same() {
    cases=$((cases + 1))
    [ "$2" = "$3" ] && return
    failed=$((failed + 1))
    # shellcheck disable=SC2154
    printf '%s-test: %s\nfound:\n%s\nwanted:\n%s\n' "$name" "$1" "$2" "$3"
}

# gives STATUS OUT ERR COMMAND WORDS..: what a command ends with and writes.
gives() {
    local status="$1" out="$2" err="$3" found
    shift 3
    "$@" > "$room/out" 2> "$room/err"
    found=$?
    same "$*" "$found | $(cat "$room/out") | $(cat "$room/err")" "$status | $out | ${err:+$name: $err}"
}

# A command whose standard output is full, closed, or a pipe that nobody reads; whose standard input is closed, or a file.
mkfifo "$room/pipe"
exec 3<> "$room/pipe"
exec 4> "$room/pipe"
exec 3>&-
to_full() { "$@" > /dev/full; }
to_closed() { "$@" >&-; }
to_nobody() { "$@" >&4; }
from_closed() { "$@" <&-; }
from() { "${@:2}" < "$1"; }
# A command on a terminal, both outputs together.
on_terminal() { script -qec "$*" /dev/null < /dev/null | tr -d '\r'; return "${PIPESTATUS[0]}"; }

# The end of a test: whether every case is as it should be.
agree() {
    [ $failed -eq 0 ] || {
        echo "$name-test: $failed of $cases cases differ"
        exit 1
    }
    echo "$name: $cases cases agree"
}
