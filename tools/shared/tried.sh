# shellcheck shell=bash
# What the shell's tools share: their `--help`, the program that is tried ($liftd), the top of the repository ($top), a folder of
# their own ($room), in which they then are, and a server ($server), which is killed at the end.
export LC_ALL=C
top=$(cd "$(dirname "$0")/../.." && pwd)
tool=try-$(basename "$0")
if [ "${1:-}" = --help ] || [ "${1:-}" = -h ]; then
    awk 'NR > 1 { if (!/^#/) exit; sub(/^# ?/, ""); print }' "$0"
    exit
fi
liftd=$(realpath -m "${1:-$top/crates/liftd/out/liftd}")
if [ ! -x "$liftd" ]; then
    echo "$tool: there is no program $liftd: build it, (cd crates/liftd && rt run < stdin), or name one" >&2
    exit 1
fi
room=$(mktemp -d)
server=
trap 'killed; rm -rf "$room"' EXIT
cd "$room" || exit

# kills the server, if there is one
killed() {
    [ -z "$server" ] || { kill -9 "$server" && wait "$server"; } 2>/dev/null || true
    server=
}

# IMAGE: starts a server of the demo building over it, at a port that is free ($port)
serve() {
    port=$(free_port)
    : >serving
    "$liftd" serve "$1" "$top/examples/demo.toml" --port "$port" --sessions 1000 >serving 2>errors &
    server=$!
    for _ in $(seq 600); do
        if grep -q "^serving $port$" serving; then return; fi
        sleep 0.1
    done
    echo "$tool: the server did not start: $(cat errors)"
    exit 1
}

# NAME WANTED: what the command before wrote into the file NAME, compared
same() {
    if [ "$(cat "$1")" != "$2" ]; then
        printf '%s: %s holds\n%s\nand not\n%s\n' "$tool" "$1" "$(cat "$1")" "$2"
        exit 1
    fi
}

free_port() {
    PYTHONPATH="$top/tools/shared" python3 -B -c "import tried; print(tried.free_port())"
}
