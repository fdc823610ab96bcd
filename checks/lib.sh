# What the checks with curl share. Sourced at the top of the repository, it skips where a tool or the program is
# missing, and makes a scratch folder, which goes at the end with the server that may still run.
program=crates/authd/out/authd
for tool in curl python3; do
    command -v "$tool" >/dev/null && continue
    echo "skipped: no $tool"
    exit 0
done
if ! [ -x "$program" ]; then
    echo "skipped: authd is not built"
    exit 0
fi

scratch=$(mktemp -d) || exit 1
server=
trap 'test -z "$server" || kill "$server" 2>/dev/null; rm -rf "$scratch"' EXIT

# Whether somebody listens on the port, by the system's table of sockets.
is_open() {
    grep -q "^ *[0-9]*: 0100007F:$(printf %04X "$1") .* 0A " /proc/net/tcp
}

# Starts the program on a free port over the site in this folder, with one worker for so many connections.
start_server() {
    port=$(python3 -c 'import socket; s = socket.create_server(("127.0.0.1", 0)); print(s.getsockname()[1])')
    "$program" listen "$1/store.txt" "$1/spaces.txt" "$1/www" "127.0.0.1:$port" 1 "$2" >"$scratch/log" 2>&1 &
    server=$!
    tries=0
    until is_open "$port" || [ "$tries" -ge 100 ]; do
        sleep 0.1
        tries=$((tries + 1))
    done
}

fail() {
    echo "failed: $1"
    cat "$scratch/heads"
    exit 1
}

# Waits for the server, which has to end by itself after its connections, and to tell these totals.
end_server() {
    wait "$server"
    ended=$?
    server=
    [ "$ended" = 0 ] || fail "the server ended with $ended"
    [ "$(cat "$scratch/log")" = "$1" ] || fail "the server said $(cat "$scratch/log")"
}

# The status of the last reply, and on how many connections it came, for curl with these words.
fetch() {
    curl --silent --show-error --max-time 20 --noproxy '*' --dump-header "$scratch/heads" \
        --output "$scratch/body" --write-out '%{http_code} %{num_connects}' "$@"
}
