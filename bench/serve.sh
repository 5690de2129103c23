#!/usr/bin/env bash
# serve.sh PROGRAM [times]: requests a second, latencies and processor time of PROGRAM's `serve`, beside the plain program
# and, if it is installed, redis-server (Debian: apt-get install redis-server). Medians over so many rounds (5), in each of
# which all of them run in turn. Then one tenant's latencies, alone and beside a neighbour who floods another worker; and
# while the operator admits and closes another tenant 10,000 times.
# It needs cargo and python3.
#   bench/serve.sh out/cops
set -eu
here=$(cd "$(dirname "$0")" && pwd)
if [ $# -lt 1 ]; then
    sed -n '2,7s/^# //p' "$0"
    exit 2
fi
(cd "$here/plain" && cargo build --release -q)
clients=$here/plain/target/release
redis=()
if command -v redis-server redis-benchmark >/dev/null; then
    redis=(--redis)
fi
exec python3 "$here/serve.py" "$1" "$clients/plain" "$clients" --times "${2:-5}" "${redis[@]}"
