#!/usr/bin/env bash
# programs.sh PROGRAM_A PROGRAM_B: every command of both programs on the same inputs,
# alternately in one run: medians of wall time, processor time (user and system) and
# peak memory, and their ratios A/B (over 1: A is slower or larger; for requests/s: A
# is faster). On a shared machine trust processor time. A program may be a command with
# arguments in one word:
#   bench/programs.sh out/cops "bench/plain/target/release/plain --count-audit"
#
# Environment (defaults):
#   REPS=3            repetitions of each case
#   SCALE=100         percentage of each preset's events (10: a short run)
#   CASES="run solo audit replay migrate serve growth crowd"
#   PRESETS="puts gets mixed deep wide"    scripts of `run`
#   LAYOUT=2          1: the greeting of the older layout of versions
#   LIMIT=300         seconds for one run
#   GROWTH="1000 10000 100000 1000000"     events of `growth`
#   CROWD="1000 3000 10000 30000"          events of `crowd`, if one tenant
#                     works beside another's many queued and stale entries
#   REQUESTS=20000    requests of each of the connections of `serve`
#   BIN=bench/plain/target/release   where workload and load are
#   WORK=/tmp         parent of a directory for scripts and outputs, which is
#                     removed at the end; better one in memory, with 1 GB free
#   PORT=17400        first port of `serve`
set -u
if [ $# -ne 2 ]; then
    sed -n '2,/^set /{/^set /d;s/^# \{0,1\}//;p}' "$0"
    exit 2
fi
A=$1 B=$2
REPS=${REPS:-3} SCALE=${SCALE:-100} LAYOUT=${LAYOUT:-2} LIMIT=${LIMIT:-300}
CASES=${CASES:-run solo audit replay migrate serve growth crowd}
PRESETS=${PRESETS:-puts gets mixed deep wide}
GROWTH=${GROWTH:-1000 10000 100000 1000000}
CROWD=${CROWD:-1000 3000 10000 30000}
REQUESTS=${REQUESTS:-20000} PORT=${PORT:-17400}
BIN=${BIN:-$(dirname "$0")/plain/target/release}
WORK=$(mktemp -d "${WORK:-/tmp}/programs.XXXXXX") || exit 1
trap 'rm -rf "$WORK"' EXIT

declare -A EVENTS=([puts]=2000000 [gets]=1000000 [mixed]=1000000 [deep]=206300 [wide]=1000000 [audit]=200000)

events() { # preset -> its events at this scale
    echo $((${EVENTS[$1]} * SCALE / 100))
}

median() { sort -n | awk '{ v[NR] = $1 } END { if (NR) print v[int((NR + 1) / 2)]; else print "-" }'; }

ratio() { awk -v a="$1" -v b="$2" 'BEGIN { if (a + 0 > 0 && b + 0 > 0) printf "%.2f", a / b; else print "-" }'; }

# measure INPUT OUTPUT COMMAND..: prints wall seconds, processor seconds, peak
# kilobytes and status.
measure() {
    local input=$1 output=$2 kilobytes=0 status TIMEFORMAT='%3R %3U %3S'
    shift 2
    if [ -x /usr/bin/time ]; then
        {
            time /usr/bin/time -q -f %M -o "$WORK/peak" timeout "$LIMIT" "$@" <"$input" >"$output" 2>"$WORK/errors"
            status=$?
        } 2>"$WORK/times"
        kilobytes=$(tail -n 1 "$WORK/peak")
    else
        {
            time {
                "$@" <"$input" >"$output" 2>"$WORK/errors" &
                local pid=$! seen
                while seen=$(awk '/^VmHWM/ { print $2 }' "/proc/$pid/status" 2>/dev/null) && [ -n "$seen" ]; do
                    kilobytes=$seen
                    sleep 0.01
                done
                wait "$pid"
                status=$?
            }
        } 2>"$WORK/times"
    fi
    awk -v kb="$kilobytes" -v status="$status" '{ printf "%.3f %.3f %d %d\n", $1, $2 + $3, kb, status }' "$WORK/times"
}

head_of_table() {
    printf '\n%-22s %8s %8s %6s %8s %8s %6s %8s %8s %6s  %s\n' "$1" \
        "A wall" "B wall" "A/B" "A cpu" "B cpu" "A/B" "A MB" "B MB" "A/B" "outputs"
}

field() { cut -d' ' -f"$1" "$2" | median; }

# compare LABEL INPUT ARGUMENTS..: one row of the table.
compare() {
    local label=$1 input=$2 verdict=same place
    shift 2
    : >"$WORK/a.rows"
    : >"$WORK/b.rows"
    for _ in $(seq "$REPS"); do
        # shellcheck disable=SC2086
        measure "$input" "$WORK/a.out" $A "$@" >>"$WORK/a.rows"
        # shellcheck disable=SC2086
        measure "$input" "$WORK/b.out" $B "$@" >>"$WORK/b.rows"
    done
    cmp -s "$WORK/a.out" "$WORK/b.out" || verdict="DIFFER"
    if awk '$4 != 0 { bad = 1 } END { exit !bad }' "$WORK/a.rows"; then verdict="$verdict, A failed"; fi
    if awk '$4 != 0 { bad = 1 } END { exit !bad }' "$WORK/b.rows"; then verdict="$verdict, B failed"; fi
    printf '%-22s' "$label"
    for place in 1 2 3; do
        awk -v a="$(field $place "$WORK/a.rows")" -v b="$(field $place "$WORK/b.rows")" -v place=$place 'BEGIN {
            form = place == 3 ? " %8.1f %8.1f" : " %8.3f %8.3f"
            scale = place == 3 ? 1024 : 1
            printf form, a / scale, b / scale
            if (a > 0 && b > 0) printf " %6.2f", a / b; else printf " %6s", "-"
        }'
    done
    printf '  %s\n' "$verdict"
}

script_of() { # preset -> its script, made once
    [ -f "$WORK/$1.script" ] || "$BIN/workload" "$1" --events "$(events "$1")" >"$WORK/$1.script"
}

# serve_once PROGRAM HEAD LOAD_OPTIONS..: "requests/s p50 p99 p999 MB cpu_seconds".
serve_once() {
    local program=$1 head=$2 port=$PORT pid line
    shift 2
    local wrap=(/usr/bin/time -q -f "%M %U %S" -o "$WORK/peak")
    [ -x /usr/bin/time ] || wrap=()
    : >"$WORK/peak"
    # shellcheck disable=SC2086
    "${wrap[@]}" timeout "$LIMIT" $program serve "127.0.0.1:$port" --workers 4 --connections 4 \
        <"$head" >"$WORK/serve.out" 2>"$WORK/errors" &
    pid=$!
    line=$("$BIN/load" "$port" --connections 4 --requests "$REQUESTS" --layout "$LAYOUT" "$@" 2>>"$WORK/errors")
    if [ -z "$line" ]; then
        echo "load failed: $(tail -n 1 "$WORK/errors")" >&2
        kill "$pid" 2>/dev/null
    fi
    wait "$pid" 2>/dev/null
    echo "$line $(tail -n 1 "$WORK/peak")" |
        awk '{ printf "%s %s %s %s %.1f %.2f\n", $6, $8, $10, $12, $13 / 1024, $14 + $15 }'
}

compare_serve() { # LABEL WORKLOAD_OPTIONS LOAD_OPTIONS
    local label=$1 name
    # shellcheck disable=SC2086
    "$BIN/workload" serve $2 >"$WORK/head"
    : >"$WORK/a.rows"
    : >"$WORK/b.rows"
    for _ in $(seq "$REPS"); do
        PORT=$((PORT + 1))
        # shellcheck disable=SC2086
        serve_once "$A" "$WORK/head" $3 >>"$WORK/a.rows"
        PORT=$((PORT + 1))
        # shellcheck disable=SC2086
        serve_once "$B" "$WORK/head" $3 >>"$WORK/b.rows"
    done
    local place
    for name in a b; do
        printf '%-22s %2s' "$label" "${name^}"
        for place in 1 2 3 4 5 6; do
            printf ' %10s' "$(field $place "$WORK/$name.rows")"
        done
        echo
    done
    printf '%-22s %2s' "" "A/B"
    for place in 1 2 3 4 5 6; do
        printf ' %10s' "$(ratio "$(field $place "$WORK/a.rows")" "$(field $place "$WORK/b.rows")")"
    done
    echo
}

echo "A: $A"
echo "B: $B"
echo "machine: $(nproc) cores, load $(cut -d' ' -f1-3 /proc/loadavg); repetitions $REPS, scale $SCALE%"
for case in $CASES; do
    case $case in
    run)
        head_of_table "run"
        for preset in $PRESETS; do
            script_of "$preset"
            compare "run $preset ($(wc -l <"$WORK/$preset.script"))" "$WORK/$preset.script" run
        done
        ;;
    solo)
        head_of_table "solo"
        script_of mixed
        compare "solo t0 of mixed" "$WORK/mixed.script" solo t0
        ;;
    audit)
        head_of_table "audit"
        script_of audit
        compare "audit" "$WORK/audit.script" audit
        ;;
    replay)
        head_of_table "replay"
        script_of audit
        # shellcheck disable=SC2086
        $B audit <"$WORK/audit.script" >"$WORK/audit.file"
        compare "replay t0 of B's audit" "$WORK/audit.file" replay t0
        ;;
    migrate)
        head_of_table "migrate"
        script_of audit
        # (an audit of small versions is one of layout 1 too, but for the line that names its layout)
        # shellcheck disable=SC2086
        $B audit <"$WORK/audit.script" | sed '1{/^layout 2$/d;}' >"$WORK/old.file"
        compare "migrate B's audit" "$WORK/old.file" migrate
        ;;
    growth | crowd)
        head_of_table "$case"
        sizes=$GROWTH
        [ "$case" = growth ] || sizes=$CROWD
        for n in $sizes; do
            "$BIN/workload" "$case" --events "$n" >"$WORK/$case.script"
            compare "$n events" "$WORK/$case.script" run
        done
        ;;
    serve)
        printf '\n%-22s %2s %10s %10s %10s %10s %10s %10s\n' "serve, 4 connections" "" \
            "requests/s" "p50 us" "p99 us" "p999 us" "MB" "CPU s"
        compare_serve "own tenants, 1 dc" "--tenants 4" "--tenants 4"
        compare_serve "one tenant, 2 dcs" "--tenants 1 --dcs 2 --shards 4" "--tenants 1 --dcs 2"
        compare_serve "own, depth 16" "--tenants 4 --shards 4" "--tenants 4 --depth 16"
        ;;
    *) echo "unknown case $case" ;;
    esac
done
