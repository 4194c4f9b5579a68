#!/usr/bin/env bash
# Where the instructions of the library's run go, one line for each family: of its middle case by instructions, or with --sums of all its cases
# together. Needs valgrind, whose callgrind counts the same on every run, and the harness built over the library (README.md). callgrind takes about
# 50 times as long as the run itself; a case that takes it more than the limit is left out and named at the end. Without FAMILY: all families.
# With --growth: instructions of the other questions at 16, 32, 64 and 128 cells, and how much the last doubling costs.
#   ./profile.sh [--sums] [--limit SECONDS (60)] [FAMILY...]
#   ./profile.sh --growth
set -euo pipefail
cd "$(dirname "$0")"
sums=no growth=no limit=60
while [[ "${1:-}" == --* ]]; do
    case "$1" in
        --sums) sums=yes ;;
        --growth) growth=yes ;;
        --limit) limit=$2; shift ;;
        *) echo "$1: not understood" >&2; exit 2 ;;
    esac
    shift
done
[ $# -gt 0 ] || set -- ""
for name in prismfleece_run casefile::read_case classes::twins::start classes::closing::settle solving::search::search; do
    grep -qaF "$name" target/release/bench || { echo "target/release/bench has no function $name of its own: build it over libprismfleece.a" >&2; exit 1; }
done
work=$(mktemp -d)
trap 'rm -rf "$work"' EXIT

# One call of prismfleece_run as callgrind saw it: instructions, those for reading, twins, search and copying, search steps, unifications.
counts() {
    awk '
        /^summary:/ { whole = $2 }
        /^fn=/ { from = substr($0, 4); sub(/\x27.*/, "", from) }
        /^cfn=/ { to = substr($0, 5); sub(/\x27.*/, "", to) }
        /^calls=/ { split($1, count, "="); calls[to] += count[2]; getline; if (from != to) below[to] += $2; next }
        /^[0-9+*-]/ { if (from ~ /memcpy/) copying += $2 }
        END {
            search = "solving::search::search"
            printf "%.0f %.0f %.0f %.0f %.0f %d %d", whole, below["casefile::read_case"], below["classes::twins::start"], below[search], copying,
                calls[search], calls["classes::closing::settle"]
        }' "$1"
}

# Of each case of a family: its counts and its name.
family() {
    while read -r _ bytes name; do
        status=0
        timeout "$limit" valgrind -q --tool=callgrind --toggle-collect=prismfleece_run --compress-strings=no \
            --callgrind-out-file="$work/calls" ./target/release/bench --once "$bytes" || status=$?
        case $status in
            0) echo "$(counts "$work/calls") $name" ;;
            124) echo "$name" >>"$work/left out" ;;
            *) echo "$name: callgrind ends with status $status" >&2; exit 1 ;;
        esac
    done < <(grep "^$1 " "$work/cases")
}

# The line of a family for its middle case; nothing if it has none.
middle() {
    sort -n | awk -v family="$1" '
        { line[NR] = $0 }
        function share(part) { return sprintf("%.0f %%", 100 * part / whole) }
        END {
            if (NR == 0) exit
            name = line[int(NR / 2) + 1]
            split(name, n, " "); whole = n[1]
            for (i = 0; i < 7; i++) sub(/^[0-9]+ /, "", name)
            printf "| %s | %s | %.0f | %s | %s | %s | %s | %d | %d |\n", family, name, whole / 1000, share(n[2]), share(n[3]), share(n[4]),
                share(n[5]), n[6], n[7]
        }'
}

# The line of a family for all its cases together.
together() {
    awk -v family="$1" '
        { whole += $1; steps += $6; unifications += $7 }
        END { printf "| %s | %d | %.0f | %d | %d |\n", family, NR, whole / 1000, steps, unifications }'
}

# The instructions of one call of a question, a shape and a number of cells.
call() {
    valgrind -q --tool=callgrind --toggle-collect=collected --callgrind-out-file="$work/calls" ./target/release/bench --call "$1"
    awk '/^summary:/ { print $2 }' "$work/calls"
}

if [ "$growth" = yes ]; then
    echo "| question | shape | 16 cells | 32 cells | 64 cells | 128 cells | growth |"
    echo "|---|---|---|---|---|---|---|"
    ./target/release/bench --only calls | while read -r question shape; do
        counts=()
        for cells in 16 32 64 128; do counts+=("$(call "$question $shape $cells")"); done
        awk -v line="| $question | $shape" -v counts="${counts[*]}" 'BEGIN {
            split(counts, n, " ")
            for (i = 1; i <= 4; i++) line = line " | " n[i]
            printf "%s | %.1f |\n", line, n[4] / n[3]
        }'
    done
    exit
fi

for wanted; do
    ./target/release/bench --only list ${wanted:+--family "$wanted"}
done >"$work/cases"
if [ "$sums" = yes ]; then
    echo "| family | cases | thousand instructions | search steps | unifications |"
    echo "|---|---|---|---|---|"
    line=together
else
    echo "| family | middle case | thousand instructions | reading | twins | search | copying, in all three | search steps | unifications |"
    echo "|---|---|---|---|---|---|---|---|---|"
    line=middle
fi
for name in $(cut -d ' ' -f 1 "$work/cases" | uniq); do
    family "$name" | "$line" "$name"
done
if [ -e "$work/left out" ]; then
    echo
    echo "Left out, more than $limit s under callgrind: $(paste -s -d ' ' "$work/left out")."
fi
