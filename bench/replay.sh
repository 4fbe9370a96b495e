#!/bin/bash
# bench/replay.sh [N ..]: the time and memory that the built program takes for scripts of N lines each (1000 and 10000 by default).
#
# Of each ten lines eight put a document, one gets one and one searches by a keyword; each hundredth line refreshes in place of a
# search. The ids are drawn from N / 2, so that about half of the puts are updates; a search matches about one document in fifty.
# Prints a line for each N: lines a second, with the start of the process, and peak memory. INDEXD_PROGRAM=FILE measures the
# executable FILE in place of the one that ./indexd runs, which is built first where it has to be. Needs GNU time.
set -euo pipefail

. "$(dirname -- "$(readlink -f -- "${BASH_SOURCE[0]}")")/program.sh"
folder=$(mktemp -d)
trap 'rm -rf -- "$folder"' EXIT

# Prints a script of so many lines behind its `open`; the same number gives the same script.
script_of() {
    awk -v lines="$1" '
        function draw(below) { seed = seed * 16807 % 2147483647; return seed % below }
        BEGIN {
            seed = 1
            documents = int(lines / 2) + 1
            print "open 1 {\"properties\":{\"k\":{\"type\":\"keyword\"}}}"
            for (line = 1; line <= lines; line++) {
                if (line % 100 == 0) print "refresh 1"
                else if (line % 10 == 0) print "search 1 {\"query\":{\"term\":{\"k\":\"v" draw(50) "\"}}}"
                else if (line % 10 == 5) print "get 1 d" draw(documents)
                else print "put 1 d" draw(documents) " {\"k\":\"v" draw(50) "\",\"line\":" line "}"
            }
        }'
}

[ "$#" -gt 0 ] || set -- 1000 10000
for lines in "$@"; do
    if ! [[ $lines =~ ^[1-9][0-9]{0,7}$ ]]; then
        echo "bench/replay.sh: a number of lines is wanted, and not $lines" >&2
        exit 2
    fi
    script_of "$lines" >"$folder/script"
    begun=${EPOCHREALTIME/[.,]/}
    /usr/bin/time -f %M -o "$folder/memory" "$program" replay "$folder/script" >"$folder/output"
    ended=${EPOCHREALTIME/[.,]/}
    awk -v lines="$lines" -v micros="$((ended - begun))" -v memory="$(cat "$folder/memory")" 'BEGIN {
        printf "%d lines: %.3f s, %d lines a second, peak memory %.1f MiB\n", lines, micros / 1e6, lines * 1e6 / micros, memory / 1024
    }'
done
