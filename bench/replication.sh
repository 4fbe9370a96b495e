#!/bin/bash
# bench/replication.sh [N ..]: how many writes a second go through a primary and two replicas, with every message delivered (N writes each: 1000, 10000 and
# 100000 by default), and how many the same puts are on one copy.
#
# A write of three copies is five lines of a script: the put, its two messages to the replicas, and their two acknowledgements; the last confirms it. Each put is
# of a document of its own. Prints a line for each N: writes a second of three copies and of one, with the start of the process, microseconds a write, and the
# peak memory of three copies, which holds every message that was sent. Each time is the best of three runs. INDEXD_PROGRAM=FILE measures the executable FILE in
# place of the one that ./indexd runs, which is built first where it has to be. Needs GNU time.
set -euo pipefail

. "$(dirname -- "$(readlink -f -- "${BASH_SOURCE[0]}")")/program.sh"
folder=$(mktemp -d)
trap 'rm -rf -- "$folder"' EXIT

# Prints a script of so many writes over so many copies, 1 or 3. Each write of three copies sends four messages.
script_of() {
    awk -v writes="$1" -v copies="$2" '
        BEGIN {
            print "open " copies " {\"properties\":{\"k\":{\"type\":\"keyword\"}}}"
            for (write = 0; write < writes; write++) {
                print "put 1 d" write " {\"k\":\"v" write % 50 "\",\"line\":" write "}"
                if (copies == 3) for (message = 1; message <= 4; message++) print "deliver " 4 * write + message
            }
        }'
}

# Prints the microseconds of the best of three runs of a script. Each must confirm all of its writes.
best_of() {
    local best=0 begun ended confirmed
    for _ in 1 2 3; do
        begun=${EPOCHREALTIME/[.,]/}
        /usr/bin/time -f %M -o "$folder/memory" "$program" replay "$1" >"$folder/output"
        ended=${EPOCHREALTIME/[.,]/}
        confirmed=$(grep -c '^ack ' "$folder/output")
        if [ "$confirmed" -ne "$2" ]; then
            echo "bench/replication.sh: $confirmed of $2 writes were confirmed" >&2
            exit 1
        fi
        if [ "$best" -eq 0 ] || [ $((ended - begun)) -lt "$best" ]; then
            best=$((ended - begun))
        fi
    done
    echo "$best"
}

[ "$#" -gt 0 ] || set -- 1000 10000 100000
for writes in "$@"; do
    if ! [[ $writes =~ ^[1-9][0-9]{0,7}$ ]]; then
        echo "bench/replication.sh: a number of writes is wanted, and not $writes" >&2
        exit 2
    fi
    script_of "$writes" 1 >"$folder/one"
    script_of "$writes" 3 >"$folder/three"
    one=$(best_of "$folder/one" "$writes")
    three=$(best_of "$folder/three" "$writes")
    awk -v writes="$writes" -v one="$one" -v three="$three" -v memory="$(cat "$folder/memory")" 'BEGIN {
        printf "%d writes: %d a second through three copies, %d on one; %.1f and %.1f microseconds each; peak memory %.1f MiB\n",
            writes, writes * 1e6 / three, writes * 1e6 / one, three / writes, one / writes, memory / 1024
    }'
done
