#!/bin/bash
# bench/objects.sh [N]: the time that the built program takes to read documents with objects, beside flat ones of as many keys and bytes.
#
# Each script puts one document N times (200 by default) to an index whose mapping has a text, an object with a number, and nothing else.
# Prints a line for each document: its bytes, the microseconds that a put takes, the least of five runs less that of a script without puts,
# and how many times those of the flat document above it. A put that is refused is told in place of a time: a program that knows no objects takes
# the flat documents alone, and so shows what these cost it. INDEXD_PROGRAM=FILE measures the executable FILE in place of crates/indexd/out/indexd,
# which ./indexd builds first where it has to.
set -euo pipefail

. "$(dirname -- "$(readlink -f -- "${BASH_SOURCE[0]}")")/program.sh"
folder=$(mktemp -d)
trap 'rm -rf -- "$folder"' EXIT

puts=${1:-200}
if ! [[ $puts =~ ^[1-9][0-9]{0,5}$ ]]; then
    echo "bench/objects.sh: a number of puts is wanted, and not $puts" >&2
    exit 2
fi

# Prints a script of so many puts of a document. Keys have two bytes each, and none comes twice.
script_of() {
    awk -v name="$1" -v puts="$2" '
        function key(number) { return substr(letters, int(number / 90) + 1, 1) substr(letters, number % 90 + 1, 1) }
        function keys(count,    text, at) {
            for (at = 0; at < count; at++) text = text "\"" key(at) "\":1" (at + 1 < count ? "," : "")
            return text
        }
        function many(text, count,    all, at) { for (at = 0; at < count; at++) all = all text; return all }
        function document() {
            if (name == "small") return "{\"title\":\"The quick brown fox\",\"price\":12}"
            if (name == "flat") return "{\"" many("x", 7997) "\":1," keys(8000) "}"
            if (name == "objects") return "{\"a\":[" many("{\"b\":1},", 7999) "{\"b\":1}]}"
            if (name == "flat-long") return "{\"" many("x", 20000) "\":1," keys(6000) "}"
            if (name == "below") return "{\"" many("x", 20000) "\":{" keys(6000) "}}"
            if (name == "deep") return "{\"" many("x", 20000) "\":" many("{\"y\":", 18) "{" keys(6000) "}" many("}", 18) "}"
        }
        BEGIN {
            for (code = 33; length(letters) < 90; code++) if (code != 34 && code != 92) letters = letters sprintf("%c", code)
            print "open 1 {\"properties\":{\"title\":{\"type\":\"text\"},\"a\":{\"properties\":{\"b\":{\"type\":\"long\"}}}}}"
            text = document()
            for (at = 0; at < puts; at++) print "put 1 a " text
        }'
}

# Sets `micros` to the least time of five runs of a script.
run() {
    micros=
    for _ in 1 2 3 4 5; do
        local begun=${EPOCHREALTIME/[.,]/}
        "$program" replay "$1" >"$folder/output"
        local took=$((${EPOCHREALTIME/[.,]/} - begun))
        if [ -z "$micros" ] || [ "$took" -lt "$micros" ]; then micros=$took; fi
    done
}

# Prints the line of a document. `flat` has the time of the flat document above it.
measure() {
    local name=$1 words=$2
    script_of "$name" 0 >"$folder/none"
    script_of "$name" "$puts" >"$folder/script"
    local bytes=$(($(awk 'NR == 2 { print length($0) }' "$folder/script") - 8))
    run "$folder/none"
    local start=$micros
    run "$folder/script"
    if grep -q '^refused' "$folder/output"; then
        echo "$words, $bytes bytes: $(grep -m 1 '^refused' "$folder/output")"
        return
    fi
    micros=$((micros - start))
    case $name in flat* | small) flat=$micros ;; esac
    awk -v words="$words" -v bytes="$bytes" -v micros="$micros" -v flat="$flat" -v puts="$puts" 'BEGIN {
        printf "%s, %d bytes: %.0f microseconds a put, %.2f times the flat one\n", words, bytes, micros / puts, micros / flat
    }'
}

measure small "a small flat document"
measure flat "flat, 8,000 keys"
measure objects "8,000 objects in an array"
measure flat-long "flat, 6,000 keys beside one of 20,000 bytes"
measure below "6,000 keys in an object under a key of 20,000 bytes"
measure deep "the same under 20 objects"
