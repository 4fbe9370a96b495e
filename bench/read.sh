#!/bin/bash
# bench/read.sh [N]: how fast N product documents (10000 by default) of some 300 bytes are put, as many searches are answered, each a `bool` of 20 clauses,
# and a log of the documents is opened.
#
# Prints a line for each, the best of three runs, in processor time of the whole process: `indexd replay` over a script of N puts, less one that only opens
# an index; over the N searches in an index of one document, less the same without them; Python's json.loads over the same documents, as a common
# yardstick; and `indexd inspect` over the log of a copy that has the documents, less one over an empty log. MB are a million bytes.
# INDEXD_PROGRAM=FILE measures the executable FILE in place of crates/indexd/out/indexd, which ./indexd builds first where it has to. Needs python3.
set -euo pipefail

documents=${1:-10000}
if ! [[ $documents =~ ^[1-9][0-9]{0,6}$ ]]; then
    echo "bench/read.sh: a number of documents is wanted, and not $documents" >&2
    exit 2
fi
. "$(dirname -- "$(readlink -f -- "${BASH_SOURCE[0]}")")/program.sh"
folder=$(mktemp -d)
trap 'rm -rf -- "$folder"' EXIT
mapping='{"properties":{"name":{"type":"text"},"about":{"type":"text"},"brand":{"type":"keyword"},"price":{"type":"long"},"in_stock":{"type":"boolean"},"tags":{"type":"keyword"}}}'

# Prints so many documents; the same number gives the same lines.
documents_of() {
    awk -v documents="$1" '
        function draw(below) { seed = seed * 16807 % 2147483647; return seed % below }
        function words(count,   text, i) { for (i = 0; i < count; i++) text = text (i ? " " : "") word[draw(kinds)]; return text }
        BEGIN {
            seed = 1
            kinds = split("red Green blue steel Oak light Heavy small large Garden kitchen chair Table lamp Straße café über set of and", list, " ")
            for (i = 1; i <= kinds; i++) word[i - 1] = list[i]
            for (i = 1; i <= documents; i++) {
                printf "{\"name\":\"%s %d\",\"about\":\"%s\",", words(4), i, words(30)
                printf "\"brand\":\"brand-%d\",\"price\":%d,\"in_stock\":%s,", draw(200), draw(100000), draw(2) ? "true" : "false"
                printf "\"tags\":[\"%s\",\"%s\",\"%s\"]}\n", words(1), words(1), words(1)
            }
        }'
}

# Prints so many lines with a search, each a `bool` whose 20 clauses stand in all its parts.
searches_of() {
    awk -v queries="$1" '
        function clause(i) {
            if (i % 4 == 0) return "{\"term\":{\"brand\":\"brand-" (i * 7 + q) % 200 "\"}}"
            if (i % 4 == 1) return "{\"match\":{\"about\":\"garden chair " q "\"}}"
            if (i % 4 == 2) return "{\"range\":{\"price\":{\"gte\":" (q * 13 + i) % 50000 ",\"lt\":90000}}}"
            return "{\"prefix\":{\"name\":\"" substr("streasete", i % 5 + 1, 2) "\"}}"
        }
        function clauses(from, to,   text, i) { for (i = from; i <= to; i++) text = text (i > from ? "," : "") clause(i); return text }
        BEGIN {
            for (q = 1; q <= queries; q++) {
                printf "search 1 {\"query\":{\"bool\":{\"filter\":{\"exists\":{\"field\":\"price\"}},\"must\":{\"range\":{\"price\":{\"gt\":10}}},"
                printf "\"must_not\":[%s],\"should\":[%s],\"minimum_should_match\":2}}}\n", clauses(4, 6), clauses(7, 20)
            }
        }'
}

# Prints the log of a copy that has the documents of standard input, as docs/FORMATS.md has it.
log_of() {
    python3 -c '
import struct, sys
sys.stdout.buffer.write(b"RSX1")
for seq, line in enumerate(sys.stdin.buffer):
    name, source = b"%d" % seq, line.rstrip(b"\n")
    content = struct.pack("<BqQQQBH", 1, seq - 1, seq, 1, 1, 1, len(name)) + name + struct.pack("<I", len(source)) + source
    sys.stdout.buffer.write(struct.pack("<I", len(content)) + content)'
}

# Runs a command three times, and prints the least of their processor times, in microseconds.
micros_of() {
    python3 -c '
import resource, subprocess, sys
def taken():
    used = resource.getrusage(resource.RUSAGE_CHILDREN)
    return used.ru_utime + used.ru_stime
best = None
for _ in range(3):
    begun = taken()
    subprocess.run(sys.argv[1:], stdout=subprocess.DEVNULL, check=True)
    best = min(taken() - begun, best or 1e9)
print(int(best * 1e6))' "$@"
}

# Prints how many, and how many bytes, were done in the time of one command less that of another.
tell() {
    awk -v name="$1" -v count="$2" -v bytes="$3" -v micros="$(($4 - $5))" 'BEGIN {
        if (micros < 1) micros = 1
        printf "%-12s %9d a second, %7.1f MB/s (%.3f s)\n", name, count / micros * 1e6, bytes / micros, micros / 1e6
    }'
}

documents_of "$documents" >"$folder/documents"
searches_of "$documents" >"$folder/searches"
log_of <"$folder/documents" >"$folder/log"
printf 'RSX1' >"$folder/empty"
echo "open 1 $mapping" >"$folder/opens"
{ cat -- "$folder/opens"; awk '{ print "put 1 " NR " " $0 }' "$folder/documents"; } >"$folder/puts"
{ cat -- "$folder/opens"; head -n 1 -- "$folder/documents" | sed 's/^/put 1 1 /'; echo "refresh 1"; } >"$folder/one"
{ cat -- "$folder/one" "$folder/searches"; } >"$folder/asks"
bytes=$(($(wc -c <"$folder/documents") - documents))
echo "$documents documents of $bytes bytes, as many searches of $(wc -c <"$folder/searches") bytes, and a log of $(wc -c <"$folder/log"): $("$program" inspect "$folder/log")"
tell "put" "$documents" "$bytes" "$(micros_of "$program" replay "$folder/puts")" "$(micros_of "$program" replay "$folder/opens")"
tell "json.loads" "$documents" "$bytes" "$(micros_of python3 -c 'import json, sys
for line in open(sys.argv[1]): json.loads(line)' "$folder/documents")" "$(micros_of python3 -c 'import json')"
tell "search" "$documents" "$(wc -c <"$folder/searches")" "$(micros_of "$program" replay "$folder/asks")" "$(micros_of "$program" replay "$folder/one")"
tell "inspect" "$documents" "$(wc -c <"$folder/log")" "$(micros_of "$program" inspect "$folder/log")" "$(micros_of "$program" inspect "$folder/empty")"
