#!/bin/bash
# examples/books.sh [PORT]: a walk through the requests with curl, over a server of its own (port 9200 by default). books.out is what it prints.
set -euo pipefail
cd -- "$(dirname -- "$(readlink -f -- "${BASH_SOURCE[0]}")")"
port=${1:-9200}
url=http://127.0.0.1:$port

# Prints a request, its page's body and its status.
ask() {
    echo "> $*"
    curl -sS -w '\n%{http_code}\n' -X "$1" "$url$2" ${3+--data-binary "$3"}
}

"${INDEXD_PROGRAM:-../indexd}" serve --port "$port" --index books --mapping books.json --refresh-ms 0 &
server=$!
trap 'kill "$server" 2>/dev/null || true' EXIT
for _ in {1..100}; do
    curl -s -o /dev/null "$url/" && break
    sleep 0.1
done

echo "# Write, get, search"
ask PUT '/books/_doc/1' '{"title":"Faust","author":"Goethe","year":1808}'
ask GET '/books/_doc/1'
ask POST '/books/_search' '{"query":{"match":{"title":"faust"}}}'
ask POST '/books/_refresh'
ask POST '/books/_search' '{"query":{"match":{"title":"faust"}}}'

echo "# A write that shows at once"
ask PUT '/books/_doc/2?refresh=true' '{"title":"The Trial","author":"Kafka","year":1925}'
ask POST '/books/_count' '{"query":{"range":{"year":{"gte":1900}}}}'

echo "# Only where there is none, and only where nobody has written since"
ask PUT '/books/_create/1' '{"title":"Faust II"}'
ask PUT '/books/_doc/1?if_seq_no=0&if_primary_term=1' '{"title":"Faust. A Tragedy","author":"Goethe","year":1808}'
ask PUT '/books/_doc/1?if_seq_no=0&if_primary_term=1' '{"title":"Faust"}'

echo "# Many writes in one request"
ask POST '/books/_bulk?refresh' '{"index":{"_id":"3"}}
{"title":"The Castle","author":"Kafka","year":1926}
{"create":{"_id":"1"}}
{"title":"Faust"}
{"delete":{"_id":"2"}}
'
ask POST '/books/_search' '{"query":{"bool":{"must":{"match":{"title":"the"}},"filter":{"term":{"author":"Kafka"}}}},"size":5}'

echo "# What is refused"
ask PUT '/books/_doc/4' '{"year":"long ago"}'
ask POST '/books/_search' '{"query":{"fuzzy":{"title":"fast"}}}'
ask GET '/books/_doc/4'
ask PATCH '/books/_doc/4'
ask GET '/films/_doc/1'
ask DELETE '/books/_doc/1'
