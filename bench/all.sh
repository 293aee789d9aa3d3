#!/bin/sh
# Measures what docs/MEASURED.md has: the service compared with an earlier one and the bare gateway, and the gateway under load.
# It takes about a quarter of an hour on 4 idle cores, the most important parts first, with what `make build` and `make core` built.
# Call: bench/all.sh [GATEWAY [TOTXEGUN [EARLIER]]]; EARLIER is a folder with totxegun and gateway of 1383c49c.
#
# Each part's output also goes to out/bench/NAME.txt. Status 0, even if a part was left out; its lines say why.
top=$(cd "$(dirname "$0")/.." && pwd)
gateway=${1:-$top/bin/gateway}
totxegun=${2:-$top/bin/totxegun}
earlier=${3:+--earlier $3}
out=$top/out/bench
mkdir -p "$out"

# part NAME SCRIPT WORDS ..
part() {
    name=$1
    script=$2
    shift 2
    echo "== $(date +%H:%M:%S) bench/$script $*"
    { echo "bench/$script $*"; "$top/bench/$script" --gateway "$gateway" --totxegun "$totxegun" "$@" 2>&1; } | tee "$out/$name.txt"
}

# shellcheck disable=SC2086 # words, each an argument
part service service.py --runs 3 --seconds 0.7 $earlier
# shellcheck disable=SC2086
part half service.py --senders 64 --rows json-1,json-20,protobuf-103 --parties process --runs 3 --share 0.5 $earlier
part plain gateway.py --beside plain,plain-tree,plain-answers,plain-fast --allocators tcmalloc --receivers 4 --runs 7 --seconds 0.6
part instructions instructions.py
part cumulative cumulative.py
part post post.py
part runs service.py --rows protobuf-103,cumulative-103 --senders 64 --parties process --runs 3 --seconds 0.7
part allocators gateway.py --allocators libc,mimalloc --seconds 0.7
# shellcheck disable=SC2086
part kill service_times.py --times 5 $earlier kill
# shellcheck disable=SC2086
part checkpoint service_times.py --times 5 $earlier checkpoint
# shellcheck disable=SC2086
part replay service_times.py --posts 10000 $earlier replay
part backlog service_times.py --times 3 backlog
part memory service_times.py --series 100000 memory
part bytes service_times.py bytes
part threads gateway.py --points 20 --kinds sum --senders 1,8,64 --receivers 1,4,8 --allocators tcmalloc --runs 5 --seconds 0.5
part more gateway.py --allocators tuned,tcmalloc,jemalloc --seconds 0.7
part kept gateway.py --allocators libc,tcmalloc,mimalloc --beside plain --runs 1 --kept
