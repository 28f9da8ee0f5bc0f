#!/usr/bin/env bash
# What a unit of work costs, in instructions by callgrind, with what the same input without the units costs taken off.
# Beside it what a plain Rust program of the same behaviour needs on the same input, and what is wanted, where that was
# measured or said. A case that stands with several sizes is to cost about as much at each.
# Takes words of the rows that are wanted, all of them where none is given, which takes six minutes. Wants valgrind.
set -eu
shopt -s inherit_errexit
. "$(dirname "$0")/common.sh"
words=$*

# row MEASURE PLAIN WANTED WORDS INPUT..: a line of the table, where its words are wanted; the measure gets the rest.
row() {
  local measure=$1 plain=$2 wanted=$3 name=$4 it measured
  shift 4
  for it in ${words:-$name}; do
    if [[ $name == *$it* ]]; then
      measured=$($measure "$@")
      echo "| $name | $measured | $plain | $wanted |"
      return
    fi
  done
}

make() { python3 "$here/bench/cases.py" "$1" "$2" >"$work/$2"; }

# units CASE COUNT [EACH]: instructions of one of COUNT units, which are EACH times as many as the case counts.
units() {
  local program=$xslu word=run
  case $1 in
    raw) program=$xsstream word=raw ;;
    digits) program=$xsstream word=hex ;;
  esac
  make "$1" 0
  make "$1" "$2"
  local none all
  none=$(instructions "$program" "$word" "$work/0")
  all=$(instructions "$program" "$word" "$work/$2")
  echo $(((all - none) / ($2 * ${3:-1})))
}

# seconds CASE COUNT, kilobytes CASE COUNT: of one whole run.
seconds() { usage '"%.2f" % used.ru_utime' "$@"; }
kilobytes() { usage used.ru_maxrss "$@"; }
usage() {
  make "$2" "$3"
  python3 - "$xslu" "$work/$3" <<PY
import resource, subprocess, sys
with open(sys.argv[2], "rb") as script:
    subprocess.run([sys.argv[1], "run"], stdin=script, stdout=subprocess.DEVNULL, check=True)
used = resource.getrusage(resource.RUSAGE_CHILDREN)
print($1)
PY
}

echo '| Case | measured | plain | wanted |'
echo '|---|---|---|---|'
row units 66000 90000 'a value of 4000 bytes written, then read, a request' long_values 400
row units 666 720 'a message byte by byte, an event' bytewise 1000 240
row units 1325 1700 'pieces of 1000 bytes, an event' pieces 4000 5
row units 2390 2700 '`xsstream raw`, a node' raw 10000
row units 5360 6000 '`xsstream hex`, a node' digits 10000
row units 4500 8000 'one READ of one of 1000 domains' domain_read:1000 1000
row units 11000 18000 'RELEASE and INTRODUCE of the lowest domid among 10000' domain_lowest:10000 500
row units 6100 17000 '10000 nodes `/local/domain/I/device/vif/J/state` written, then read, a request' host_nodes 20000

row units - 20000 'transactions: START, READ and END of one of 10000 nodes, the three' short_transactions:10000 1000
row units 5000 9000 'transactions: 1000 WRITEs in one and its END, a request' long_transaction 1000
row units - - 'transactions: 10000 WRITEs in one and its END, a request' long_transaction 10000
for size in 0 1 10 100; do
  row units - - "transactions: WRITE outside of them, open ones: $size" "beside_open:$size" 300
done
for size in 0 100000; do
  row units - - "transactions: START and END in a store of nodes: $size" "empty_transactions:$size" 300
done

row units - - 'watches: WRITE of a node, without any' watched_write:0 300
row units - - 'watches: WRITE of a node that one of 10000 is on, with its event' watched_write:10000 300
row units - 1500 'watches: an event of a node that 100 connections watch' many_watchers:100 300 100
row units - 2500 'watches: RM of 1000 nodes with one on each, a node' watched_rm:1000 1000
row units - - 'watches: RM of 1000 nodes with one above them, a node' rm_below_watch:1000 1000
row units - - 'watches: RM of 1000 nodes without any, a node' rm_unwatched:1000 1000

for size in 10000 100000; do
  row units - 2000 "handovers: of $size nodes, 1000 connections and 100 transactions, a node" "handovers:$size" $((size * 2))
done

row units 15000 - 'depth: READ of an absent path of 60 levels' absent:60 200
row units 730000 - 'depth: READ of an absent path of 960 levels' absent:960 20
row seconds 0.05 - '16000 head lines `domain` in falling order, seconds' falling_domains 16000
row kilobytes - 144000 'two million lines `serve`, kilobytes' serves 2000000
row units - - 'DIRECTORY of 10000 children, which is too long to send' long_directory:10000 20

for size in 1000 10000; do
  row units - - "$size nodes in mixed order written, then read, a request" mixed_nodes $((size * 2))
  row units - - "$size nodes in 100 folders: READ" "folder_read:$size" 1000
  row units - - "$size nodes in 100 folders: DIRECTORY of 100 names" "folder_directory:$size" 100
  row units - - "$size nodes in 100 folders: MKDIR" "folder_mkdir:$size" 100
  row units - - "$size nodes in 100 folders: RM of all, a node" "folder_rm:$size" "$size"
done
for size in 1 100 10000; do
  row units - - "READ by a guest, domains: $size" "domain_read:$size" 1000
  row units - - "INTRODUCE and RELEASE of the highest domid, domains: $size" "domain_highest:$size" 500
done
row units - - 'INTRODUCE and RELEASE of the lowest domid and connection, domains: 10000' domain_lowest_id:10000 500
for size in 1000 30000; do
  row units - - "$size bytes of replies wait: \`out 0 1\` and \`take 0 1\`" "waiting:$size" 900
done
