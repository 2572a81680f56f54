#!/usr/bin/env bash
# Tells how long it takes to follow the frames of a page of 512 rows that is flushed 2,000 times, of which each shows another text of a row:
#   tests/follow_rows.sh crates/live/out/live
# Prints the bytes of the script, of its frames and of the pages, and the seconds of `live wire` and of `live follow`. Who follows has to print what the
# script prints of pages, else the status is 1.
set -u
export LC_ALL=C
if [ $# -ne 1 ]; then
  echo "usage: tests/follow_rows.sh PROGRAM" >&2
  exit 2
fi
program=$1
case $program in */*) ;; *) program=./$program ;; esac
room=$(mktemp -d) || exit 1
trap 'rm -rf "$room"' EXIT
TIMEFORMAT=%U

awk 'BEGIN {
  print "list todos (title, done)"
  for (i = 0; i < 512; i++) printf "insert todos %d \"k%d\" (\"Row %d\", false)\n", i, i, i
  print "template t\ntag @ul\neach todos\ntag @li\ntext it.title\ntext it.done\nend\nend\nend\nend\nmount p t"
  for (i = 0; i < 2000; i++) printf "put todos \"k%d\" title \"Row %d, then %d\"\nflush\n", i * 37 % 512, i * 37 % 512, i
}' >"$room/script"

wired=$({ time "$program" wire <"$room/script" >"$room/frames"; } 2>&1)
followed=$({ time "$program" follow <"$room/frames" >"$room/pages"; } 2>&1)
"$program" run <"$room/script" | grep -v '^op ' >"$room/wanted"
if ! cmp -s "$room/pages" "$room/wanted"; then
  echo "who follows the frames doesn't print the pages of the script" >&2
  exit 1
fi
size() { wc -c <"$1"; }
echo "script: $(size "$room/script") bytes; frames: $(size "$room/frames") bytes; pages: $(size "$room/pages") bytes"
echo "live wire: $wired s; live follow: $followed s"
