#!/usr/bin/env bash
# Compares `live` with the plain program beside this script, row by row:
#   bench/run.sh PROGRAM [ROW..]
# PROGRAM is the built program, such as crates/live/out/live. The rows are those of scripts.sh, and `workload` for `bench 100000`; without
# any all are taken. Each row is run three times by both programs in turn. Printed is the least time of each in seconds of a processor, how
# often the plain program's time goes into the other's, and how many bytes were printed. The status is 1 where a row's bytes differ. The plain
# program is built by `rustc`; where there is none this is said, and the status is 2.
set -u
export LC_ALL=C
if [ $# -lt 1 ]; then
  echo "usage: bench/run.sh PROGRAM [ROW..]" >&2
  exit 2
fi
program=$1
shift
case $program in */*) ;; *) program=./$program ;; esac
here=$(cd "$(dirname "${BASH_SOURCE[0]}")" && pwd) || exit 1
if ! command -v rustc >/dev/null; then
  echo "there is no rustc here, which builds the plain program" >&2
  exit 2
fi
room=$(mktemp -d) || exit 1
trap 'rm -rf "$room"' EXIT
rustc -O --edition 2021 -o "$room/plain" "$here/plain/main.rs" || exit 2
[ $# -gt 0 ] || set -- workload $("$here/scripts.sh")
TIMEFORMAT='%U %S'

# The seconds of a processor that a program takes for the row; what it prints goes into a file.
seconds() { # PROGRAM OUTPUT
  if [ "$row" = workload ]; then
    { time "$1" bench 100000 >"$2"; } 2>&1
  else
    { time "$1" run <"$room/script" >"$2"; } 2>&1
  fi | awk 'NR == 1 { print $1 + $2 }'
}

status=0
printf '%-10s %8s %8s %6s %10s\n' row live plain ratio bytes
for row in "$@"; do
  if [ "$row" != workload ] && ! "$here/scripts.sh" "$row" >"$room/script"; then
    exit 2
  fi
  for turn in 1 2 3; do
    echo "$(seconds "$program" "$room/live.out") $(seconds "$room/plain" "$room/plain.out")"
  done >"$room/times"
  awk -v row="$row" -v bytes="$(wc -c <"$room/live.out")" '
    NR == 1 || $1 < live { live = $1 }
    NR == 1 || $2 < plain { plain = $2 }
    END { printf "%-10s %8.3f %8.3f %6.2f %10d\n", row, live, plain, live / (plain > 0 ? plain : 0.001), bytes }' "$room/times"
  if ! cmp -s "$room/live.out" "$room/plain.out"; then
    echo "$row: the two programs don't print the same bytes" >&2
    status=1
  fi
done
exit $status
