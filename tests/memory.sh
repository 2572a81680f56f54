#!/usr/bin/env bash
# Runs the program on each script once for every request for memory that it makes, with that one request refused:
#   tests/memory.sh crates/live/out/live examples/*.live
# Each run has to end with status 5 and a front of the output, or with status 0 and all of it. A line for each script says how
# many ended each way; a run that ends otherwise is told, and the status is then 1. It needs a compiler of C as `cc`, and a
# program that is linked to the library's malloc when it is loaded.
set -u
export LC_ALL=C
if [ $# -lt 2 ]; then
  echo "usage: tests/memory.sh PROGRAM SCRIPT.." >&2
  exit 2
fi
program=$1
shift
case $program in */*) ;; *) program=./$program ;; esac
here=$(cd "$(dirname "${BASH_SOURCE[0]}")" && pwd) || exit 1
room=$(mktemp -d) || exit 1
trap 'rm -rf "$room"' EXIT
cc -O2 -shared -fPIC -o "$room/refuse.so" "$here/refuse_memory.c" -ldl || exit 1

# Puts what a run writes into `written`, its last LF too, and its status into `status`. The request with this number is
# refused, and `refused` says whether it came.
run_refusing() {
  written=$(
    REFUSED_REQUEST=$2 LD_PRELOAD=$room/refuse.so "$program" run <"$1" 2>"$room/errors" 3>"$room/refused"
    ended=$?
    printf .
    exit $ended
  )
  status=$?
  written=${written%.}
  refused=no
  if [ -s "$room/refused" ]; then refused=yes; fi
}

failed=0
for script in "$@"; do
  whole=$("$program" run <"$script" && printf .) || { echo "$script: doesn't end with status 0 by itself" >&2; exit 1; }
  whole=${whole%.}
  fronts=0
  wholes=0
  others=0
  for ((number = 1; ; number++)); do
    run_refusing "$script" "$number"
    if [ $refused = no ]; then break; fi
    if [ $status = 0 ] && [ "$written" = "$whole" ]; then
      wholes=$((wholes + 1))
    elif [ $status = 5 ] && [ "$written" = "${whole:0:${#written}}" ]; then
      fronts=$((fronts + 1))
    else
      others=$((others + 1))
      echo "$script: with request $number refused it ends with status $status and ${#written} bytes" >&2
    fi
  done
  if [ $status != 0 ] || [ "$written" != "$whole" ]; then
    others=$((others + 1))
    echo "$script: with nothing refused it ends with status $status" >&2
  fi
  echo "$script: $((number - 1)) requests: $fronts with status 5 and a front, $wholes with status 0 and all, $others otherwise"
  if [ $others != 0 ]; then failed=1; fi
done
exit $failed
