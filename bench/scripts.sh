#!/bin/sh
# Prints the script of a row on standard output:
#   bench/scripts.sh ROW [REPETITIONS]
#
# row        repeated  what the script does
# cells      60000     100 cells, each time one of them set and asked for
# chain      1000      a chain of 500 computeds, each time its first cell set and its last asked for
# readers    200       448 computeds that read one cell, each time the cell set and all of them asked for
# grid       1000      21 by 21 computeds of their left and upper neighbours, each time the cell at the border set and the last asked for
# far        100000    510 computeds of the 64 before them, each time a cell set that isn't below them and the last asked for
# effects    2000      1,000 effects over 500 cells and a page of 100 lines of them, each time one cell set and a flush
# rows       4400      a page of 512 rows of two texts, each time one field of a row put and a flush
# texts      2600      a page of 20 rows of 126 texts, each time one field of a row put and a flush
# comes      2000      a page of 500 rows, each time one goes and another one comes, and a flush
# counts     300       a page of 512 rows whose lines count their list, each time a cell set that another line shows, and a flush
# longchain  100       a chain of 10,000 computeds, each time its first cell set and its last asked for
# manyreads  20        10,000 computeds that read one cell, each time the cell set and all of them asked for
#
# Without REPETITIONS it is as often as the table says. With 0 only what stands before the repetitions is printed.
# `bench/scripts.sh` alone prints the rows' names.
set -u
rows='cells chain readers grid far effects rows texts comes counts longchain manyreads'
if [ $# -eq 0 ]; then
  printf '%s\n' $rows
  exit 0
fi
times=$(sed -n "s/^# $1  *\([0-9][0-9]*\)  .*/\1/p" "$0")
if [ -z "$times" ] || [ $# -gt 2 ]; then
  echo "usage: bench/scripts.sh ROW [REPETITIONS], with a row of: $rows" >&2
  exit 2
fi

exec awk -v row="$1" -v times="${2:-$times}" '
function cells(count,   i) { for (i = 0; i < count; i++) print "cell c" i " = " i }
function chain(count,   i) {
  print "cell c0 = 0"
  for (i = 1; i <= count; i++) print "computed c" i " = c" i - 1 " + 1"
  for (i = 0; i <= times; i++) { if (i) print "set c0 " i; print "get c" count }
}
function readers(count,   i, k) {
  print "cell a = 0"
  for (i = 0; i < count; i++) print "computed r" i " = a + " i
  for (k = 0; k <= times; k++) {
    if (k) print "set a " k
    for (i = 0; i < count; i++) print "get r" i
  }
}
function grid(side,   i, j, left) {
  print "cell a = 0"
  for (i = 0; i < side; i++) for (j = 0; j < side; j++) {
    left = j ? "g" i "x" j - 1 : ""
    print "computed g" i "x" j " = " (i && j ? left " + g" i - 1 "x" j : i ? "g" i - 1 "x" j : j ? left : "a")
  }
  for (i = 0; i <= times; i++) { if (i) print "set a " i % 2; print "get g" side - 1 "x" side - 1 }
}
function far(count, width,   i, j, sum) {
  print "cell other = 0\ncell s0 = 0"
  for (i = 1; i <= count; i++) {
    sum = "s" i - 1
    for (j = i - 2; j >= 0 && j >= i - width; j--) sum = sum " + s" j
    print "computed s" i " = " sum
  }
  for (i = 0; i <= times; i++) { if (i) print "set other " i; print "get s" count }
}
function effects(   i) {
  cells(500)
  for (i = 0; i < 1000; i++) print "effect e" i "\n  log c" i % 500 "\nend"
  print "template t"
  for (i = 0; i < 100; i++) print "  text c" i
  print "end\nmount p t\nflush"
  for (i = 0; i < times; i++) print "set c" i * 17 % 500 " " i + 1000 "\nflush"
}
function list(count,   i) {
  print "list todos (title, n)"
  for (i = 0; i < count; i++) print "insert todos " i " \"k" i "\" (\"row " i "\", " i ")"
}
function page_of_items() { print "template t\n  each todos\n    tag @li\n      text it.title\n      text it.n\n    end\n  end\nend\nmount p t" }
function puts(count,   i) { for (i = 0; i < times; i++) print "put todos \"k" i * 37 % count "\" n " i + 1000 "\nflush" }
function texts(   i) {
  list(20)
  print "template t\n  each todos"
  for (i = 0; i < 126; i++) print "    text it." (i % 2 ? "n" : "title")
  print "  end\nend\nmount p t"
  puts(20)
}
function comes(   i) {
  for (i = 0; i < times; i++) {
    print "remove todos \"k" i "\""
    print "insert todos " i * 17 % 500 " \"k" i + 500 "\" (\"row " i + 500 "\", " i ")\nflush"
  }
}
function counts(   i) {
  list(512)
  print "cell other = 0\ntemplate t\n  text other\n  each todos\n    text it.title ++ \" of \" ++ count(todos)\n  end\nend\nmount p t"
  for (i = 0; i < times; i++) print "set other " i + 1 "\nflush"
}
BEGIN {
  if (row == "cells") { cells(100); for (i = 0; i < times; i++) print "set c" i * 7 % 100 " " i "\nget c" i * 7 % 100 }
  if (row == "chain") chain(500)
  if (row == "readers") readers(448)
  if (row == "grid") grid(21)
  if (row == "far") far(510, 64)
  if (row == "effects") effects()
  if (row == "rows") { list(512); page_of_items(); puts(512) }
  if (row == "texts") texts()
  if (row == "comes") { list(500); page_of_items(); comes() }
  if (row == "counts") counts()
  if (row == "longchain") chain(10000)
  if (row == "manyreads") readers(10000)
}'
