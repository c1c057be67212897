#!/usr/bin/env bash
# Writes a timetable and a document of three million prices: so many tables (94 where no number is given) of zeros for 16
# layers and 2,000 trips, each permitted in every layer, in a tree of splits whose leaves name each table once. With a
# second argument the tree is the deepest good one, 30,000 splits, each in the right part of the one before it, whose
# leaves all name the first table.
exec awk -v tables="${1:-94}" -v deep="${2:-}" 'BEGIN {
  layers = 16; trips = 2000
  print "instance,1"
  print "stop,S"
  for (l = 0; l < layers; l++) { print "layer,L" l ",S,2000,50000,10,1"; names = names ",L" l }
  for (i = 0; i < trips; i++) {
    start = 300 + (i * 7) % 1080
    printf "trip,T%d,S,%d:%02d,S,%d:%02d,1000%s\n", i, start / 60, start % 60, (start + 9) / 60, (start + 9) % 60, names
  }
  print "result,1,open\ncost,none\nbound,0\nnodes," tables - 1
  for (t = 1; t <= tables; t++) {
    print "table," t ",cost"
    for (l = 0; l < layers; l++) {
      print "fleet,L" l ",0"
      for (i = 0; i < trips; i++) print "price,L" l ",T" i ",0,0"
    }
  }
  if (deep) for (i = 0; i < trips; i++) for (l = 1; l < layers; l++) print "split,T" i ",L" l "\nleaf,1"
  else for (t = 1; t < tables; t++) print "split,T" t ",L0\nleaf," t
  print "leaf," (deep ? 1 : tables)
  print "end"
}'
