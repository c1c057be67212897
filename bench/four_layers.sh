#!/usr/bin/env bash
# Writes an instance of 500 trips and four layers, in each of which every trip is permitted, over 40 stops with a deadhead
# of its own each way between every two of them; those back take a minute more.
exec awk 'BEGIN {
  stops = 40; layers = 4; trips = 500
  print "instance,1"
  for (s = 0; s < stops; s++) print "stop,S" s
  for (k = 0; k < stops; k++) for (s = 0; s < stops; s++) if (k != s) {
    d = (k > s ? k - s : s - k); print "deadhead,S" k ",S" s "," d + (k > s) "," d * 500
  }
  for (l = 0; l < layers; l++) print "layer,L" l ",S" l * 10 "," 40 + 20 * l "," 50000 + 1000 * l "," 10 + l "," 4 - l
  seed = 7
  for (i = 0; i < trips; i++) {
    seed = (seed * 48271) % 2147483647; from = seed % stops
    seed = (seed * 48271) % 2147483647; to = seed % stops
    seed = (seed * 48271) % 2147483647; start = 300 + seed % 1080
    end = start + 10 + (from > to ? from - to : to - from)
    printf "trip,T%d,S%d,%d:%02d,S%d,%d:%02d,1000,L0,L1,L2,L3\n", i, from, start / 60, start % 60, to, end / 60, end % 60
  }
}'
