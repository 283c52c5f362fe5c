#!/usr/bin/env bash
# Makes a PNG of the history in the current folder: writes over time, bytes of each write, blocks touched. A bad statement's
# burst stands out. It wants gnuplot.
#   history_plot.sh [PNG]
set -euo pipefail
png=${1:-history.png}
lines=$(mktemp)
trap 'rm -f "$lines"' EXIT
limuvosel history >"$lines"
[ -s "$lines" ] || { echo "history_plot.sh: no write is retained" >&2; exit 1; }
# Four steps of time from the first write to the last.
step=$(awk 'NR == 1 { first = $2 } { last = $2 } END { step = int((last - first) / 4); print (step > 0 ? step : 1) }' "$lines")
gnuplot <<TEXT
set terminal pngcairo size 900,760 font "sans,10"
set output "$png"
set multiplot layout 3,1
set grid
set key off
set xlabel "time of the write"
set format x "%.0f"
set xtics $step
set ylabel "writes up to then"
plot "$lines" using 2:1 with steps lw 2
set ylabel "bytes of the log record"
plot "$lines" using 2:4 with impulses lw 2
set ylabel "block"
plot "$lines" using 2:3 with points pt 7 ps 0.6
unset multiplot
TEXT
