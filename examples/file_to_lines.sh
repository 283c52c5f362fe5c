#!/usr/bin/env bash
# Says the blocks of NEW that differ from those of OLD, as lines `W TIME BLOCK HEX` of a session.
#
#   file_to_lines.sh SIZE TIME OLD NEW
#
# SIZE is the array's block size in bytes. OLD is an earlier copy of the file, or /dev/null where there is none yet. NEW must
# hold whole blocks. A block that NEW has no more is left out: the array keeps its last contents.
set -euo pipefail
[ $# = 4 ] || { echo "usage: file_to_lines.sh SIZE TIME OLD NEW" >&2; exit 2; }
size=$1 time=$2 old=$3 new=$4
[ $(($(stat -c %s "$new") % size)) = 0 ] || { echo "$new doesn't hold whole blocks of $size bytes" >&2; exit 1; }

# the blocks of a file, each a line of hexadecimal digits
blocks() {
  od -An -v -tx1 -w"$size" "$1" | tr -d ' '
}

paste <(blocks "$new") <(blocks "$old") |
  awk -F '\t' -v time="$time" '$1 != "" && $1 != $2 { print "W", time, NR - 1, $1 }'
