#!/usr/bin/env bash
# Makes bytes of replies: the blocks of the lines `is HEX` and `at HEX` from standard input go to standard output, one behind
# the other. Any other line ends it with status 1, and is said on standard error.
#
#   replies_to_file.sh <replies >file
set -euo pipefail
awk '/^(is|at) [0-9a-f]+$/ { print toupper($2); next } { print "no block: " $0 >"/dev/stderr"; exit 1 }' | basenc --base16 -d
