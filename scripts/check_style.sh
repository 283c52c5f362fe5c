#!/usr/bin/env bash
# The limits of docs/CONTRIBUTING.md that can be counted: widths and lengths of files, functions and READMEs, levels of
# nesting, and the number of edits of each crate.
set -uo pipefail
cd "$(dirname "$0")/.."
failed=0
complain() {
  echo "style: $1"
  failed=$((failed + 1))
}
# Lines of src/ and specs/ that are wider than 100 columns. A string of bytes may be wider.
wider() { # file, columns
  LC_ALL=C.UTF-8 grep -nE "^.{$(($2 + 1)),}$" "$1" | grep -vE '^[0-9]+: *\*?b?".*";?$' | cut -d: -f1 |
    while read -r line; do echo "$1:$line is wider than $2 columns"; done
}
too_wide() { # crate
  find "$1/src" "$1/specs" -name '*.rt' -o -name '*.antt' | while read -r file; do wider "$file" 100; done
}
# Functions whose body has more than 40 lines, or more than three levels within one another; tests may be longer. And functions
# with more than eight `ensures`.
too_long() { # crate
  find "$1/src" -name '*.rt' ! -path '*test*' | while read -r file; do
    awk -v file="$file" '
      /^ *(pub(\([a-z]*\))? )?(const )?fn [a-z]/ && !body { match($0, /^ */); indent = RLENGTH; name = $0; sub(/.*fn /, "", name); sub(/[(<].*/, "", name); inside = 1; clauses = 0; ensured = 0; most = 8 }
      body { level = match($0, /[^ ]/) - 1 - indent; if (level == 0 && $0 ~ /^ *}/) {
          if (NR - start - 1 > 40) print file ": " name " has " NR - start - 1 " lines, more than 40"
          if (deepest > 16) print file ": " name " has more than three levels"
          body = 0; inside = 0; next }
        if (level > deepest) deepest = level }
      inside && !body && /^ *(requires|ensures\*?) / { clauses = 1 }
      inside && !body && /^ *ensures\*? / { ensured++; if (ensured == most + 1) print file ": " name " has more than " most " clauses" }
      inside && !body && ((!clauses && /\{$/) || (clauses && /^ *\{$/)) { body = 1; start = NR; deepest = 0 }
    ' "$file"
  done
}
passed=0
for crate in crates/*; do
  name=$(basename "$crate")
  if [ ! -f "$crate/README.md" ]; then
    complain "$name has no README.md"
  elif [ "$(wc -l <"$crate/README.md")" -gt 40 ]; then
    complain "$name: README.md has more than 40 lines"
  fi
  edits=$(find "$crate/must-fail" -name '*.edit' 2>/dev/null | wc -l)
  if [ "$edits" -lt 5 ] || [ "$edits" -gt 10 ]; then
    complain "$name has $edits edits in must-fail, not 5 to 10"
  fi
  while read -r file; do
    lines=$(wc -l <"$file")
    [ "$lines" -le 400 ] || complain "$file has $lines lines, more than 400"
  done < <(find "$crate/src" -name '*.rt')
  while read -r file; do
    lines=$(wc -l <"$file")
    [ "$lines" -le 150 ] || complain "$file has $lines lines, more than 150"
  done < <(find "$crate/specs" -name '*.antt' 2>/dev/null)
  while read -r line; do
    complain "$line"
  done < <(too_wide "$crate"; too_long "$crate")
  passed=$((passed + 1))
done
[ "$(cat HANDLES)" = 'Handles allowed: none.' ] || complain 'HANDLES must hold its one line'
echo "style: $passed crates read, $failed complaints"
[ "$failed" = 0 ]
