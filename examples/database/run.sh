#!/usr/bin/env bash
# The case of docs/OPERATING.md, "Take a file back to before a bad write": an array follows an SQLite database, a statement
# deletes all rows, and the file is made again as it was before. It works in an empty folder of its own.
set -euo pipefail
root=$(cd "$(dirname "$0")/../.." && pwd)
if ! command -v sqlite3 >/dev/null; then
  echo "database: skipped, since sqlite3 isn't here"
  exit 0
fi
folder=$(mktemp -d)
trap 'rm -rf "$folder"' EXIT
cd "$folder"
PATH=$root:$root/examples:$PATH

# runs a statement, and writes what it changed in the file into the array with this time
save() {
  cp bank.db old.db
  sqlite3 bank.db "$2"
  file_to_lines.sh 4096 "$1" old.db bank.db | limuvosel session >>replies
}

# makes the file as it was at this time, from its five blocks
file_at() {
  seq 0 4 | sed "s/^/T $1 /" | limuvosel session | replies_to_file.sh >"at_$1.db"
}

# fails where a thing isn't what it must be
same() {
  [ "$2" = "$3" ] || { echo "database: $1: got $2, wanted $3"; exit 1; }
}

limuvosel create 1 3 16 4096 64 1 2 1000 4129000 >/dev/null
touch bank.db
save 900 "create table account (id integer primary key, owner text, cents integer);
  with recursive n(i) as (values (1) union all select i + 1 from n where i < 500)
  insert into account select i, 'owner ' || i, 100 * i from n"
same "bytes of the file" "$(stat -c %s bank.db)" $((5 * 4096))
save 930 "update account set cents = cents + 100 where id in (7, 400)"
sqlite3 bank.db .dump >dump
save 1000 "delete from account"
save 1030 "insert into account values (501, 'owner 501', 50100)"

counts=
for time in $(limuvosel history | cut -d ' ' -f 2 | uniq); do
  file_at "$time"
  counts+="$time:$(sqlite3 "at_$time.db" 'select count(*) from account') "
done
same "accounts at each time" "$counts" "900:500 930:500 1000:0 1030:1 "

file_at 999
same "the check of the file at 999" "$(sqlite3 at_999.db 'pragma integrity_check')" ok
sqlite3 at_999.db .dump | cmp - dump
cp bank.db old.db
cp at_999.db bank.db
file_to_lines.sh 4096 1100 old.db bank.db | limuvosel session >>replies
file_at 1100
cmp bank.db at_1100.db
same "refused writes" "$(grep -vc '^ok ' replies || true)" 0
echo "database: ok"
