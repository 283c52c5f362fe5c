#!/usr/bin/env bash
# Puts the program, the plugin that serves an array as a block device, the manual page and the completions under PREFIX
# (/usr/local where none is named), or with --remove takes them away again.
set -euo pipefail
root=$(cd "$(dirname "${BASH_SOURCE[0]}")/.." && pwd)

usage() {
  echo "usage: install.sh [--remove] [PREFIX]" >&2
  exit 2
}

is_removing=no
prefix=/usr/local
for word in "$@"; do
  case "$word" in
    --remove) is_removing=yes ;;
    -*) usage ;;
    *) prefix=$word ;;
  esac
done
[ $# -le 2 ] || usage

# What is put where: a file's mode, its source in the repository, its place under PREFIX.
files() {
  cat <<'TEXT'
755 crates/trap_cli/out/trap_cli lib/limuvosel/limuvosel
755 scripts/help.sh lib/limuvosel/help.sh
755 scripts/replicate.sh lib/limuvosel/replicate.sh
644 bridge/limuvosel_nbd.py lib/limuvosel/limuvosel_nbd.py
644 docs/man/limuvosel.1 share/man/man1/limuvosel.1
644 examples/completion/limuvosel.bash share/bash-completion/completions/limuvosel
TEXT
}

# Folders that are empty now are removed, up to PREFIX itself, which stays.
remove_empty() {
  (cd "$prefix" && rmdir -p --ignore-fail-on-non-empty "$1" 2>/dev/null) || true
}

if [ "$is_removing" = yes ]; then
  rm -f "$prefix/bin/limuvosel"
  while read -r _ _ place; do
    rm -f "$prefix/$place"
  done < <(files)
  for folder in bin lib/limuvosel share/man/man1 share/bash-completion/completions; do
    remove_empty "$folder"
  done
  echo "removed from $prefix"
  exit 0
fi

if [ ! -x "$root/crates/trap_cli/out/trap_cli" ]; then
  echo "install.sh: the program isn't built yet: run ./limuvosel first" >&2
  exit 1
fi
while read -r mode source place; do
  install -D -m "$mode" "$root/$source" "$prefix/$place"
done < <(files)
mkdir -p "$prefix/bin"
# The proved program keeps its exact refusals; only these two words are answered before it.
cat >"$prefix/bin/limuvosel" <<'SCRIPT'
#!/bin/sh
lib=$(dirname "$(readlink -f "$0")")/../lib/limuvosel
case "$1" in
  help | --help) exec "$lib/help.sh" "$2" ;;
esac
exec "$lib/limuvosel" "$@"
SCRIPT
chmod 755 "$prefix/bin/limuvosel"
echo "installed under $prefix"
