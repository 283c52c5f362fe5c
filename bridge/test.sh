#!/usr/bin/env bash
# Tries the plugin on the built program, without root. Skipped where nbdkit, its plugin for Python or libnbd isn't there.
# Its last line is `N passed, M failed`.
set -euo pipefail
here=$(cd "$(dirname "${BASH_SOURCE[0]}")" && pwd)
program=${LIMUVOSEL_PROGRAM:-$here/../crates/trap_cli/out/trap_cli}
python=/usr/bin/python3
for tool in nbdkit nbdcopy nbdinfo; do
  command -v "$tool" >/dev/null || { echo "bridge/test.sh: skipped, since $tool isn't here"; exit 0; }
done
nbdkit --dump-plugin python >/dev/null 2>&1 || { echo "bridge/test.sh: skipped, since nbdkit's plugin for Python isn't here"; exit 0; }
"$python" -c 'import nbd' 2>/dev/null || { echo "bridge/test.sh: skipped, since python3-libnbd isn't here"; exit 0; }
[ -x "$program" ] || { echo "bridge/test.sh: skipped, since the program isn't built"; exit 0; }
scratch=$(mktemp -d)
trap 'rm -rf "$scratch"' EXIT
TMPDIR=$scratch LIMUVOSEL_PROGRAM=$(readlink -f "$program") "$python" "$here/test_bridge.py" "$@"
