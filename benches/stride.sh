#!/usr/bin/env bash
# Times the exclusive-or of two leased blocks of 4096 bytes, with the region's stride as it is, a cache line more than a block, and
# with one of just a block. It builds a program of its own for each, in a folder of its own. It is no part of the gate.
set -euo pipefail
root=$(cd "$(dirname "$0")/.." && pwd)
folder=$(mktemp -d)
trap 'rm -rf "$folder"' EXIT
for gap in 64 0; do
  mkdir "$folder/$gap"
  git -C "$root" archive HEAD crates/trap_pool crates/trap_block HANDLES | tar -x -C "$folder/$gap"
  cd "$folder/$gap"
  printf 'trap_block: byteorder\ntrap_pool: trap_block\n' >crates.txt
  git init -q .
  rm -rf crates/*/must-fail
  sed -i "s/const GAP: usize = 64;/const GAP: usize = $gap;/" crates/trap_pool/src/pool.rt
  grep -rl 'size + 64' crates/trap_pool --include=*.antt --include=*.rt | xargs -r sed -i "s/size + 64/size + $gap/g"
  rt new crates/bench_pool start_io >/dev/null
  rm -rf crates/bench_pool/src/* crates/bench_pool/stdin crates/bench_pool/stdout crates/bench_pool/BUILD.bazel
  echo 'bench_pool: trap_pool' >>crates.txt
  cat >crates/bench_pool/src/main.rt <<'RT'
//! Leases two blocks and xors one into the other, again and again.
#![tactic(auto)]

use std::io;
use trap_pool::Pool;

fn xor_two(pool: &mut Pool) {
    if let Some(a) = pool.take() {
        if let Some(b) = pool.take() {
            pool.xor(&a, &b);
            pool.give(b);
        }
        pool.give(a);
    }
}

fn main(rt: HostRuntime) -> io::Result<()> {
    let Ok(mut pool) = Pool::new(rt.alloc(), 6, 4096) else {
        return Ok(());
    };
    for _ in 0..2_000_000u32 {
        xor_two(&mut pool);
    }
    println!(rt; "{}", pool.free())?;
    Ok(())
}
RT
  (cd crates/bench_pool && rt ${VERB:-run} >"$folder/log" 2>&1) || { tail -n 20 "$folder/log"; exit 1; }
  cp crates/bench_pool/out/bench_pool "$folder/with_$gap"
done
python3 - "$folder/with_64" "$folder/with_0" <<'PY'
import resource, subprocess, sys


def once(program):
    """Processor seconds of a run."""
    before = resource.getrusage(resource.RUSAGE_CHILDREN)
    subprocess.run([program], stdout=subprocess.DEVNULL, check=True)
    after = resource.getrusage(resource.RUSAGE_CHILDREN)
    return after.ru_utime + after.ru_stime - before.ru_utime - before.ru_stime


times = {program: [] for program in sys.argv[1:]}
for _ in range(9):
    for program in sys.argv[1:]:
        times[program].append(once(program))
wide, narrow = (min(times[program]) / 2e6 * 1e9 for program in sys.argv[1:])
print(f'a block and 64 bytes: {wide:.0f} ns an exclusive-or; a block: {narrow:.0f} ns; ratio {narrow / wide:.2f}')
PY
