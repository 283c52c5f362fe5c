#!/usr/bin/env bash
# Times coding and decoding against plain C loops of the same work: 20,000 blocks of 4096 bytes of each kind
# coded, and 100,000 decoded. It builds a program of its own in a folder of its own. It is no part of the gate.
set -euo pipefail
root=$(cd "$(dirname "$0")/.." && pwd)
folder=$(mktemp -d)
trap 'rm -rf "$folder"' EXIT
cc -O2 -o "$folder/codes" "$root/benches/codes.c"
git -C "$root" archive HEAD crates crates.txt HANDLES | tar -x -C "$folder"
cd "$folder"
git init -q .
rt new crates/bench_codes start_io >/dev/null
rm -rf crates/bench_codes/src/* crates/bench_codes/stdin crates/bench_codes/stdout crates/bench_codes/BUILD.bazel
echo 'bench_codes: trap_zrun trap_model trap_block' >>crates.txt
cat >crates/bench_codes/src/main.rt <<'RT'
//! Codes or decodes a block again and again. Its word is two digits: the kind of the block, and 0 to code or 1 to decode.
#![tactic(auto)]

use std::env;
use std::io;
use trap_zrun::{code, decode};

// The byte at a place of a block of a kind; `zero` says whether a run of one to four bytes is one of zeros.
fn byte_at(kind: u8, i: usize, zero: bool) -> u8 {
    let is_set = match kind {
        b'0' => return (i % 251) as u8 + 1,
        b'1' => i == 2000,
        b'2' => i < 4000 && i % 40 < 8,
        b'3' => !zero,
        _ => false,
    };
    if is_set { 0x5a } else { 0 }
}

fn make_block(kind: u8) -> [u8; 4096] {
    let mut block = [0u8; 4096];
    let mut state = 1u32;
    let mut left = 0u32;
    let mut zero = false;
    for i in 0..4096 {
        if left == 0 {
            state = state.wrapping_mul(1_103_515_245).wrapping_add(12_345);
            left = 1 + (state >> 16) % 4;
            zero = !zero;
        }
        left = left.wrapping_sub(1);
        block[i] = byte_at(kind, i, zero);
    }
    block
}

// The total of what each round of coding answered.
fn coded_rounds(block: &[u8; 4096]) -> u64 {
    let mut coded = [0u8; 4103];
    let mut total = 0u64;
    for _ in 0..20_000 {
        total = total.wrapping_add(code(block, &mut coded) as u64);
    }
    total
}

// The same of decoding.
fn decoded_rounds(block: &[u8; 4096]) -> u64 {
    let mut coded = [0u8; 4103];
    let mut back = [0u8; 4096];
    let len = code(block, &mut coded);
    let mut total = 0u64;
    for i in 0..100_000usize {
        let done = decode(&coded[..len], &mut back).is_ok();
        total = total.wrapping_add(u64::from(done) + u64::from(back[i % 4096]));
    }
    total
}

fn main(rt: HostRuntime) -> io::Result<()> {
    let mut kind = 0;
    let mut way = 0;
    for word in env::args(&rt)?.skip(1) {
        let digits = word.as_bytes();
        if digits.len() == 2 {
            kind = digits[0];
            way = digits[1];
        }
    }
    let block = make_block(kind);
    let total = if way == b'1' { decoded_rounds(&block) } else { coded_rounds(&block) };
    println!(rt; "{total}")?;
    Ok(())
}
RT
(cd crates/bench_codes && rt run >"$folder/log" 2>&1) || { tail -n 20 "$folder/log"; exit 1; }
[ -z "${KEEP:-}" ] || cp "$folder/crates/bench_codes/out/bench_codes" "$folder/codes" "$KEEP"
python3 - "$folder/crates/bench_codes/out/bench_codes" "$folder/codes" <<'PY'
import resource, subprocess, sys

KINDS = ['a whole literal', 'one changed byte', 'a hundred short runs', 'runs of one to four bytes', 'zero']


def once(program, word):
    """Processor seconds of a run, and what it printed."""
    before = resource.getrusage(resource.RUSAGE_CHILDREN)
    said = subprocess.run([program, word], capture_output=True, text=True, check=True).stdout
    after = resource.getrusage(resource.RUSAGE_CHILDREN)
    return after.ru_utime + after.ru_stime - before.ru_utime - before.ru_stime, said


for way, name in enumerate(['coded', 'decoded']):
    for kind, what in enumerate(KINDS):
        word = f'{kind}{way}'
        ours, theirs = [], []
        for _ in range(9):
            (spent, said), (too, wanted) = once(sys.argv[1], word), once(sys.argv[2], word)
            assert said == wanted, (said, wanted)
            ours.append(spent)
            theirs.append(too)
        rounds = [20_000, 100_000][way]
        print(f'{name}, {what}: limuvosel {min(ours) / rounds * 1e9:.0f} ns a block, C {min(theirs) / rounds * 1e9:.0f} ns, '
              f'ratio {min(ours) / min(theirs):.2f}')
PY
