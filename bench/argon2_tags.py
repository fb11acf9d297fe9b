#!/usr/bin/env python3
"""Compares tags of `argon2_plain::argon2` with libargon2's, for costs and inputs that are drawn by a seed.

Ours is a program that draws the rows by a generator of its own and prints the tags; the script proves and builds it under
outside of the checkout over the repository's crates, draws the same rows, and compares each tag with libargon2's; of the rows that its words
can say it also asks the program `argon2` (Debian's packages libargon2-1 and argon2).

usage: bench/argon2_tags.py [SEED [ROWS]]      (1 and 300 if left out)
"""
import os
import shutil
import subprocess
import sys

import argon2_peer
from building import HERE, built, need

PROGRAM = """//! Tags of rows that are drawn as bench/argon2_tags.py draws them.
#![tactic(auto)]

ghost use Rattle.std.specs.Prelude.{◌<◌, ◌≤◌, length};

use argon2_plain::{Params, Variant, argon2};
use std::io;

const LENGTHS: [usize; 15] = [4, 10, 16, 31, 32, 33, 63, 64, 65, 95, 96, 97, 128, 200, 300];

// The next 31 bits of a linear congruential generator.
fn next(state: &mut u64) -> u64 {
    *state = state
        .wrapping_mul(6364136223846793005)
        .wrapping_add(1442695040888963407);
    *state >> 33
}

// A number below `n`.
fn pick(state: &mut u64, n: usize) -> usize
    requires { 0 < n }
    ensures { result < n }
{
    (next(state) % n as u64) as usize
}

fn fill(state: &mut u64, bytes: &mut [u8]) {
    for i in 0..bytes.len() {
        bytes[i] = (next(state) % 256) as u8;
    }
}

fn drawn_params(state: &mut u64) -> Params {
    let variant = match pick(state, 3) {
        0 => Variant::D,
        1 => Variant::I,
        _ => Variant::Id,
    };
    let lanes = 1 + pick(state, 4) as u32;
    let passes = 1 + pick(state, 4) as u32;
    let memory = 8 * lanes + pick(state, 90) as u32;
    // Segments of more than 128 blocks.
    if pick(state, 20) == 0 {
        return Params { variant, passes: 2, memory: 520 + pick(state, 580) as u32, lanes: 1 };
    }
    Params { variant, passes, memory, lanes }
}

fn print_row(rt: &HostRuntime, state: &mut u64) -> io::Result<()> {
    let params = drawn_params(state);
    let (mut password, mut salt, mut secret, mut associated) = ([0u8; 200], [0u8; 48], [0u8; 32], [0u8; 300]);
    let (a, b) = (pick(state, 201), 8 + pick(state, 41));
    let c = if pick(state, 2) == 0 { 0 } else { pick(state, 33) };
    let d = if pick(state, 2) == 0 { 0 } else { pick(state, 301) };
    fill(state, &mut password[..a]);
    fill(state, &mut salt[..b]);
    fill(state, &mut secret[..c]);
    fill(state, &mut associated[..d]);
    let length = LENGTHS[pick(state, 15)];
    if !params.are_in_bounds() || length < 4 || length > 300 {
        println!(rt; "refused")?;
        return Ok(());
    }
    let mut out = [0u8; 300];
    argon2(rt.alloc(), params, &password[..a], &salt[..b], &secret[..c], &associated[..d], &mut out[..length])?;
    for byte in &out[..length] {
        print!(rt; "{byte:02x}")?;
    }
    println!(rt; "")?;
    Ok(())
}

fn main(rt: HostRuntime) -> io::Result<()> {
    let mut state = SEED;
    for _row in 0..COUNT {
        print_row(&rt, &mut state)?;
    }
    Ok(())
}
"""
LENGTHS = [4, 10, 16, 31, 32, 33, 63, 64, 65, 95, 96, 97, 128, 200, 300]


class Drawn:
    """The same generator."""

    def __init__(self, seed):
        self.state = seed

    def next(self):
        self.state = (self.state * 6364136223846793005 + 1442695040888963407) % 2 ** 64
        return self.state >> 33

    def pick(self, count):
        return self.next() % count

    def bytes(self, count):
        return bytes(self.next() % 256 for _ in range(count))

    def params(self):
        variant, lanes, passes = self.pick(3), 1 + self.pick(4), 1 + self.pick(4)
        memory = 8 * lanes + self.pick(90)
        if self.pick(20) == 0:
            return variant, 2, 520 + self.pick(580), 1
        return variant, passes, memory, lanes

    def row(self):
        variant, passes, memory, lanes = self.params()
        sizes = [self.pick(201), 8 + self.pick(41)]
        sizes += [0 if self.pick(2) == 0 else self.pick(most) for most in (33, 301)]
        password, salt, secret, associated = [self.bytes(size) for size in sizes]
        return variant, password, salt, secret, associated, passes, memory, lanes, LENGTHS[self.pick(15)]


def main():
    seed = int(sys.argv[1]) if len(sys.argv) > 1 else 1
    count = int(sys.argv[2]) if len(sys.argv) > 2 else 300
    library = argon2_peer.library()
    need(library is not None, "no libargon2.so.1")
    drawn = Drawn(seed)
    rows = [drawn.row() for _ in range(count)]
    source = os.path.join(HERE, "out", "argon2_tags.txt")
    os.makedirs(os.path.dirname(source), exist_ok=True)
    with open(source, "w", encoding="utf-8") as file:
        file.write(PROGRAM.replace("SEED", f"{seed}u64").replace("COUNT", f"{count}u32"))
    program = built("argon2_tags", os.path.join("out", "argon2_tags.txt"), "argon2_plain")
    ours = subprocess.run([program], capture_output=True, text=True, check=True).stdout.split("\n")[:-1]
    need(len(ours) == count, f"{len(ours)} tags of {count}")
    asked = 0
    for tag, row in zip(ours, rows):
        need(tag == argon2_peer.tag(library, *row).hex(), f"another tag: {row}")
        variant, password, salt, secret, associated, passes, memory, lanes, length = row
        if shutil.which("argon2") and not secret and not associated and 0 not in salt and len(password) < 128:
            made = subprocess.run(["argon2", salt, ("-d", "-i", "-id")[variant], "-t", str(passes), "-k", str(memory),
                                   "-p", str(lanes), "-l", str(length), "-r", "-v", "13"], input=password,
                                  capture_output=True, check=True).stdout.decode().strip()
            need(tag == made, f"the program argon2 has another tag: {row}")
            asked += 1
    print(f"seed {seed}: {count} tags as libargon2's, {asked} of them asked of the program argon2 too")


if __name__ == "__main__":
    main()
