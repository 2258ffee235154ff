#!/usr/bin/env python3
"""Times texts whose names, types and attributes collide, and harmless texts of the same shape and size.

    benchmarks/collisions.py [COUNT [RUNS]]      (10,000 of each, the best of 5 runs; it needs a C compiler)
    benchmarks/collisions.py --print KIND COUNT  (writes a hostile text: values, names, types or attributes)

The maps of the program hash with a multiplication whose seed is fixed (FoldHasher of the kit), so whoever writes
a text can choose what collides:

- names are found by search: of a name only the group of the map, the low bits of its hash, and the tag, the top
  eight, have to agree, and each byte of a name is one multiplication;
- a memref's last dimension cancels what the one before it did to the hash;
- an integer of 128 bits is hashed by one multiplication of its halves, and one half can make the other factor 0.
"""
import os
import random
import resource
import subprocess
import sys
import tempfile

MASK = 2**64 - 1
SEED = 0x243F6A8885A308D3
MULTIPLIER = 0x9E3779B97F4A7C15

# Writes names of eight letters whose hash has its low twelve and top eight bits as wanted.
SEARCH = r"""
#include <stdint.h>
#include <stdio.h>
#include <stdlib.h>
static uint64_t fold(uint64_t a, uint64_t b) {
    unsigned __int128 p = (unsigned __int128)a * b;
    return (uint64_t)p ^ (uint64_t)(p >> 64);
}
static const char letters[] = "abcdefghijklmnopqrstuvwxyzABCDEFGHIJKLMNOPQRSTUVWXYZ";
static char name[9];
static long left;
static void more(uint64_t state, int at) {
    if (at == 8) {
        uint32_t hash = (uint32_t)(state ^ state >> 32);
        if ((hash & 0xfff) == 0x5a5 && hash >> 24 == 0xa5) {
            puts(name);
            left--;
        }
        return;
    }
    for (int i = 0; i < 52 && left > 0; i++) {
        name[at] = letters[i];
        more(fold(state ^ (uint64_t)letters[i] * 0x010101, 0x9e3779b97f4a7c15u ^ 2), at + 1);
    }
}
int main(int count, char **words) {
    left = atol(words[1]);
    more(fold(0x243f6a8885a308d3u ^ 8, 0x9e3779b97f4a7c15u ^ 16), 0);
    return count > 2;
}
"""


def fold(a, b):
    p = a * b
    return (p & MASK) ^ (p >> 64)


def write(state, size, number):
    """The state after a number of 1, 4 or 8 bytes."""
    if size == 4:
        number |= number << 32
    elif size == 1:
        number *= 0x010101
    return fold(state ^ number, MULTIPLIER ^ (2 * size))


def colliding_names(count):
    with tempfile.TemporaryDirectory() as work:
        source, program = os.path.join(work, "search.c"), os.path.join(work, "search")
        with open(source, "w") as file:
            file.write(SEARCH)
        subprocess.run(["cc", "-O2", "-o", program, source], check=True)
        return subprocess.run([program, str(count)], check=True, capture_output=True, text=True).stdout.split()


def colliding_dims(count):
    """Pairs of dimensions: after the second the state is always the same."""
    state = write(write(SEED, 8, 3), 8, 2)
    pairs = []
    first = 2**62
    while len(pairs) < count:
        first += 1
        after = write(write(write(state, 8, 1), 8, first), 8, 1)
        second = after ^ 0x123456789ABCDEF
        if 2**62 <= second < 2**63:
            pairs.append((first, second))
    return pairs


def text_of(kind, hostile, count):
    draw = random.Random(7)
    letters = "abcdefghijklmnopqrstuvwxyzABCDEFGHIJKLMNOPQRSTUVWXYZ"
    lines = []
    if kind in ("values", "names"):
        names = colliding_names(count) if hostile else ["".join(draw.choices(letters, k=8)) for _ in range(count)]
        for name in names:
            if kind == "values":
                lines.append(f'%{name} = "arith.constant"() <{{value = 1 : i32}}> : () -> i32')
            else:
                lines.append(f'"t.op"() {{a = "{name}"}} : () -> ()')
    elif kind == "types":
        pairs = colliding_dims(count) if hostile else [(2**62 + i + 1, draw.randrange(2**62, 2**63))
                                                       for i in range(count)]
        for a, b in pairs:
            lines.append(f'"t.op"() {{a = memref<{a}x{b}xi32>}} : () -> ()')
    else:
        for i in range(count):
            low = draw.randrange(2**64)
            high = MULTIPLIER if hostile else draw.randrange(2**63, 2**64)
            lines.append(f'"t.op"() {{a = {(high << 64 | low) - 2**128} : i128}} : () -> ()')
    return "\n".join(lines) + "\n"


def least(program, text, runs):
    """The least user and system time of the runs, in seconds."""
    best = None
    for _ in range(runs):
        before = resource.getrusage(resource.RUSAGE_CHILDREN)
        ran = subprocess.run([program, "--brief"], input=text.encode(), stdout=subprocess.PIPE)
        after = resource.getrusage(resource.RUSAGE_CHILDREN)
        if ran.returncode != 0:
            sys.exit(f"status {ran.returncode}: {ran.stdout[:200]}")
        spent = after.ru_utime - before.ru_utime + after.ru_stime - before.ru_stime
        best = spent if best is None else min(best, spent)
    return best


def main():
    words = sys.argv[1:]
    if words[:1] == ["--print"]:
        sys.stdout.write(text_of(words[1], True, int(words[2])))
        return
    count = int(words[0]) if words else 10000
    runs = int(words[1]) if len(words) > 1 else 5
    crate = os.path.join(os.path.dirname(os.path.abspath(__file__)), "..", "..", "crates", "mlir_work")
    program = os.path.join(crate, "out", "mlir_work")
    if not os.access(program, os.X_OK):
        subprocess.run(["rt", "run", "--", "--brief"], cwd=crate, stdin=subprocess.DEVNULL, stdout=subprocess.DEVNULL,
                       check=True)
    for kind in ("values", "names", "types", "attributes"):
        times = [least(program, text_of(kind, hostile, count), runs) for hostile in (True, False)]
        print(f"{count} {kind}: hostile {times[0] * 1000:.0f} ms, harmless {times[1] * 1000:.1f} ms, "
              f"{times[0] / times[1]:.0f} times", flush=True)


if __name__ == "__main__":
    main()
