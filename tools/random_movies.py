#!/usr/bin/env python3
"""Random movies, laid out by the program and by `layout.py`, which shares no code with it.

python3 tools/random_movies.py PROGRAM COUNT [FIRST]

Makes COUNT movies from the random numbers FIRST (0), FIRST + 1 and so on: up to 12 tracks with durations, offsets of
both signs, marks, several sample entries, edit lists, user data and sizes of their own. Of each it writes the file in
one window, has the program write it in another (`-add IN -inter MILLISECONDS -out OUT`), and compares the output byte by
byte with the file that `layout.py` lays out. It ends at the first that differs, with status 1 and the two files kept.
"""
import random
import shutil
import struct
import subprocess
import sys
import tempfile

from layout import box, front

MATRIX = struct.pack(">9I", 0x10000, 0, 0, 0, 0x10000, 0, 0, 0, 0x40000000)


def some(chance, least, most):
    """A number, most often a small one."""
    top = chance.choice([least, min(most, least + 3), min(most, least + 1000), most])
    return chance.randint(least, top)


def alike(chance, count, make):
    """So many items in runs: all equal, all of their own, or in between."""
    items, longest = [], chance.choice([1, 3, count or 1])
    while len(items) < count:
        items += [make()] * chance.randint(1, longest)
    return items[:count]


def random_samples(chance, entries):
    count = chance.choice([0, 1, 2, chance.randint(3, 40), chance.randint(41, 400)])
    deltas = alike(chance, count, lambda: some(chance, 0, 5000))
    least = chance.choice([0, 0, -5000])
    offsets = alike(chance, count, lambda: chance.choice([0, some(chance, least, 5000)]))
    marks = alike(chance, count, lambda: chance.random() < 0.7)
    numbers = alike(chance, count, lambda: chance.randint(1, entries))
    sizes = alike(chance, count, lambda: some(chance, 0, 300))
    samples, decode = [], 0
    for delta, offset, mark, number, size in zip(deltas, offsets, marks, numbers, sizes):
        samples.append((decode, delta, offset, mark, number, 0, size))
        decode += delta
    return samples


def random_track(chance, number):
    entries = chance.choice([1, 1, 2, 5])
    segment = lambda: (some(chance, 0, 2 ** 34), chance.choice([-1, some(chance, 0, 2 ** 33)]))
    return {
        "tkhd": (chance.getrandbits(24), some(chance, 0, 2 ** 33), some(chance, 0, 2 ** 33), number, 0, 0, 0,
                 chance.getrandbits(16), chance.getrandbits(16), chance.getrandbits(16), 0, MATRIX,
                 chance.getrandbits(32), chance.getrandbits(32)),
        "mdhd": (0, some(chance, 0, 2 ** 33), some(chance, 0, 2 ** 33), some(chance, 1, 2 ** 32 - 1), 0,
                 chance.getrandbits(15), 0),
        "handler": chance.choice([b"vide", b"soun", b"subt", b"text", b"\0\xff7 "]),
        "name": chance.choice([b"", b"\0", b"a name\0"]),
        "udta": chance.choice([b"", box(b"udta", bytes(chance.randint(0, 20)))]),
        "edits": [segment() for _ in range(chance.choice([0, 0, 1, 3]))],
        "entries": [box(chance.choice([b"avc1", b"mp4a", b"text"]), bytes(6), b"\0\1", chance.randbytes(chance.randint(0, 30)))
                    for _ in range(entries)],
        "samples": random_samples(chance, entries),
    }


def random_movie(chance):
    numbers = chance.sample(range(1, 40), chance.choice([1, 2, 3, 12]))
    head = (0, some(chance, 0, 2 ** 33), some(chance, 0, 2 ** 33), some(chance, 1, 2 ** 32 - 1), 0,
            chance.getrandbits(32), chance.getrandbits(16), bytes(10), MATRIX)
    return {"mvhd": head, "udta": chance.choice([b"", box(b"udta", b"x" * 9)]),
            "tracks": [random_track(chance, number) for number in numbers]}


def file_of(movie, payloads, millis):
    text, chunks, _, _ = front(movie, millis)
    return text + b"".join(payloads[track][number] for track, _, numbers in chunks for number in numbers)


def main(program, count, first=0):
    written = refused = 0
    for seed in range(int(first), int(first) + int(count)):
        chance = random.Random(seed)
        movie = random_movie(chance)
        payloads = [[chance.randbytes(sample[6]) for sample in track["samples"]] for track in movie["tracks"]]
        before, after = (chance.choice([0, 1, 40, 500, 5000, 2 ** 31 - 1]) for _ in range(2))
        folder = tempfile.mkdtemp(prefix=f"random-movie-{seed}-")
        source, target = f"{folder}/in.mp4", f"{folder}/out.mp4"
        with open(source, "wb") as file:
            file.write(file_of(movie, payloads, before))
        ran = subprocess.run([program, "-add", source, "-inter", str(after), "-out", target], capture_output=True, text=True)
        if ran.returncode:
            refused += 1
            print(f"seed {seed}: {ran.stderr.strip()}")
            continue
        with open(target, "rb") as file:
            if file.read() != file_of(movie, payloads, after):
                sys.exit(f"seed {seed}: {target} is not the file in windows of {after} ms")
        written += 1
        shutil.rmtree(folder)
    print(f"{written} movies are laid out alike, {refused} are refused")


if __name__ == "__main__":
    if len(sys.argv) not in (3, 4):
        sys.exit(__doc__)
    main(*sys.argv[1:])
