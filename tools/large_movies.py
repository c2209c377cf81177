#!/usr/bin/env python3
"""Makes large inputs for measures: streams of sound and of pictures, films of hours, and a hostile movie.

    tools/large_movies.py FOLDER NAME..

The NAMEs stand in INPUTS below; each makes one file. A few seconds are encoded by `ffmpeg`, and their frames and
pictures then repeated as often as it takes, in tables of this script's own (ISO/IEC 14496-12), so that each sample of
a film can be decoded. A film has 25 pictures and about 43 frames of sound a second, in chunks of a second, with `moov`
behind the bytes. The hostile movie has as many samples as are read at all, 8,388,608, no two neighbours of which have
the same size, duration or offset, and an edit list of 65,535 segments that lie anywhere in it, over one another.
"""
import array
import itertools
import os
import random
import struct
import subprocess
import sys

from layout import box, read_movie, u32

MATRIX = struct.pack(">9I", 0x10000, 0, 0, 0, 0x10000, 0, 0, 0, 0x40000000)
PICTURES, RATE, FRAME = 25, 44100, 1024


def encode(target, pictures, sound):
    """Encodes 20 seconds of a test picture and of noise: the size and the bits a second of the pictures, the channels
    and the bits a second of the sound."""
    sources, codecs = [], []
    if pictures:
        size, bits = pictures
        sources += ["-f", "lavfi", "-i", f"testsrc2=size={size}:rate={PICTURES}:duration=20,noise=alls=20:allf=t"]
        codecs += ["-c:v", "libx264", "-preset", "veryfast", "-bf", "3", "-b:v", bits, "-pix_fmt", "yuv420p"]
    if sound:
        channels, bits = sound
        sources += ["-f", "lavfi", "-i", f"anoisesrc=color=pink:sample_rate={RATE}:duration=20"]
        codecs += ["-c:a", "aac", "-ac", channels, "-b:a", bits]
    subprocess.run(["ffmpeg", "-nostdin", "-v", "error", "-y", *sources, *codecs, target], check=True)


def repeated(target, text, least):
    """The text as often as it takes for so many bytes."""
    with open(target, "wb") as file:
        for _ in range(-(-least // len(text))):
            file.write(text)


def frames_of(text):
    """The ADTS frames of a stream (ISO/IEC 14496-3, 1.A.2.2)."""
    at = 0
    while at < len(text):
        length = (text[at + 3] & 3) << 11 | text[at + 4] << 3 | text[at + 5] >> 5
        yield text[at:at + length]
        at += length


def make_sound(target, sound, frames):
    """A stream of so many frames."""
    seed = target + ".seed.aac"
    encode(seed, None, sound)
    with open(seed, "rb") as file:
        of_seed = list(frames_of(file.read()))
    os.remove(seed)
    with open(target, "wb") as file:
        for _ in range(frames // len(of_seed)):
            file.write(b"".join(of_seed))
        file.write(b"".join(of_seed[:frames % len(of_seed)]))
    return frames


def make_pictures(target, pictures, least):
    """A stream of so many bytes at least; how many pictures it has."""
    seed = target + ".seed.h264"
    encode(seed, pictures, None)
    with open(seed, "rb") as file:
        text = file.read()
    os.remove(seed)
    repeated(target, text, least)
    return -(-least // len(text)) * 20 * PICTURES


def words(numbers):
    table = array.array("I", numbers)
    table.byteswap()
    return table.tobytes()


def full(kind, version, flags, *bodies):
    return box(kind, u32(version << 24 | flags), *bodies)


def cycle(numbers, count):
    return itertools.islice(itertools.cycle(numbers), count)


def in_runs(numbers):
    return [(len(list(group)), number) for number, group in itertools.groupby(numbers)]


def runs_table(kind, runs):
    return full(kind, 0, 0, u32(len(runs)), words(itertools.chain.from_iterable(runs)))


def chunks_table(counts):
    """`stsc`: a row wherever the number of samples of a chunk changes."""
    first = itertools.accumulate([1] + [length for length, _ in in_runs(counts)])
    rows = [(at, count, 1) for at, (_, count) in zip(first, in_runs(counts))]
    return full(b"stsc", 0, 0, u32(len(rows)), words(itertools.chain.from_iterable(rows)))


def edit_list(segments):
    """Segments of the media alone, each a duration in ticks of the movie and a start in those of the track."""
    rows = b"".join(struct.pack(">IIHH", duration, start, 1, 0) for duration, start in segments)
    return box(b"edts", full(b"elst", 0, 0, u32(len(segments)), rows))


def track_box(number, handler, scale, entries, tables, duration, segments):
    """The `trak` of some tables; the duration is in ticks of the track, and the movie has 1000 a second."""
    shown = sum(length for length, _ in segments)
    is_sound = handler == b"soun"
    volume, size = (0x100, u32(0, 0)) if is_sound else (0, u32(320 << 16, 240 << 16))
    tkhd = full(b"tkhd", 0, 7, u32(0, 0, number, 0, min(shown, 2 ** 32 - 1)), bytes(12),
                struct.pack(">HH", volume, 0), MATRIX, size)
    mdhd = full(b"mdhd", 1, 0, struct.pack(">QQIQHH", 0, 0, scale, duration, 0x55C4, 0))
    hdlr = full(b"hdlr", 0, 0, bytes(4), handler, bytes(12), b"\0")
    media = full(b"smhd", 0, 0, bytes(4)) if is_sound else full(b"vmhd", 0, 1, bytes(8))
    dinf = box(b"dinf", full(b"dref", 0, 0, u32(1), full(b"url ", 0, 1)))
    stbl = box(b"stbl", full(b"stsd", 0, 0, u32(len(entries)), *entries), *tables)
    return box(b"trak", tkhd, edit_list(segments), box(b"mdia", mdhd, hdlr, box(b"minf", media, dinf, stbl)))


def write_movie(target, tracks, duration, payload, length):
    """`ftyp`, then `mdat` with so many bytes, then `moov`, in which each place counts from the first of these bytes."""
    mvhd = full(b"mvhd", 0, 0, u32(0, 0, 1000, min(duration, 2 ** 32 - 1), 0x10000), struct.pack(">H", 0x100),
                bytes(10), MATRIX, bytes(24), u32(len(tracks) + 1))
    with open(target, "wb") as file:
        file.write(box(b"ftyp", b"isom", u32(1), b"isomavc1") + u32(1) + b"mdat" + struct.pack(">Q", 16 + length))
        file.writelines(payload)
        file.write(box(b"moov", mvhd, *tracks))


PAYLOAD = 24 + 16


def make_film(target, pictures, sound, seconds):
    """A film of so many seconds; how many samples it has."""
    seed = target + ".seed.mp4"
    encode(seed, pictures, sound)
    with open(seed, "rb") as file:
        data = file.read()
    os.remove(seed)
    tracks = {track["handler"]: track for track in read_movie(data)["tracks"]}
    counts = {b"vide": [PICTURES] * seconds,
              b"soun": [-(-(t + 1) * RATE // FRAME) + (-t * RATE // FRAME) for t in range(seconds)]}
    stretches = {kind: stretches_of(data, tracks[kind]["samples"], counts[kind]) for kind in counts}
    places = list(itertools.accumulate(
        (length for second in zip(*map(lengths_of, stretches.values())) for length in second), initial=PAYLOAD))
    made = [film_track(number, kind, tracks[kind], counts[kind], places[number:-1:2], seconds)
            for number, kind in enumerate(counts)]
    payload = (stretch for second in zip(*(texts_of(s) for s in stretches.values())) for stretch in second)
    write_movie(target, made, seconds * 1000, payload, places[-1] - PAYLOAD)
    return sum(map(sum, counts.values()))


def stretches_of(data, samples, counts):
    """What cuts the samples of a seed, repeated, into chunks: their bytes, and how many each chunk has."""
    return [data[place:place + size] for *_, place, size in samples], counts


def lengths_of(stretches):
    texts, counts = stretches
    sizes = itertools.cycle(map(len, texts))
    return (sum(itertools.islice(sizes, count)) for count in counts)


def texts_of(stretches):
    texts, counts = stretches
    turning = itertools.cycle(texts)
    return (b"".join(itertools.islice(turning, count)) for count in counts)


def film_track(number, kind, track, counts, places, seconds):
    """The track of a film from that of its seed."""
    samples, scale, count = track["samples"], track["mdhd"][3], sum(counts)
    delta = samples[0][1]
    tables = [runs_table(b"stts", [(count, delta)])]
    if any(sample[2] for sample in samples):
        tables.append(runs_table(b"ctts", in_runs(cycle([sample[2] for sample in samples], count))))
    if not all(sample[3] for sample in samples):
        marks = cycle([sample[3] for sample in samples], count)
        syncs = words(n for n, mark in enumerate(marks, 1) if mark)
        tables.append(full(b"stss", 0, 0, u32(len(syncs) // 4), syncs))
    tables.append(chunks_table(counts))
    tables.append(full(b"stsz", 0, 0, u32(0, count), words(cycle([sample[6] for sample in samples], count))))
    tables.append(full(b"stco", 0, 0, u32(len(places)), words(places)))
    segments = [(seconds * 1000, track["edits"][0][1])]
    return track_box(number + 1, kind, scale, track["entries"], tables, count * delta, segments)


def make_hostile(target, samples, segments):
    """Samples of 1 and 2 bytes in turn, of 2 and 1 ticks, with offsets of 0 and 3, each the only one of its chunk."""
    chance = random.Random(1)
    half = samples // 2
    stts = full(b"stts", 0, 0, u32(samples), u32(1, 2, 1, 1) * half)
    ctts = full(b"ctts", 0, 0, u32(samples), u32(1, 0, 1, 3) * half)
    stss = full(b"stss", 0, 0, u32(half), words(range(1, samples, 2)))
    stsc = full(b"stsc", 0, 0, u32(1, 1, 1, 1))
    stsz = full(b"stsz", 0, 0, u32(0, samples), u32(1, 2) * half)
    places = itertools.accumulate(cycle([1, 2], samples - 1), initial=PAYLOAD)
    stco = full(b"stco", 0, 0, u32(samples), words(places))
    ticks = samples // 2 * 3
    edits = [(chance.randint(1, 2000), chance.randrange(ticks)) for _ in range(segments)]
    sizes = struct.pack(">HHIIIH", 320, 240, 0x480000, 0x480000, 0, 1)
    entry = box(b"mp4v", bytes(6), b"\0\1", bytes(16), sizes, bytes(32), b"\0\x18\xff\xff")
    track = track_box(1, b"vide", 1000, [entry], [stts, ctts, stss, stsc, stsz, stco], ticks, edits)
    write_movie(target, [track], sum(duration for duration, _ in edits), [bytes(samples * 3 // 2)], samples * 3 // 2)
    return samples


SMALL, TINY = ("320x240", "160k"), ("64x64", "20k")
INPUTS = {
    "sound-60-mib.aac": lambda target: make_sound(target, ("2", "98k"), 221340),
    "sound-450-mb.aac": lambda target: make_sound(target, ("1", "31k"), 5000000),
    "pictures.h264": lambda target: make_pictures(target, ("640x360", "8M"), 150 * 10 ** 6),
    "film-2h.mp4": lambda target: make_film(target, SMALL, ("2", "98k"), 7200),
    "film-20h.mp4": lambda target: make_film(target, TINY, ("1", "31k"), 73452),
    "hostile.mp4": lambda target: make_hostile(target, 8388608, 65535),
}


def make(folder, name):
    """Makes an input where it isn't there; how many samples it has."""
    target, count = os.path.join(folder, name), os.path.join(folder, name + ".samples")
    if not os.path.exists(count):
        made = INPUTS[name](target)
        with open(count, "w") as file:
            file.write(f"{made}\n")
    with open(count) as file:
        return int(file.read())


if __name__ == "__main__":
    if len(sys.argv) < 3 or not set(sys.argv[2:]) <= set(INPUTS):
        sys.exit(__doc__ + "\nNAME: " + " ".join(INPUTS))
    for name in sys.argv[2:]:
        print(name, make(sys.argv[1], name), "samples", os.path.getsize(os.path.join(sys.argv[1], name)), "bytes")
