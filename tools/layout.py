#!/usr/bin/env python3
"""Lays out again the movie of an MP4 file, straight from the rules of docs/file.md, and shares no code with the program.

python3 tools/layout.py IN.mp4 OUT.mp4 [MILLISECONDS]

Reads the movie that IN.mp4 presents (ISO/IEC 14496-12) and writes its file, its samples in windows of so many
milliseconds (500 where none are given). Of a file that `mp4edit` wrote with `-inter MILLISECONDS` the output is the
same, byte by byte: `cmp IN.mp4 OUT.mp4`. Nothing is checked: IN.mp4 must be a whole file of at most 12 tracks.
"""
import itertools
import struct
import sys

def boxes(data, at, end):
    """The boxes between two places: type, place of the body, end, place of the box."""
    while at < end:
        size, kind = struct.unpack(">I4s", data[at:at + 8])
        body = at + 8
        if size == 1:
            size, body = struct.unpack(">Q", data[at + 8:at + 16])[0], at + 16
        stop = end if size == 0 else at + size
        yield kind, body + (16 if kind == b"uuid" else 0), stop, at
        at = stop


def child(data, box, kind):
    return next((b for b in boxes(data, box[1], box[2]) if b[0] == kind), None)


def whole(data, box):
    return data[box[3]:box[2]] if box else b""


def fields(data, box, narrow, wide):
    """The fields of a full box behind its flags: by its version in 32 or in 64 bits; the flags first."""
    head = struct.unpack_from(">I", data, box[1])[0]
    layout = wide if head >> 24 else narrow
    return (head & 0xFFFFFF,) + struct.unpack_from(">" + layout, data, box[1] + 4)


def rows(data, box, layout, skip=4):
    """The rows of a table: a count, and then so many."""
    count = struct.unpack_from(">I", data, box[1] + skip)[0]
    size = struct.calcsize(">" + layout)
    start = box[1] + skip + 4
    return list(struct.iter_unpack(">" + layout, data[start:start + count * size]))


def runs(table):
    return [value for count, value in table for _ in range(count)]


def sizes_of(data, stbl):
    box = child(data, stbl, b"stsz")
    if box:
        size, count = struct.unpack_from(">II", data, box[1] + 4)
        return [size] * count if size else [row[0] for row in rows(data, box, "I", 8)]
    box = child(data, stbl, b"stz2")
    bits, count = data[box[1] + 7], struct.unpack_from(">I", data, box[1] + 8)[0]
    text = data[box[1] + 12:box[2]]
    if bits == 4:
        return [text[n // 2] >> (0 if n % 2 else 4) & 15 for n in range(count)]
    return [int.from_bytes(text[n * bits // 8:(n + 1) * bits // 8], "big") for n in range(count)]


def read_track(data, trak):
    mdia = child(data, trak, b"mdia")
    minf = child(data, mdia, b"minf")
    stbl = child(data, minf, b"stbl")
    track = {}
    track["tkhd"] = fields(data, child(data, trak, b"tkhd"), "IIIIIQHHHH36sII", "QQIIQQHHHH36sII")
    track["mdhd"] = fields(data, child(data, mdia, b"mdhd"), "IIIIHH", "QQIQHH")
    hdlr = child(data, mdia, b"hdlr")
    track["handler"], track["name"] = data[hdlr[1] + 8:hdlr[1] + 12], data[hdlr[1] + 24:hdlr[2]]
    track["udta"] = whole(data, child(data, trak, b"udta"))
    edts = child(data, trak, b"edts")
    elst = edts and child(data, edts, b"elst")
    track["edits"] = [row[:2] for row in rows(data, elst, "QqHH" if data[elst[1]] else "IiHH")] if elst else []

    stsd = child(data, stbl, b"stsd")
    entries = [whole(data, entry) for entry in boxes(data, stsd[1] + 8, stsd[2])]
    track["entries"] = [entry[:14] + b"\0\1" + entry[16:] for entry in entries]
    deltas = runs(rows(data, child(data, stbl, b"stts"), "II"))
    ctts = child(data, stbl, b"ctts")
    offsets = runs(rows(data, ctts, "Ii" if data[ctts[1]] else "II")) if ctts else [0] * len(deltas)
    stss = child(data, stbl, b"stss")
    sync = {row[0] for row in rows(data, stss, "I")} if stss else None
    sizes = sizes_of(data, stbl)

    stco = child(data, stbl, b"stco")
    places = rows(data, stco, "I") if stco else rows(data, child(data, stbl, b"co64"), "Q")
    stsc = rows(data, child(data, stbl, b"stsc"), "III")
    track["samples"] = samples = []
    decode, row = 0, -1
    for number, (place,) in enumerate(places, 1):
        while row + 1 < len(stsc) and stsc[row + 1][0] <= number:
            row += 1
        for _ in range(stsc[row][1]):
            n = len(samples)
            marked = sync is None or n + 1 in sync
            samples.append((decode, deltas[n], offsets[n], marked, stsc[row][2], place, sizes[n]))
            decode += deltas[n]
            place += sizes[n]
    return track


def u32(*numbers):
    return struct.pack(f">{len(numbers)}I", *numbers)


def box(kind, *bodies):
    body = b"".join(bodies)
    return u32(8 + len(body)) + kind + body


def header(kind, flags, created, modified, between, duration, rest):
    """A header box: its times in 64 bits exactly where one of them is above 4,294,967,294."""
    duration = min(duration, 2 ** 64 - 1)
    wide = max(created, modified, duration) > 2 ** 32 - 2
    times = "QQ" if wide else "II"
    text = u32((1 << 24 if wide else 0) | flags) + struct.pack(">" + times, created, modified) + between
    return box(kind, text, struct.pack(">Q" if wide else ">I", duration), rest)


def in_runs(items):
    return [(len(list(group)), item) for item, group in itertools.groupby(items)]


def table(kind, rows, layout, head=0):
    return box(kind, u32(head, len(rows)), b"".join(struct.pack(">" + layout, *row) for row in rows))


def total(track, scale):
    """How long the track is shown, in ticks of the movie, rounded up."""
    if track["edits"]:
        return min(sum(duration for duration, _ in track["edits"]), 2 ** 64 - 1)
    extent = max((decode + offset + delta for decode, delta, offset, *_ in track["samples"]), default=0)
    return min(-(-max(extent, 0) * scale // track["mdhd"][3]), 2 ** 64 - 1)


def edts(edits):
    if not edits:
        return b""
    wide = any(duration > 2 ** 32 - 1 or start > 2 ** 31 - 1 for duration, start in edits)
    lines = [(duration, start, 1, 0) for duration, start in edits]
    return box(b"edts", table(b"elst", lines, "QqHH" if wide else "IiHH", 1 << 24 if wide else 0))


def stbl(track, chunks, wide):
    """`chunks`: the place, the number of samples and the entry of each."""
    samples = track["samples"]
    parts = [box(b"stsd", u32(0, len(track["entries"])), *track["entries"])]
    parts.append(table(b"stts", in_runs(s[1] for s in samples), "II"))
    offsets = [s[2] for s in samples]
    if any(offsets):
        signed = min(offsets) < 0
        parts.append(table(b"ctts", in_runs(offsets), "Ii" if signed else "II", 1 << 24 if signed else 0))
    if not all(s[3] for s in samples):
        parts.append(table(b"stss", [(n,) for n, s in enumerate(samples, 1) if s[3]], "I"))
    heads, last = [], None
    for number, (_, count, entry) in enumerate(chunks, 1):
        if (count, entry) != last:
            heads.append((number, count, entry))
        last = count, entry
    parts.append(table(b"stsc", heads, "III"))
    sizes = [s[6] for s in samples]
    same = len(set(sizes)) == 1 and sizes[0] > 0
    parts.append(box(b"stsz", u32(0, sizes[0] if same else 0, len(sizes)), b"" if same else u32(*sizes)))
    places = [(chunk[0],) for chunk in chunks]
    parts.append(table(b"co64" if wide else b"stco", places, "Q" if wide else "I"))
    return box(b"stbl", *parts)


def trak(track, scale, chunks, wide):
    flags, created, modified, number, _, _, _, layer, group, volume, _, matrix, width, height = track["tkhd"]
    _, media_created, media_modified, media_scale, _, language, _ = track["mdhd"]
    rest = struct.pack(">QHHHH36sII", 0, layer, group, volume, 0, matrix, width, height)
    tkhd = header(b"tkhd", flags, created, modified, u32(number, 0), total(track, scale), rest)
    mdhd = header(b"mdhd", 0, media_created, media_modified, u32(media_scale),
                  sum(s[1] for s in track["samples"]), struct.pack(">HH", language, 0))
    hdlr = box(b"hdlr", u32(0, 0), track["handler"], bytes(12), track["name"])
    media = {b"vide": box(b"vmhd", u32(1, 0, 0)), b"soun": box(b"smhd", u32(0, 0)), b"subt": box(b"sthd", u32(0))}
    dinf = box(b"dinf", box(b"dref", u32(0, 1), box(b"url ", u32(1))))
    minf = box(b"minf", media.get(track["handler"], box(b"nmhd", u32(0))), dinf, stbl(track, chunks, wide))
    return box(b"trak", tkhd, edts(track["edits"]), box(b"mdia", mdhd, hdlr, minf), track["udta"])


def moov(movie, placed, wide):
    _, created, modified, scale, _, rate, volume, _, matrix, *_ = movie["mvhd"]
    tracks = movie["tracks"]
    last = min(max((t["tkhd"][3] for t in tracks), default=0) + 1, 2 ** 32 - 1)
    rest = struct.pack(">IH10s36s24sI", rate, volume, bytes(10), matrix, bytes(24), last)
    mvhd = header(b"mvhd", 0, created, modified, u32(scale), max((total(t, scale) for t in tracks), default=0), rest)
    traks = [trak(t, scale, placed[n], wide[n]) for n, t in enumerate(tracks)]
    return box(b"moov", mvhd, *traks, movie["udta"])


def chunk_order(movie, millis):
    """All samples sorted by window, track and number; a chunk is a longest stretch of one window, track and entry."""
    keys = []
    for n, track in enumerate(movie["tracks"]):
        scale = track["mdhd"][3]
        for number, sample in enumerate(track["samples"]):
            keys.append((sample[0] * 1000 // (scale * millis) if millis else 0, n, number, sample[4]))
    keys.sort()
    stretches = itertools.groupby(keys, lambda key: (key[0], key[1], key[3]))
    return [(n, entry, [key[2] for key in group]) for (_, n, entry), group in stretches]


def placed(movie, chunks, place):
    """For each track its chunks, where the first of all stands there."""
    tables = [[] for _ in movie["tracks"]]
    for n, entry, numbers in chunks:
        tables[n].append((place, len(numbers), entry))
        place += sum(movie["tracks"][n]["samples"][number][6] for number in numbers)
    return tables


def wide_tracks(movie, chunks, head):
    """The tracks that are in every closed set, and where the payload stands with them."""
    behind = placed(movie, chunks, 0)
    counts = [len(table) for table in behind]
    furthest = [max((chunk[0] for chunk in table), default=0) for table in behind]
    nowhere = [[(0, *chunk[1:]) for chunk in table] for table in behind]
    narrow = 28 + len(moov(movie, nowhere, [False] * len(behind))) + head

    def start(wide):
        return narrow + 4 * sum(count for count, is_wide in zip(counts, wide) if is_wide)

    def is_closed(wide):
        return all(is_wide or not count or start(wide) + last < 2 ** 32
                   for is_wide, count, last in zip(wide, counts, furthest))

    closed = [wide for wide in itertools.product([False, True], repeat=len(behind)) if is_closed(wide)]
    wide = [all(column) for column in zip(*closed)]
    return wide, start(wide)


def front(movie, millis):
    """The bytes in front of the payload; the chunks, their places, and which tracks have places of 64 bits."""
    chunks = chunk_order(movie, millis)
    payload = sum(s[6] for t in movie["tracks"] for s in t["samples"])
    mdat = u32(8 + payload) + b"mdat" if payload <= 4294967287 else u32(1) + b"mdat" + struct.pack(">Q", 16 + payload)
    wide, place = wide_tracks(movie, chunks, len(mdat))
    ftyp = box(b"ftyp", b"isom", u32(1), b"isomiso4mp42")
    text = ftyp + moov(movie, placed(movie, chunks, place), wide) + mdat
    assert len(text) == place
    return text, chunks, place, wide


def read_movie(data):
    top = (b"", 0, len(data), 0)
    box_of_movie = child(data, top, b"moov")
    movie = {"mvhd": fields(data, child(data, box_of_movie, b"mvhd"), "IIIIIH10s36s24sI", "QQIQIH10s36s24sI")}
    movie["udta"] = whole(data, child(data, box_of_movie, b"udta"))
    movie["tracks"] = [read_track(data, b) for b in boxes(data, box_of_movie[1], box_of_movie[2]) if b[0] == b"trak"]
    return movie


def main(source, target, millis="500"):
    import mmap
    with open(source, "rb") as file, open(target, "wb") as out:
        data = mmap.mmap(file.fileno(), 0, access=mmap.ACCESS_READ)
        movie = read_movie(data)
        text, chunks, _, _ = front(movie, int(millis))
        out.write(text)
        for n, _, numbers in chunks:
            for number in numbers:
                *_, place, size = movie["tracks"][n]["samples"][number]
                out.write(data[place:place + size])


if __name__ == "__main__":
    if len(sys.argv) not in (3, 4):
        sys.exit(__doc__)
    main(*sys.argv[1:])
