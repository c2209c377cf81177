#!/usr/bin/env python3
"""Compares what mp4edit makes of the streams of an encoder with the MP4 files that the encoder's own muxer writes.

    tools/compare_with_encoder.py PROGRAM [SETTING..]

PROGRAM is the built program, crates/mp4edit/out/mp4edit. ffmpeg with libx264 encodes one film at each setting twice, as
a byte stream and as an MP4 file, and PROGRAM makes a file of the stream. Of each setting a line tells how many pictures
there are, how many of them are sync samples in both files, and what is the same, or the refusal. The status is 1 where
anything differs.

By the packets of ffprobe, edits ignored, the files have as many pictures; picture by picture the slices are the same,
byte by byte, the decode times are the same up to one constant, and so are the composition times. All samples of
PROGRAM's file together have the stream's slices and supplemental information, in their order, and nothing else: the
types of the units that are dropped are told. As ffmpeg decodes them, the pictures of PROGRAM's file are those of the
stream, in the stream's order of showing.
"""
import fractions
import json
import os
import re
import subprocess
import sys
import tempfile

SOURCE = "testsrc2=s=160x120:r=25:d=4"
X264 = "-x264-params"
SETTINGS = {
    "no B pictures": ["-bf", "0"],
    "B pictures": [X264, "bframes=3:b-pyramid=none:b-adapt=0"],
    "B pictures as references": [X264, "bframes=7:b-pyramid=normal:b-adapt=0"],
    "B pictures as references, strictly": [X264, "bframes=7:b-pyramid=strict:b-adapt=0"],
    "scene cuts": [X264, "keyint=250:min-keyint=1:scenecut=80:bframes=8:b-adapt=2:rc-lookahead=60"],
    "open groups": [X264, "open-gop=1:keyint=12:bframes=3"],
    "IDR pictures alone": ["-g", "1"],
    "one picture": ["-frames:v", "1"],
    "baseline": ["-profile:v", "baseline"],
    "main": ["-profile:v", "main"],
    "10 bits": ["-pix_fmt", "yuv420p10le"],
    "4:2:2": ["-pix_fmt", "yuv422p"],
    "4:2:2, 10 bits": ["-pix_fmt", "yuv422p10le", X264, "bframes=5"],
    "4:4:4": ["-pix_fmt", "yuv444p"],
    "lossless": ["-qp", "0"],
    "monochrome": ["-pix_fmt", "gray"],
    "five slices": [X264, "slices=5:bframes=3"],
    "slices of 120 bytes": [X264, "slice-max-size=120:bframes=3"],
    "delimiters": [X264, "aud=1:bframes=3"],
    "sets before each IDR picture": [X264, "repeat-headers=1:keyint=10:bframes=2:aud=1"],
    "eight references": [X264, "ref=8:keyint=30:bframes=4"],
    "sixteen references": [X264, "ref=16:bframes=16:b-adapt=0:b-pyramid=normal"],
    "weighted prediction": [X264, "weightp=2:weightb=1:bframes=3"],
    "intra refresh": [X264, "intra-refresh=1:keyint=25"],
    "interlaced, coded as frames": [X264, "tff=1:bframes=3"],
    "interlaced syntax": [X264, "fake-interlaced=1:bframes=3"],
    "30000/1001": ["-r", "30000/1001", X264, "bframes=3"],
    "filler data and timing": [
        "-b:v",
        "500k",
        X264,
        "nal-hrd=cbr:vbv-maxrate=500:vbv-bufsize=500:bframes=3:repeat-headers=1",
    ],
    "stereo information": [X264, "frame-packing=3:bframes=3"],
    "cropped": ["-vf", "crop=150:98:0:0"],
}
SLICES = (1, 5)
KEPT = (1, 5, 6)


def run(command):
    """The status of a command, its standard output, and the last line of its standard error."""
    done = subprocess.run(command, capture_output=True, text=True)
    return done.returncode, done.stdout, (done.stderr.strip().splitlines() or [""])[-1]


def encode(options, name):
    """Encodes the film at these settings."""
    source = ["ffmpeg", "-v", "error", "-y", "-f", "lavfi", "-i", SOURCE]
    status, _, error = run([*source, "-c:v", "libx264", "-threads", "1", *options, name])
    if status != 0:
        raise RuntimeError(f"ffmpeg: {error}")


def units_of(sample):
    """The units of a sample, each behind its length in four bytes."""
    units, at = [], 0
    while at < len(sample):
        end = at + 4 + int.from_bytes(sample[at : at + 4], "big")
        units.append(sample[at + 4 : end])
        at = end
    return units


def pictures_of(film):
    """Of each picture of an MP4 file its decode time, its composition time, whether it is sync, and its units."""
    entries = "stream=time_base:packet=pts,dts,size,pos,flags"
    plain = ["-ignore_editlist", "1", "-fflags", "+noparse+nofillin", "-select_streams", "v"]
    told = json.loads(run(["ffprobe", "-v", "error", *plain, "-show_entries", entries, "-of", "json", film])[1])
    tick = fractions.Fraction(told["streams"][0]["time_base"])
    with open(film, "rb") as file:
        data = file.read()
    pictures = []
    for packet in told["packets"]:
        at, size = int(packet["pos"]), int(packet["size"])
        times = packet["dts"] * tick, packet["pts"] * tick
        pictures.append((*times, packet["flags"].startswith("K"), units_of(data[at : at + size])))
    return pictures


def shown(name):
    """The sums of the pictures as ffmpeg decodes and shows them."""
    plain = ["-fps_mode", "passthrough", "-copyts", "-an", "-f", "framemd5", "-"]
    lines = run(["ffmpeg", "-v", "error", "-i", name, *plain])[1].splitlines()
    return [line.split(",")[-1].strip() for line in lines if not line.startswith("#")]


def of_types(units, types):
    """The units of these types."""
    return [unit for unit in units if unit[0] % 32 in types]


def stream_units(name):
    """The units of a byte stream: what stands behind each start code, without zeros at its end."""
    with open(name, "rb") as file:
        data = file.read()
    return [unit.rstrip(b"\0") for unit in re.split(b"\0\0\1", data)[1:]]


def differences(mine, other, units):
    """What differs between the pictures of two files, and between the first and the units of its stream, in words."""
    if len(mine) != len(other):
        return [f"{len(mine)} pictures, {len(other)} in the encoder's file"]
    told = []
    for at, name in enumerate(("decode times", "composition times")):
        if len({a[at] - b[at] for a, b in zip(mine, other)}) > 1:
            told.append(f"{name} differ by more than a constant")
    if any(a[2] and not b[2] for a, b in zip(mine, other)):
        told.append("sync samples that the encoder doesn't mark")
    for number, (a, b) in enumerate(zip(mine, other), 1):
        if of_types(a[3], SLICES) != of_types(b[3], SLICES):
            told.append(f"slices of picture {number}")
    if [unit for picture in mine for unit in picture[3]] != of_types(units, KEPT):
        told.append("the units of the stream")
    return told


def compare(program, options, folder):
    """The words that tell how the files of a setting compare, and whether nothing differs."""
    stream, film, out = (os.path.join(folder, name) for name in ("in.h264", "encoder.mp4", "out.mp4"))
    encode(options, stream)
    encode(options, film)
    status, _, error = run([program, "-add", stream, "-out", out])
    if status != 0:
        return error or f"status {status}", True
    mine, other, units = pictures_of(out), pictures_of(film), stream_units(stream)
    told = differences(mine, other, units)
    if shown(out) != shown(stream):
        told.append("the pictures that are shown, or their order")
    if told:
        return f"DIFFERS: {'; '.join(told[:3])}", False
    dropped = sorted({unit[0] % 32 for unit in units} - set(KEPT))
    syncs = [sum(picture[2] for picture in either) for either in (mine, other)]
    return f"same: pictures {len(mine)} sync {syncs[0]}, of the encoder {syncs[1]}, without units {dropped}", True


def main():
    """Compares the files of each setting."""
    if len(sys.argv) < 2 or not set(sys.argv[2:]) <= set(SETTINGS):
        sys.exit(__doc__ + "\nSettings: " + "; ".join(SETTINGS))
    all_same = True
    for name in sys.argv[2:] or SETTINGS:
        with tempfile.TemporaryDirectory() as folder:
            words, same = compare(os.path.abspath(sys.argv[1]), SETTINGS[name], folder)
        all_same = all_same and same
        print(f"{name}: {words}", flush=True)
    sys.exit(0 if all_same else 1)


if __name__ == "__main__":
    main()
