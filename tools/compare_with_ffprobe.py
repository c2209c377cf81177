#!/usr/bin/env python3
"""Compares what mp4edit tells of MP4 files with what ffprobe tells of their packets.

    tools/compare_with_ffprobe.py PROGRAM FILE..

PROGRAM is the built program, crates/mp4edit/out/mp4edit. Of each file it prints a line: how many samples of how many
tracks are the same, or the refusal, or what differs, one line a track. The status is 1 where anything differs.

Of each sample four numbers mean the same in both: its size, its decode time, its composition time, and whether it is
a sync sample. Packets are asked for as the file states them: edits and chapters are ignored, and nothing is parsed or
filled in. Where composition offsets are below 0, ffprobe moves all decode times of the track by the lowest offset,
and so does this script. Where each sample of a track is one frame of raw sound, of duration 1, a packet of ffprobe is
many samples: they are joined. That -timeline and -json tell the same is compared too.
"""
import json
import os
import subprocess
import sys
import tempfile

COMPARED = ("size", "decode", "composition", "mark")


def run(command):
    """The status of a command, its standard output, and its standard error."""
    done = subprocess.run(command, capture_output=True, text=True)
    return done.returncode, done.stdout, done.stderr


def tracks_of_json(text):
    """The samples of each track by its number, of the text of -json."""
    tracks = json.loads(text)["tracks"]
    return {track["number"]: [tuple(row) for row in track["samples"]] for track in tracks}


def tracks_of_timeline(text):
    """The same of the text of -timeline."""
    tracks = {}
    for line in text.splitlines():
        words = line.split(" ")
        if words[0] == "track":
            samples = tracks.setdefault(int(words[1]), [])
        elif words[0] == "sample":
            _, number, _, size, _, decode, _, duration, _, composition, mark, _, entry = words
            if int(number) != len(samples) + 1:
                raise ValueError(f"out of order: {line}")
            mark = {"sync": 1, "plain": 0}[mark]
            samples.append((int(size), int(decode), int(duration), int(composition), mark, int(entry)))
    return tracks


def told_by_mp4edit(program, film):
    """The tracks of a film, or None and a line that says why not."""
    status, text, error = run([program, "-json", film])
    if status != 0:
        return None, error.strip() or f"status {status}"
    timeline = run([program, "-timeline", film])
    tracks = tracks_of_json(text)
    if timeline[0] != 0 or tracks_of_timeline(timeline[1]) != tracks:
        return None, "DIFFERS: -timeline and -json don't tell the same"
    return tracks, None


def packets_of(film):
    """The packets of each track by its number: size, decode time, composition time, and mark."""
    plain = ["-ignore_editlist", "1", "-ignore_chapters", "1", "-fflags", "+noparse+nofillin"]
    entries = "stream=index,id:packet=stream_index,pts,dts,size,flags"
    command = ["ffprobe", "-v", "error", *plain, "-show_entries", entries, "-of", "json", film]
    status, text, error = run(command)
    if status != 0:
        return None, error.strip().splitlines()[-1:]
    told = json.loads(text)
    numbers = {stream["index"]: int(stream["id"], 16) for stream in told["streams"] if "id" in stream}
    tracks = {number: [] for number in numbers.values()}
    for packet in told["packets"]:
        if packet["stream_index"] in numbers:
            mark = 1 if packet["flags"].startswith("K") else 0
            row = (int(packet["size"]), packet.get("dts"), packet.get("pts"), mark)
            tracks[numbers[packet["stream_index"]]].append(row)
    return tracks, None


def stated(samples):
    """The samples as ffprobe tells them."""
    offsets = [composition - decode for _, decode, _, composition, _, _ in samples]
    shift = max([0] + [-offset for offset in offsets])
    return [(size, decode - shift, composition, mark) for size, decode, _, composition, mark, _ in samples]


def joined(rows, packets):
    """The rows of one size, joined as the packets' sizes say; unjoined where they don't fit."""
    size = rows[0][0]
    if size == 0 or any(packet[0] % size for packet in packets):
        return rows
    told, at = [], 0
    for count in (packet[0] // size for packet in packets):
        if at + count > len(rows):
            return rows
        told.append((count * size, *rows[at][1:]))
        at += count
    return told if at == len(rows) else rows


def differences(samples, packets):
    """What differs between the samples of a track and its packets, in words."""
    rows = stated(samples)
    if samples and all(duration == 1 and size == samples[0][0] for size, _, duration, *_ in samples):
        rows = joined(rows, packets)
    if len(rows) != len(packets):
        bytes_of = [sum(row[0] for row in either) for either in (samples, packets)]
        return [f"{len(samples)} samples of {bytes_of[0]} bytes, {len(packets)} packets of {bytes_of[1]} bytes"]
    told = []
    for at, name in enumerate(COMPARED):
        pairs = [(n, a[at], b[at]) for n, (a, b) in enumerate(zip(rows, packets), 1) if a[at] != b[at]]
        if pairs:
            number, mine, other = pairs[0]
            told.append(f"{name} of {len(pairs)} samples, first of sample {number}: {mine}, ffprobe {other}")
    return told


def compare(program, film):
    """The lines that tell how a film compares, and whether all is the same."""
    tracks, fault = told_by_mp4edit(program, film)
    packets, unread = packets_of(film)
    if tracks is None:
        beside = "" if unread is None else f" (ffprobe: {' '.join(unread)})"
        return [fault + beside], not fault.startswith("DIFFERS")
    if packets is None:
        return [f"DIFFERS: ffprobe reads nothing: {' '.join(unread)}"], False
    lines = []
    for number, samples in tracks.items():
        if number in packets:
            told = differences(samples, packets[number])
        else:
            told = [f"no stream of ffprobe for its {len(samples)} samples"] if samples else []
        lines += [f"DIFFERS: track {number}: {words}" for words in told]
    lines += [f"DIFFERS: stream of track {number} alone in ffprobe" for number in packets if number not in tracks]
    count = sum(len(samples) for samples in tracks.values())
    return lines or [f"same: tracks {len(tracks)} samples {count}"], not lines


def main():
    """Compares each file; a link gives it the name of an MP4 file."""
    if len(sys.argv) < 3:
        sys.exit(__doc__)
    all_same = True
    with tempfile.TemporaryDirectory() as folder:
        for at, name in enumerate(sys.argv[2:]):
            film = os.path.join(folder, f"{at}.mp4")
            os.symlink(os.path.abspath(name), film)
            lines, same = compare(os.path.abspath(sys.argv[1]), film)
            all_same = all_same and same
            for line in lines:
                print(f"{os.path.basename(name)}: {line}", flush=True)
    sys.exit(0 if all_same else 1)


if __name__ == "__main__":
    main()
