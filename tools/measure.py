#!/usr/bin/env python3
"""Measures the program beside other programs that do the same job, and prints one table.

    tools/measure.py PROGRAM FOLDER [--only WORDS] [--times N] [--limit SECONDS] [--table FILE] [--keep]

PROGRAM is the built program, crates/mp4edit/out/mp4edit. The inputs are made in FOLDER by `large_movies.py`, and
removed at the end unless --keep is there; with their outputs they take some 5 GB. --only takes the cases whose names
have the WORDS. Each program that is installed runs each job N times (3), one at a time, and the run with the least CPU
time is told; one that takes more than 10 seconds runs once, and one that takes more than SECONDS (600) is stopped. The
table is Markdown, and goes to FILE, too.

CPU is the time that the program and the system spent on the job, user and system, on all cores; wall is the time that
passed; peak is the greatest resident memory, in MB of 1,000,000 bytes. The system counts for each program the memory of
this script, too, from which it is started; where there was no more, the table says so. Where a job works on all samples
of its inputs, the table has the CPU time of each. No program waits for a disk: each input is read once before its case
begins.
"""
import argparse
import os
import re
import shutil
import signal
import subprocess
import sys
import tempfile
import time

import large_movies

COPY = "ffmpeg -nostdin -v error -y {0} -c copy {{out}}.mp4"
CASES = [
    ("import 60 MiB of sound", "sound-60-mib.aac", 1, {
        "mp4edit": "{mp4edit} -add {input} -out {out}.mp4",
        "ffmpeg": COPY.format("-i {input}"),
        "mkvmerge": "mkvmerge -q -o {out}.mkv {input}",
        "MP4Box": "MP4Box -quiet -add {input} -new {out}.mp4",
        "gst": "gst-launch-1.0 -q filesrc location={input} ! aacparse ! mp4mux ! filesink location={out}.mp4",
        "cat": "cat {input}"}),
    ("import 450 MB of sound", "sound-450-mb.aac", 1, {
        "mp4edit": "{mp4edit} -add {input} -out {out}.mp4",
        "ffmpeg": COPY.format("-i {input}"),
        "mkvmerge": "mkvmerge -q -o {out}.mkv {input}",
        "MP4Box": "MP4Box -quiet -add {input} -new {out}.mp4",
        "cat": "cat {input}"}),
    ("import 160 MB of H.264 pictures", "pictures.h264", 1, {
        "mp4edit": "{mp4edit} -add {input}:fps=25 -out {out}.mp4",
        "ffmpeg": COPY.format("-r 25 -i {input}"),
        "mkvmerge": "mkvmerge -q -o {out}.mkv --default-duration 0:25p {input}",
        "MP4Box": "MP4Box -quiet -add {input}:fps=25 -new {out}.mp4",
        "cat": "cat {input}"}),
    ("rewrite a film of 2 h", "film-2h.mp4", 1, {
        "mp4edit": "{mp4edit} -add {input} -out {out}.mp4",
        "ffmpeg": COPY.format("-i {input} -map 0"),
        "mkvmerge": "mkvmerge -q -o {out}.mkv {input}",
        "MP4Box": "MP4Box -quiet -add {input} -new {out}.mp4",
        "qt-faststart": "qt-faststart {input} {out}.mp4",
        "cat": "cat {input}"}),
    ("rewrite a film of 20 h", "film-20h.mp4", 1, {
        "mp4edit": "{mp4edit} -add {input} -out {out}.mp4",
        "ffmpeg": COPY.format("-i {input} -map 0"),
        "mkvmerge": "mkvmerge -q -o {out}.mkv {input}",
        "MP4Box": "MP4Box -quiet -add {input} -new {out}.mp4",
        "qt-faststart": "qt-faststart {input} {out}.mp4",
        "cat": "cat {input}"}),
    ("interleave three inputs", "film-2h.mp4 sound-60-mib.aac", 1, {
        "mp4edit": "{mp4edit} -add {input}#video -add {second} -add {input}#audio -inter 500 -out {out}.mp4",
        "ffmpeg": COPY.format("-i {input} -i {second} -map 0:v -map 1:a -map 0:a"),
        "mkvmerge": "mkvmerge -q -o {out}.mkv -A {input} {second} -D {input}",
        "MP4Box": "MP4Box -quiet -add {input}#video -add {second} -add {input}#audio -inter 500 -new {out}.mp4"}),
    ("cut 600 s of 2 h", "film-2h.mp4", 0, {
        "mp4edit": "{mp4edit} -add {input} -split-chunk 3000.1:3600.1 -out {out}.mp4",
        "ffmpeg": COPY.format("-ss 3000.1 -to 3600.1 -i {input} -map 0"),
        "mkvmerge": "mkvmerge -q -o {out}.mkv --split parts:00:50:00.1-01:00:00.1 {input}",
        "MP4Box": "MP4Box -quiet -split-chunk 3000.1:3600.1 {input} -out {out}.mp4"}),
    ("cut 10 s of 2 h", "film-2h.mp4", 0, {
        "mp4edit": "{mp4edit} -add {input} -split-chunk 3000.1:3010.1 -out {out}.mp4",
        "ffmpeg": COPY.format("-ss 3000.1 -to 3010.1 -i {input} -map 0"),
        "mkvmerge": "mkvmerge -q -o {out}.mkv --split parts:00:50:00.1-00:50:10.1 {input}",
        "MP4Box": "MP4Box -quiet -split-chunk 3000.1:3010.1 {input} -out {out}.mp4"}),
    ("cut a hostile movie", "hostile.mp4", 1, {
        "mp4edit": "{mp4edit} -add {input} -split-chunk 10000.1:50000.1 -out {out}.mp4",
        "ffmpeg": COPY.format("-ss 10000.1 -to 50000.1 -i {input} -map 0"),
        "mkvmerge": "mkvmerge -q -o {out}.mkv --split parts:02:46:40.1-13:53:20.1 {input}"}),
    ("join two films of 2 h", "film-2h.mp4", 2, {
        "mp4edit": "{mp4edit} -add {input} -cat {input} -out {out}.mp4",
        "ffmpeg": COPY.format("-f concat -safe 0 -i {list} -map 0"),
        "mkvmerge": "mkvmerge -q -o {out}.mkv {input} + {input}",
        "MP4Box": "MP4Box -quiet -add {input} -cat {input} -new {out}.mp4"}),
    ("join ten films of 2 h", "film-2h.mp4", 10, {
        "mp4edit": "{mp4edit} -add {input}" + " -cat {input}" * 9 + " -out {out}.mp4",
        "ffmpeg": COPY.format("-f concat -safe 0 -i {list} -map 0"),
        "mkvmerge": "mkvmerge -q -o {out}.mkv {input}" + " + {input}" * 9,
        "MP4Box": "MP4Box -quiet -add {input}" + " -cat {input}" * 9 + " -new {out}.mp4"}),
    ("tell of a film of 20 h", "film-20h.mp4", 1, {
        "mp4edit": "{mp4edit} -info {input}",
        "ffmpeg": "ffprobe -v error -show_format -show_streams {input}",
        "mkvmerge": "mkvmerge --identify {input}",
        "MP4Box": "MP4Box -info {input}"}),
    ("tell each sample of a film of 20 h", "film-20h.mp4", 1, {
        "mp4edit": "{mp4edit} -json {input}",
        "ffmpeg": "ffprobe -v error -show_packets -of json {input}"}),
    ("tell of a hostile movie", "hostile.mp4", 1, {
        "mp4edit": "{mp4edit} -info {input}",
        "ffmpeg": "ffprobe -v error -show_format -show_streams {input}"}),
]
PROGRAMS = {"ffmpeg": "ffmpeg", "mkvmerge": "mkvmerge", "MP4Box": "MP4Box", "gst": "gst-launch-1.0",
            "qt-faststart": "qt-faststart", "cat": "cat"}
SLOW = 10


class Ran:
    """How a job went: its status, what it said, CPU and wall time in seconds, peak memory in MB."""

    def __init__(self, status, said, usage, wall):
        self.status, self.said, self.wall = status, said, wall
        self.cpu, self.peak = usage.ru_utime + usage.ru_stime, usage.ru_maxrss * 1024 / 10 ** 6


def run(command, folder, limit):
    """Runs a job, whose standard output goes to a file."""
    with open(os.path.join(folder, "said"), "wb") as said, open(os.path.join(folder, "error"), "w+b") as error:
        began = time.monotonic()
        job = subprocess.Popen(command, stdin=subprocess.DEVNULL, stdout=said, stderr=error)
        signal.signal(signal.SIGALRM, lambda *_: os.kill(job.pid, signal.SIGKILL))
        signal.alarm(limit)
        _, status, usage = os.wait4(job.pid, 0)
        signal.alarm(0)
        job.returncode = os.waitstatus_to_exitcode(status)
        error.seek(0)
        text = error.read().decode(errors="replace")
    return Ran(job.returncode, text, usage, time.monotonic() - began)


def best_of(command, folder, times, limit):
    """The run with the least CPU time, of so many, or of one that is slow or fails."""
    best = None
    for _ in range(times):
        out = tempfile.mkdtemp(dir=folder)
        try:
            ran = run([word.replace("OUT", f"{out}/out") for word in command], out, limit)
        finally:
            shutil.rmtree(out)
        best = min([ran] + ([best] if best else []), key=lambda one: one.cpu)
        if ran.status or ran.cpu > SLOW:
            return ran
    return best


def words_of(line, program, folder, inputs, times):
    """The words of a job, with OUT for the name of its output."""
    names = [os.path.abspath(os.path.join(folder, name)) for name in inputs]
    listed = os.path.join(folder, "list")
    with open(listed, "w") as file:
        file.write(f"file '{names[0]}'\n" * times)
    places = {"mp4edit": program, "input": names[0], "second": names[-1], "list": listed, "out": "OUT"}
    return [word.format_map(places) for word in line.split()]


def ending(ran, limit):
    """How a job ended that has no figures: it isn't built, was stopped, or failed."""
    if "not built yet" in ran.said:
        return "not built yet"
    if ran.status == -signal.SIGKILL and ran.wall >= limit:
        return f"stopped after {limit} s"
    return f"status {ran.status}: " + (ran.said.strip().splitlines() or [""])[-1][:60].replace("|", "/")


def row(name, program, ran, samples, limit, least):
    if ran.status:
        return f"| {name} | {program} | {ending(ran, limit)} | | | |"
    each = f"{ran.cpu / samples * 10 ** 6:.2f}" if samples else ""
    peak = f"{ran.peak:.0f}" if ran.peak > least else f"at most {ran.peak:.0f}"
    return f"| {name} | {program} | {ran.cpu:.2f} | {each} | {ran.wall:.1f} | {peak} |"


def version(name):
    """The first line that says a program's version."""
    if name in ("qt-faststart", "cat"):
        return name
    option = {"ffmpeg": "-version", "MP4Box": "-version"}.get(name, "--version")
    ran = subprocess.run([PROGRAMS[name], option], capture_output=True, text=True)
    return re.sub(r"\s+(Copyright|'|\().*", "", (ran.stdout + ran.stderr).strip().splitlines()[0])


def samples_of(folder, inputs, times):
    """How many samples a job reads; of three inputs the second is the one beside the film."""
    return sum(large_movies.make(folder, name) for name in inputs) * times


def read_through(folder, inputs):
    for name in inputs:
        with open(os.path.join(folder, name), "rb") as file:
            while file.read(1 << 20):
                pass


def measure(asked, tell):
    """Runs all jobs that are asked for, and tells each row of the table as it comes."""
    chosen = [case for case in CASES if asked.only in case[0]]
    installed = ["mp4edit"] + [name for name, file in PROGRAMS.items() if shutil.which(file)]
    tell("Beside it: " + ", ".join(version(name) for name in installed[1:]) + ".")
    tell("Not installed: " + (", ".join(name for name in PROGRAMS if name not in installed) or "none") + ".")
    load = os.getloadavg()[0]
    tell(f"{os.cpu_count()} cores; {load:.1f} processes ran when it began"
         + (", so that the machine was busy." if load > 1 else ".") + "\n")
    tell("| job | program | CPU s | CPU µs a sample | wall s | peak MB |\n|---|---|---|---|---|---|")
    for name, inputs, times, lines in chosen:
        inputs = inputs.split()
        least = 1.1 * best_of(["true"], asked.folder, 1, asked.limit).peak
        samples = samples_of(asked.folder, inputs, times)
        read_through(asked.folder, inputs)
        for program in filter(lines.__contains__, installed):
            command = words_of(lines[program], asked.program, asked.folder, inputs, times)
            ran = best_of(command, asked.folder, asked.times, asked.limit)
            tell(row(name, program, ran, samples, asked.limit, least))
    tell(f"\n{os.getloadavg()[0]:.1f} processes ran when it ended.")


def main():
    parser = argparse.ArgumentParser(usage=__doc__)
    parser.add_argument("program", type=os.path.abspath)
    parser.add_argument("folder")
    parser.add_argument("--only", default="")
    parser.add_argument("--times", type=int, default=3)
    parser.add_argument("--limit", type=int, default=600)
    parser.add_argument("--table")
    parser.add_argument("--keep", action="store_true")
    asked = parser.parse_args()
    os.makedirs(asked.folder, exist_ok=True)
    told = []

    def tell(line):
        told.append(line)
        print(line, flush=True)

    measure(asked, tell)
    if asked.table:
        with open(asked.table, "w") as file:
            file.write("\n".join(told) + "\n")
    if not asked.keep:
        for name in [*large_movies.INPUTS, "list"]:
            for path in (os.path.join(asked.folder, name), os.path.join(asked.folder, name + ".samples")):
                if os.path.exists(path):
                    os.remove(path)


if __name__ == "__main__":
    main()
