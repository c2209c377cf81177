#!/usr/bin/env python3
"""Holds what a written movie shows at a moment against what the options of its line say, in exact fractions.

python3 tools/moments.py PROGRAM COUNT FIRST OPTION.. -- FILE..

Makes COUNT lines from the random numbers FIRST, FIRST + 1 and so on: the OPTIONs that are named (of -add -rem -lang
-enable -disable -delay -split-chunk -tscale -mscale), over the MP4 FILEs. Of each file that the program writes it finds
by the file's own edit lists and tables, track by track, what is shown at 1,000 moments (ISO/IEC 14496-12, 8.6.6): the
bytes and the entries of samples. Beside it stands what the options say of that moment, by the last one and what was
shown before it, down to the tables of the inputs; no movie in between is made. Half of the moments lie at or beside a
border of a segment or a sample. Numbers, handlers and lengths are compared, too. A line that wants a track that isn't
there (80), cuts to no time (81), delays a track past its end (82) or leaves none (95) is told beforehand to be refused
at that option; a scale or a limit (83 to 94) may refuse an earlier one. It ends with status 1 at the first line that
differs, or ends otherwise, or where no line was written. It shares no code with the program.
"""
import random
import re
import subprocess
import sys
import tempfile
from fractions import Fraction

from layout import read_movie

MOMENTS = 1000


class View:
    """A track as it is seen: its number, its handler, its length in seconds, and what it shows at a moment."""

    def __init__(self, number, handler, length, show, borders=()):
        self.number, self.handler, self.length, self.show, self.borders = number, handler, length, show, borders


class Refused(Exception):
    """The code with which a command is refused."""


def extent_of(samples):
    return max([0] + [decode + offset + delta for decode, delta, offset, *_ in samples])


def view_of(data, track, movie_scale):
    """What the tables of a file say of a track."""
    scale, samples = track["mdhd"][3], track["samples"]
    if track["edits"]:
        segments = [(Fraction(duration, movie_scale), start) for duration, start in track["edits"]]
    else:
        segments = [(Fraction(extent_of(samples), scale), 0)]

    def show(moment):
        for duration, start in segments:
            if moment < duration:
                tick = start + moment * scale
                return [] if start == -1 else [
                    (data[place:place + size], track["entries"][entry - 1])
                    for decode, delta, offset, _, entry, place, size in samples
                    if decode + offset <= tick < decode + offset + delta]
            moment -= duration
        return []

    borders, begin = [], Fraction(0)
    for duration, start in segments:
        borders += [begin, begin + duration]
        ends = {end for decode, delta, offset, *_ in samples for end in (decode + offset, decode + offset + delta)}
        if start != -1:
            borders += [begin + Fraction(end - start, scale) for end in ends if 0 <= end - start < duration * scale]
        begin += duration
    return View(track["tkhd"][3], track["handler"], begin, show, borders)


def views_of(path):
    with open(path, "rb") as file:
        data = file.read()
    movie = read_movie(data)
    return [view_of(data, track, movie["mvhd"][3]) for track in movie["tracks"]]


def added(views, others):
    """Each further track keeps its number where that is free, else it gets one more than the greatest."""
    views = list(views)
    for other in others:
        numbers = [view.number for view in views]
        number = max(numbers) + 1 if other.number in numbers else other.number
        views.append(View(number, other.handler, other.length, other.show))
    return views


def delayed(view, delay):
    if view.length + delay <= 0 and delay < 0:
        raise Refused(82)
    before = view.show
    return View(view.number, view.handler, view.length + delay,
                lambda moment: [] if moment < delay else before(moment - delay))


def cut(view, begin, end):
    before, length = view.show, max(Fraction(0), min(view.length, end) - begin)
    return View(view.number, view.handler, length,
                lambda moment: before(begin + moment) if begin + moment < end else [])


def behind(views, option, argument):
    """What is seen behind an option, from what was seen before it."""
    if option == "-add":
        name, _, choice = argument.partition("#")
        wanted = {"": lambda v: True, "video": lambda v: v.handler == b"vide", "audio": lambda v: v.handler == b"soun"}
        chosen = list(filter(wanted.get(choice, lambda v: str(v.number) == choice), views_of(name)))
        if not chosen:
            raise Refused(80)
        return added(views, chosen)
    if option == "-mscale":
        return views
    if option == "-split-chunk":
        begin, end = map(Fraction, argument.split(":"))
        if begin >= end:
            raise Refused(81)
        return [cut(view, begin, end) for view in views]
    number, _, rest = argument.partition("=")
    if int(number) not in [view.number for view in views]:
        raise Refused(80)
    if option == "-rem":
        return [view for view in views if view.number != int(number)]
    if option == "-delay":
        return [delayed(v, Fraction(int(rest), 1000)) if v.number == int(number) else v for v in views]
    return views


def random_range(chance, views):
    """Two times, most often within what is shown, with 0 to 9 decimal places."""
    longest = max([view.length for view in views] + [Fraction(1)])
    places = chance.choice([0, 1, 2, 3, 3, 6, 9])
    times = [int(longest * chance.random() * chance.choice([1, 1, 1.2]) * 10 ** places) for _ in range(2)]
    times = times if chance.randint(1, 20) == 1 else sorted(times)
    whole = [f"{time // 10 ** places}" for time in times]
    behind_point = [f".{time % 10 ** places:0{places}}" if places else "" for time in times]
    return ":".join(map("".join, zip(whole, behind_point)))


def random_option(chance, options, files, views):
    """An option and its argument, most often one that can be carried out."""
    option = chance.choice(options) if views else "-add"
    number = chance.choice([view.number for view in views] * 9 + [1, 77])
    delay = chance.choice([0, 1, 40, -1, -40, chance.randint(-2000, 2000), chance.randint(-100, 100)])
    scale = chance.choice([1, 600, 1000, 44100, 90000, 3 ** 5 * 5 ** 6 * 7 * 2 ** 5, chance.randint(1, 2 ** 20)])
    argument = {
        "-add": chance.choice(files) + chance.choice(["", "", "#video", "#audio", "#1", "#2"]),
        "-rem": str(number), "-enable": str(number), "-disable": str(number), "-lang": f"{number}=deu",
        "-delay": f"{number}={delay}", "-tscale": f"{number}={scale}", "-mscale": str(scale),
        "-split-chunk": random_range(chance, views)}[option]
    return option, argument


def moments_of(chance, written):
    """Moments at and beside the borders of segments and samples, and anywhere up to a little behind the last."""
    longest = max([view.length for view in written] + [Fraction(1)])
    borders = sorted({border for view in written for border in view.borders} | {Fraction(0)})
    for _ in range(MOMENTS // 2):
        step = Fraction(chance.randint(0, 3), chance.choice([1000, 44100, 90000, 10 ** 12]))
        yield max(Fraction(0), chance.choice(borders) + chance.choice([-1, 0, 1]) * step)
        yield longest * Fraction(chance.randint(0, 10 ** 6), 10 ** 6) * Fraction(21, 20)


def compare(chance, written, views):
    """How many moments were compared, and at how many something is shown; or what differs."""
    seen = [(v.number, v.handler, v.length) for v in written]
    told = [(v.number, v.handler, v.length) for v in views]
    if seen != told:
        return f"the tracks are {seen}, and the options say {told}"
    compared = shown = 0
    for moment in moments_of(chance, written):
        for place, (track, view) in enumerate(zip(written, views), 1):
            samples = track.show(moment)
            if samples != view.show(moment):
                return f"track {place} shows something else at {moment}"
            compared, shown = compared + 1, shown + bool(samples)
    return compared, shown


def is_told(said, code, option):
    """Whether a refusal is the one that is told, or that of a scale or a limit at an option before it."""
    refused = re.search(r"refused: (\d+) \w+, command (\d+),", said)
    if not refused:
        return False
    number, command = map(int, refused.groups())
    return (number, command) == (code, option) or 83 <= number <= 94 and command < option


def random_line(chance, options, files):
    """A line of options, what is seen behind it, the code with which it must be refused, and the option that is."""
    views, words = [], []
    for _ in range(chance.randint(1, 8)):
        option = random_option(chance, options, files, views)
        words += option
        try:
            views = behind(views, *option)
        except Refused as refused:
            return words, views, refused.args[0], len(words) // 2
    return words, views, None if views else 95, len(words) // 2 + 1


def main(program, count, first, *rest):
    options, files = rest[:rest.index("--")], rest[rest.index("--") + 1:]
    lines = refused = compared = shown = 0
    with tempfile.TemporaryDirectory() as folder:
        target = f"{folder}/out.mp4"
        for seed in range(int(first), int(first) + int(count)):
            chance = random.Random(seed)
            words, views, code, option = random_line(chance, options, files)
            ran = subprocess.run([program, *words, "-out", target], capture_output=True, text=True)
            line = f"seed {seed}: {' '.join(words)}"
            if ran.returncode == 2 and is_told(ran.stderr, code, option):
                refused += 1
                print(f"{line}: {ran.stderr.strip()}")
                continue
            if ran.returncode or code:
                said = f"status {ran.returncode}, {ran.stderr.strip()}"
                sys.exit(f"{line}: {said}, where the options say {code or 'that it is done'}")
            found = compare(chance, views_of(target), views)
            if isinstance(found, str):
                sys.exit(f"{line}: {found}")
            lines, compared, shown = lines + 1, compared + found[0], shown + found[1]
    print(f"{lines} lines: {compared} moments of tracks are as the options say, at {shown} something is shown; "
          f"{refused} lines are refused")
    sys.exit(0 if lines else 1)


if __name__ == "__main__":
    if len(sys.argv) < 6 or "--" not in sys.argv:
        sys.exit(__doc__)
    main(*sys.argv[1:])
