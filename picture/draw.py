#!/usr/bin/env python3
"""Draws a transcript as a picture: an SVG on standard output. Nothing of it is proved; see README.md beside it."""

import argparse
import sys

from picture import Picture
from run import read_run, window_of
from transcript import Unreadable, read_transcript
from waits import read_trace

MANY_PLACES = 400  # more are hard to read in one picture


def place(text):
    """A place, as the words of a command name it."""
    if not (text.isascii() and text.isdigit()):
        raise argparse.ArgumentTypeError(f"{text!r} is no place")
    return int(text)


def arguments():
    parser = argparse.ArgumentParser(prog="draw.py", description=__doc__)
    parser.add_argument("transcript", nargs="?", help="the transcript; standard input where none is named")
    parser.add_argument("--trace", metavar="FILE", help="the trace of the run: tells waits from retries, and which line asked")
    parser.add_argument("--from", dest="first", type=place, metavar="P", help="the first place to draw")
    parser.add_argument("--to", dest="last", type=place, metavar="P", help="the last place to draw")
    parser.add_argument("--title", default="A run of rangelock", help="what stands above the picture")
    return parser.parse_args()


def read(path):
    """The bytes of a file, or of standard input."""
    if path is None:
        return sys.stdin.buffer.read()
    with open(path, "rb") as file:
        return file.read()


def tell(words):
    print(f"draw.py: {words}", file=sys.stderr)


def draw(wanted):
    """Draws the picture that the words ask for."""
    trace = None if wanted.trace is None else read_trace(read(wanted.trace))
    run = read_run(read_transcript(read(wanted.transcript)), trace)
    window = window_of(run, wanted.first, wanted.last)
    if window.count() > MANY_PLACES:
        tell(f"{window.count():,} places stand side by side; --from and --to draw some of them")
    sys.stdout.buffer.write(Picture(run, window, wanted.title).draw().encode())
    sys.stdout.buffer.flush()


def main():
    try:
        draw(arguments())
    except Unreadable as error:
        tell(error)
        return 2
    except OSError as error:
        tell(f"{error.filename or 'standard output'}: {error.strerror}")
        return 2
    return 0


if __name__ == "__main__":
    sys.exit(main())
