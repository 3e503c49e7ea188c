#!/usr/bin/env python3
"""Answers of ImageMagick and Pillow, against the oracle or the port.

usage: vectors.py PROGRAM IMAGEMAGICK PILLOW

PROGRAM speaks the protocol (see `run`). IMAGEMAGICK has whole columns (`filter side out | samples | output`): each goes through
build, norm32 and u16pass. PILLOW has weights of the 32-bit store (`kind side out p | start:weights ..`): each goes through build
and norm32, and is compared as sparse rows. Every sample or weight that differs is listed; the last line is the summary. The status is 1 where
something differs that known.py does not list, or something listed there does not differ.
"""
import sys

import known
from generate import hex64, window_size
from importlib.machinery import SourceFileLoader
import os
import subprocess

run = SourceFileLoader("run", os.path.join(os.path.dirname(os.path.abspath(__file__)), "run")).load_module()


def asked(program, lines):
    done = subprocess.run(run.command(program), input="".join(l + "\n" for l in lines).encode(), stdout=subprocess.PIPE, check=True)
    return [l.split(" ") for l in done.stdout.decode().split("\n")[:-1]]


def sets(program, shapes):
    """Window size, precision, weights, starts, sizes and excesses of the 32-bit store, for a whole side, adapting."""
    built = asked(program, [
        "build %s 1 0 %d 1 %d %s %s %s %s %d %d %d" % (
            kind, side, out, hex64(0.0), hex64(0.0), hex64(float(side)), hex64(1.0), window_size(kind, 1, 0.0, float(side), out) * out, out, out)
        for kind, side, out in shapes])
    normal = asked(program, ["norm32 %d %s %s %s %s %d %d" % (side, b[2], b[3], b[4], b[5], b[3].count(",") + 1, b[4].count(",") + 1) for (_, side, _), b in zip(shapes, built)])
    for b, n in zip(built, normal):
        assert b[0] == "0" and n[0] == "0", (b, n)
        yield int(b[2]), int(n[1]), n[2], b[4], b[5], n[3]


def imagemagick(program, path):
    rows = [l.split("|") for l in open(path) if not l.startswith("#")]
    shapes = [(w[0], int(w[1]), int(w[2])) for w in (r[0].split() for r in rows)]
    made = list(sets(program, shapes))
    answers = asked(program, ["u16pass %d 1 0 1 %d %d %s %s %s %s %s %d" % (side, window, p, ws, starts, sizes, over, row[1].strip(), out)
                              for (_, side, out), (window, p, ws, starts, sizes, over), row in zip(shapes, made, rows)])
    samples, differ = 0, set()
    for (kind, side, out), row, answer in zip(shapes, rows, answers):
        theirs, ours = row[2].strip().split(","), answer[1].split(",")
        assert answer[0] == "0" and len(theirs) == len(ours) == out
        samples += out
        for i, (a, b) in enumerate(zip(theirs, ours)):
            if a != b:
                differ.add((kind, side, out, i))
                print("imagemagick kind=%s side=%d out=%d line=%d theirs=%s ours=%s" % (kind, side, out, i, a, b))
    return "columns=%d samples=%d differ=%d" % (len(rows), samples, len(differ)), known.problems("imagemagick", differ, known.IMAGEMAGICK)


def sparse(start, weights):
    return {start + k: w for k, w in enumerate(weights) if w != 0}


def pillow(program, path):
    rows = [l.split("|") for l in open(path) if not l.startswith("#")]
    shapes = [(w[0], int(w[1]), int(w[2])) for w in (r[0].split() for r in rows)]
    windows, differ, other = 0, set(), []
    for (kind, side, out), row, (window, p, ws, starts, sizes, _) in zip(shapes, rows, sets(program, shapes)):
        if p != int(row[0].split()[3]):
            other.append("pillow: %s %d to %d, precision theirs=%s ours=%d" % (kind, side, out, row[0].split()[3], p))
        ws, starts, sizes = ([int(x) for x in text.split(",")] for text in (ws, starts, sizes))
        for i, text in enumerate(row[1].split()):
            at, theirs = text.split(":")
            theirs = sparse(int(at), [int(w) for w in theirs.split(",")])
            ours = sparse(starts[i], ws[i * window:i * window + sizes[i]])
            windows += 1
            if theirs != ours:
                differ.add((kind, side, out, i))
                print("pillow kind=%s side=%d out=%d line=%d theirs=%s ours=%s" % (kind, side, out, i, theirs, ours))
    wrong = known.problems("pillow", differ, known.PILLOW) + other
    return "sheets=%d windows=%d differ=%d precisions-differ=%d" % (len(rows), windows, len(differ), len(other)), wrong


def main():
    if len(sys.argv) != 4:
        sys.exit(__doc__)
    program, magick, pil = sys.argv[1:]
    (a, wrong), (b, more) = imagemagick(program, magick), pillow(program, pil)
    for line in wrong + more:
        print(line)
    print("imagemagick: %s; pillow: %s; unexplained=%d" % (a, b, len(wrong + more)))
    sys.exit(1 if wrong + more else 0)


if __name__ == "__main__":
    main()
