"""The samples of ImageMagick and the windows of Pillow that are known to differ from ours: (kind, side, output, display line). docs/DIFFERENCES.md says why of each."""

IMAGEMAGICK = {
    ("bilinear", 18, 33, 13), ("bilinear", 49, 37, 28), ("catmullrom", 16, 18, 13), ("box", 40, 6, 1),
    *(("bilinear", 11, 22, line) for line in (3, 4, 9, 10)), *(("bilinear", 56, 42, line) for line in (4, 13, 16, 22, 25, 31)),
}
PILLOW = {("box", 59, 34, 17)}


def problems(name, found, known):
    """What differs and is not known to, and what is known to and does not: a line each."""
    return (["%s: %s %d to %d, display line %d differs and is not known to" % (name, *x) for x in sorted(found - known)]
            + ["%s: %s %d to %d, display line %d is known to differ and does not" % (name, *x) for x in sorted(known - found)])
