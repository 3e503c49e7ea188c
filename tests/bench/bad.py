"""Words, files and disks that are bad: the files that are there (None: a folder), the words of ./mirror, the sentence, and whether no file may grow past 4096 bytes. The status is 2, and the
folder stays as it was."""

SHEET = b"kind=box\nin=2\nout=1\nwindow=3\nstore=16\nprecision=4\nw0=0,2:8,8\nexcess=0\n"
WIDE = SHEET.replace(b"store=16", b"store=32")
TWO = b"kind=box\nin=2\nout=2\nwindow=3\nstore=16\nprecision=4\nw0=0,2:8,8\nw1=0,2:8,8\nexcess=0,0\n"
MANY = 400
HEAVIER = b"kind=box\nin=%d\nout=1\nwindow=%d\nstore=16\nprecision=4\nw0=0,%d:%s\nexcess=%d\n" % (MANY, MANY, MANY, b",".join([b"32767"] * MANY), 32767 * MANY - 16)
SLOTS = b"kind=box\nin=2\nout=5\nwindow=32769\nstore=16\nprecision=4\n" + b"".join(b"w%d=0,2:8,8\n" % i for i in range(5)) + b"excess=0,0,0,0,0\n"
GOOD = {"sheet": SHEET, "frame": bytes(12)}


def files(**more):
    return {**GOOD, **more}


CASES = [
    # words
    (GOOD, ["pass"], "pass takes SHEET FRAME OUT or SHEET FRAME OUT FIRST COUNT, and 0 words were given (./mirror pass --help)", False),
    (GOOD, ["pass", "sheet", "frame", "out", "1"], "pass takes SHEET FRAME OUT or SHEET FRAME OUT FIRST COUNT, and 4 words were given (./mirror pass --help)", False),
    (GOOD, ["pass", "sheet", "frame", "out", "one", "1"], "FIRST is no whole number", False),
    (GOOD, ["pass", "sheet", "frame", "out", "0", "-1"], "COUNT is no whole number", False),
    (GOOD, ["pass", "sheet", "frame", "out", "0", ""], "COUNT is no whole number", False),
    (GOOD, ["pass", "sheet", "frame", "out", "0", "4"], "4 columns from 0 on do not lie in a row of 3 samples", False),
    (GOOD, ["pass", "sheet", "frame", "out", "4", "0"], "0 columns from 4 on do not lie in a row of 3 samples", False),
    (GOOD, ["pass", "sheet", "frame", "out", "99999999999999999999", "1"], "1 columns from 4294967295 on do not lie in a row of 3 samples", False),
    # sheets
    (GOOD, ["pass", "none", "frame", "out"], "there is no sheet 'none'", False),
    (files(folder=None), ["pass", "folder", "frame", "out"], "the sheet 'folder' is a folder, and a file is wanted", False),
    (files(sheet=b""), ["pass", "sheet", "frame", "out"], "'sheet' is no sheet for this pass; ./mirror read shows what it is", False),
    (files(sheet=SHEET[:-1]), ["pass", "sheet", "frame", "out"], "'sheet' is no sheet for this pass; ./mirror read shows what it is", False),
    (files(sheet=SHEET + b"\n"), ["pass", "sheet", "frame", "out"], "'sheet' is no sheet for this pass; ./mirror read shows what it is", False),
    (files(sheet=SHEET.replace(b"8,8", b"8,7")), ["pass", "sheet", "frame", "out"], "'sheet' is no sheet for this pass; ./mirror read shows what it is", False),
    (files(sheet=WIDE), ["pass", "sheet", "frame", "out", "--u8"], "'sheet' is no sheet for this pass; ./mirror read shows what it is", False),
    (files(sheet=b"k" * 600000), ["pass", "sheet", "frame", "out"], "sheet has more bytes than this program takes: 524288", False),
    (files(sheet=SLOTS), ["pass", "sheet", "frame", "out"], "the sheet needs more slots than this program has: 131072", False),
    (files(sheet=HEAVIER, frame=bytes(MANY)), ["pass", "sheet", "frame", "out", "--u8"], "the pass refuses the sheet: No. 9", False),
    # frames
    (GOOD, ["pass", "sheet", "none", "out"], "there is no frame 'none'", False),
    (files(folder=None), ["pass", "sheet", "folder", "out"], "the frame 'folder' is a folder, and a file is wanted", False),
    (files(frame=b""), ["pass", "sheet", "frame", "out"], "frame is no frame of the sheet's camera lines: its 0 bytes are no whole number of 16-bit samples for each of 2 lines", False),
    (files(frame=bytes(13)), ["pass", "sheet", "frame", "out"], "frame is no frame of the sheet's camera lines: its 13 bytes are no whole number of 16-bit samples for each of 2 lines", False),
    (files(frame=bytes(14)), ["pass", "sheet", "frame", "out"], "frame is no frame of the sheet's camera lines: its 14 bytes are no whole number of 16-bit samples for each of 2 lines", False),
    (files(frame=bytes(13)), ["pass", "sheet", "frame", "out", "--u8"], "frame is no frame of the sheet's camera lines: its 13 bytes are no whole number of 8-bit samples for each of 2 lines", False),
    (files(frame=bytes(4 * 32769)), ["pass", "sheet", "frame", "out"], "frame has rows of 32769 samples for the sheet's camera lines, and 32768 is the most", False),
    # outputs; one that is there stays as it was
    (GOOD, ["pass", "sheet", "frame", ""], "the name of the output is empty", False),
    (GOOD, ["pass", "sheet", "frame", "none/out"], "the output 'none/out' cannot be written: no file can be made beside it", False),
    (GOOD, ["pass", "sheet", "frame", "frame/out"], "the output 'frame/out' cannot be written: no file can be made beside it", False),
    (files(folder=None), ["pass", "sheet", "frame", "folder"], "the output 'folder' is a folder", False),
    (GOOD, ["pass", "sheet", "frame", "/dev/full"], "the output '/dev/full' is no plain file, and would be replaced", False),
    (files(out=b"as it was", frame=bytes(13)), ["pass", "sheet", "frame", "out"], "frame is no frame of the sheet's camera lines: its 13 bytes are no whole number of 16-bit samples for each of 2 lines", False),
    (files(out=b"as it was", frame=bytes(40000)), ["pass", "sheet", "frame", "out"], "the output cannot be written: no more room", True),
    (files(frame=bytes(40000)), ["pass", "sheet", "frame", "out", "--u8"], "the output cannot be written: no more room", True),
    (files(sheet=TWO, frame=bytes(8192)), ["pass", "sheet", "frame", "out"], "the output 'out' could not be written to its end", True),
    # two frames
    (GOOD, ["compare", "frame", "frame"], "compare takes A B ROW, and 2 words were given (./mirror compare --help)", False),
    (GOOD, ["compare", "frame", "none", "3"], "there is no frame 'none'", False),
    (files(folder=None), ["compare", "folder", "frame", "3"], "the frame 'folder' is a folder, and a file is wanted", False),
    (GOOD, ["compare", "frame", "frame", "x"], "'x' is no row length: a whole number of samples is wanted", False),
    (GOOD, ["compare", "frame", "frame", "0"], "12 bytes are no whole number of rows of 0 samples of 16 bits", False),
    (GOOD, ["compare", "frame", "frame", "4"], "12 bytes are no whole number of rows of 4 samples of 16 bits", False),
    (files(frame=bytes(13)), ["compare", "frame", "frame", "3", "--u8"], "13 bytes are no whole number of rows of 3 samples of 8 bits", False),
    (files(other=bytes(14)), ["compare", "frame", "other", "3"], "'frame' has 12 bytes and 'other' has 14; frames of one size are compared", False),
    (GOOD, ["demo", "again"], "demo takes no words, and 'again' is one (./mirror demo --help)", False),
]
