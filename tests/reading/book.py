"""The release book (W-213): numbers over a text of sheets, end to end. The first bad sheet stops the run, and nothing of it counts."""
import reader

KEYS = ("sheets", "windows", "least", "most", "notflat", "negative", "stopped")


def numbers(text):
    """The seven numbers in their order, and the byte: how many bytes of the text go on as sheets do."""
    sheets, stopped, at = 0, 0, 0
    excesses, notflat, negative = [], 0, 0
    while at < len(text):
        try:
            _, (_, precision, _, _, rows, found), at = reader.one(text, at, (16, 32))
        except reader.Stop as stop:
            stopped, at = 13, stop.args[0]
            break
        sheets += 1
        excesses += found
        notflat += sum(131070 * abs(e) >= 2**precision for e in found)
        negative += sum(min(row) < 0 for row in rows)
    return (sheets, len(excesses), min(excesses, default=0), max(excesses, default=0), notflat, negative, stopped), at


def lines(text):
    """The report."""
    return "".join("%s=%d\n" % told for told in zip(KEYS, numbers(text)[0])).encode()
