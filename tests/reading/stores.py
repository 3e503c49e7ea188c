"""One weight store for two clients (document 02, W-209): a restart, a set put in, a pass. Each client holds a set of its own; nothing is shared but the sum of the shares.

Written from document 02, the decisions on its open points and the protocol alone."""
import frames
import weights


class Store:
    def __init__(self, slots):
        self.slots, self.shares, self.sets = slots, (0, 0), [None, None]

    def restart(self, first, second):
        if first + second > self.slots:
            return 15
        self.shares, self.sets = (first, second), [None, None]
        return 0

    def put(self, client, kind, adapts, axis, sw, sh, out, *box):
        """The number, the line of No. 8 and the window size; after any refusal the former set stays."""
        if kind not in weights.FILTERS:
            return 16, 0, 0
        if client > 1:
            return 10, 0, 0
        slots, starts, sizes = [0] * self.shares[client], [0] * 8192, [0] * 8192
        no, line, window = weights.build(kind, adapts, axis, sw, sh, out, box, slots, starts, sizes)
        if no:
            return no, line if no == 8 else 0, 0
        side, n = (sw, sh)[axis], window * out
        made, excesses = [0] * n, [0] * out
        no, precision = frames.normalize(46, 31, side, window, slots[:n], starts[:out], sizes[:out], made, excesses)
        if no:
            return no, 0, 0
        self.sets[client] = (side, window, precision, made, starts[:out], sizes[:out], excesses)
        return 0, 0, window

    def run(self, client, row, first, count, samples, out):
        if client > 1 or self.sets[client] is None:
            return 10
        side, window, precision, ws, starts, sizes, excesses = self.sets[client]
        return frames.u16_pass(side, row, first, count, window, precision, ws, starts, sizes, excesses, samples, out)
