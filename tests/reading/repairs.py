"""Offered repairs of weights (document 02, W-208): an offer judged, and an offer of our own."""
import frames


def stored(store, lines, window, precision, weights, starts, sizes, excesses):
    """No. 1 and 10 of a stored set."""
    if not frames.sides(lines, starts):
        return 1
    return 0 if frames.stored(21 if store == 16 else 45, lines, window, precision, weights, starts, sizes, excesses) else 10


def in_use(window, sizes):
    """The places of the weights in use."""
    return [i * window + k for i, n in enumerate(sizes) for k in range(n)]


def accept(store, lines, window, precision, weights, starts, sizes, excesses, offered_window, offered_precision, offered_starts, offered_sizes, offered):
    no = stored(store, lines, window, precision, weights, starts, sizes, excesses)
    if no:
        return no
    same = (window, precision, starts, sizes, len(weights)) == (offered_window, offered_precision, offered_starts, offered_sizes, len(offered))
    if not (same and all(abs(offered[k] - weights[k]) <= 1 for k in in_use(window, sizes)) and not any(frames.excesses_of(window, precision, offered, sizes))):
        return 14
    for k in in_use(window, sizes):
        weights[k] = offered[k]
    excesses[:] = [0] * len(excesses)
    return 0


def offer(store, lines, window, precision, weights, starts, sizes, excesses, out):
    """The number, and for No. 14 the line."""
    if not frames.sides(lines, starts):
        return 1, 0
    if len(out) < len(starts) * window:
        return 7, 0
    no, top, made = stored(store, lines, window, precision, weights, starts, sizes, excesses), 2 ** (store - 1), [0] * len(weights)
    for i, n in enumerate(sizes) if no == 0 else ():
        left, step = abs(excesses[i]), -1 if excesses[i] > 0 else 1
        for k in range(i * window, i * window + n):
            moves = left > 0 and -top <= weights[k] + step < top
            made[k], left = weights[k] + step * moves, left - moves
        if left:
            return 14, i
    if no == 0:
        out[: len(made)] = made
    return no, 0
