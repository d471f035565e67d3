#!/usr/bin/env python3
"""Writes a large docket file in which every voucher is allowed, so that a check of it has to go through all of it.

    generate.py FILE [--zones 63] [--transitions 64] [--kind plain|marked] [--void]

All tokens and arcs are in place 0, with 7 initial tokens, zones of 8, and transitions of 4 input and 4 output arcs. So each zone and
transition has 3393 matchings, and there are 1 + ZONES x (1 + TRANSITIONS x 3393) vouchers: 13,680,640 by default, a file of 82 MB.

No bound is without limit. Zones get tighter from the first to the last, so that what a zone's items ask for is vouched for by itself
and by each zone before it: a token that stays is paired with itself, a matched one with an input arc's token. With --void every second
transition has two output arcs whose ages lie too far apart for the zones, so that each item that matches both is void.
"""
import argparse, itertools

import records

AGE, APART = 20000, 12000  # the highest age in zone 1, and the largest difference of two ages


def arc(low, high, marked):
    return 0, (-low, 1 - marked), (high, 1 - marked)


def transition(t, marked, void):
    """Inputs are so far from the highest and the lowest age that they differ from no token by more than a zone lets them."""
    inputs = [arc(8500 + 7 * t + 11 * n, 8600 + 9 * t + 200 * n, marked) for n in range(4)]
    outputs = [arc(300 + 5 * t + 40 * n, 6000 + 13 * t + 500 * n, marked) for n in range(4)]
    if void:
        outputs[0], outputs[2] = arc(100, 3000 + t, marked), arc(15500 - t, 16500, marked)
    return records.transition_record(inputs, outputs)


def zone(z, marked):
    tighter = 30 * (z - 1)

    def bound(j, i):
        mark = marked and j > 0 and (j + i) % 3 == 0
        if j == 0:
            return (-(tighter + 7 * i) if z > 1 else 0, 1)
        return ((AGE - 16 * j if i == 0 else APART - 9 * ((5 * j + 3 * i) % 16)) - tighter, 1 - mark)

    return records.zone_record([0] * 8, [[bound(j, i) for i in range(9)] for j in range(9)])


def matchings():
    """The tokens of the four output arcs, 0 for none, in ascending order of the matchings' numbers."""
    return [m for m in itertools.product(range(9), repeat=4) if len(set(m) - {0}) == sum(token > 0 for token in m)]


def pairing(matching):
    """Partners are numbered thus: first the tokens that stay, in their order, and then the inputs'."""
    stay = [token for token in range(1, 9) if token not in matching]
    new = itertools.count(len(stay) + 1)
    return [stay.index(token) + 1 if token in stay else next(new) for token in range(1, 9)]


def vouchers(z, pairings, void):
    """Those for one transition: its items ask zones 1 to z in turn."""
    return b"".join(
        records.VOID if void and m[0] and m[2] else records.voucher_record(1 + 5 * at % z, partners)
        for at, (m, partners) in enumerate(pairings)
    )


def write(file, zones, transitions, marked, void):
    odd = lambda t: void and t % 2 == 1
    same = list(range(1, 9))
    pairings = [(m, pairing(m)) for m in matchings()]
    file.write(records.net_header(2 if marked else 1, 1, transitions))
    for t in range(1, transitions + 1):
        file.write(transition(t, marked, odd(t)))
    file.write(records.docket_header(7, zones))
    for n in range(7):
        file.write(records.initial_token(0, 100 * n))
    for z in [zones, *range(1, zones + 1)]:
        file.write(zone(z, marked))
    file.write(records.voucher_record(zones, same))
    for z in range(1, zones + 1):
        file.write(records.voucher_record(1, same))
        blocks = vouchers(z, pairings, False), vouchers(z, pairings, True)
        for t in range(1, transitions + 1):
            file.write(blocks[odd(t)])


options = argparse.ArgumentParser()
options.add_argument("file")
options.add_argument("--zones", type=int, default=63)
options.add_argument("--transitions", type=int, default=64)
options.add_argument("--kind", choices=["plain", "marked"], default="plain")
options.add_argument("--void", action="store_true")
args = options.parse_args()
with open(args.file, "wb") as out:
    write(out, args.zones, args.transitions, args.kind == "marked", args.void)
