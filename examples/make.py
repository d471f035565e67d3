#!/usr/bin/env python3
"""Writes records, and the files of this folder from their descriptions. It knows the format alone,
neither the rules nor the lines. A script of your own begins with `from make import *`: README.md
here has one. The files of real nets are not written here.

usage: python3 examples/make.py [FOLDER]    this folder, if none is named
"""
import os
import sys

HERE = os.path.dirname(os.path.realpath(__file__))


def packed(*fields):
    """Bytes of (value, width) fields, the most significant bit first."""
    number, bits = 0, 0
    for value, width in fields:
        number, bits = (number << width) | value, bits + width
    return number.to_bytes(bits // 8, "big")


# ---- the net


def slot(place=0, low=0, high=0, low_mark=0, high_mark=0):
    """An arc of a place, for ages from low to high, None for no limit. A marked end is strict."""
    no_limit, mark, end = (1, 0, 0) if high is None else (0, high_mark, high)
    return packed((place, 6), (low_mark, 1), (low, 15), (no_limit, 1), (mark, 1), (end, 15), (0, 1))


def header(kind=1, places=2, transitions=1, spare=0):
    """Kind 1 is plain, 2 marked."""
    return packed((kind, 2), (places - 1, 6), (transitions, 7), (spare, 17))


def transition(taken=(), given=(), inputs=None, outputs=None, spare=0):
    """What it takes and what it gives, up to four slots each. Counts may be given otherwise."""
    counts = len(taken) if inputs is None else inputs, len(given) if outputs is None else outputs
    slots = [b"".join(side).ljust(20, b"\0") for side in (taken, given)]
    return packed((counts[0], 3), (counts[1], 3), (spare, 2)) + slots[0] + slots[1]


# ---- the docket


def docket(initial=1, zones=3, spare=0):
    """How many initial tokens and listed zones there are."""
    return packed((initial, 4), (zones, 6), (spare, 22))


def token(place=0, age=0, spare=0):
    """An initial token."""
    return packed((place, 6), (age, 15), (spare, 3))


NO_LIMIT = 1 << 18


def bound(number, mark=0):
    """A bound of a zone: it allows what is at most the number, less than it where it has a mark."""
    return (mark << 19) | (number % (1 << 19))


def zone(*places, tokens=None, spare=0, **bounds):
    """A zone of tokens in these places. A bound is named by its row and column, as d10; others have
    no limit."""
    count = len(places) if tokens is None else tokens
    entries = [bounds.get(f"d{j}{i}", NO_LIMIT) for j in range(9) for i in range(9) if j != i]
    stops = [*places, *[0] * (8 - len(places))]
    head = [(spare, 4), (count, 4), *((p, 6) for p in stops), (0, 40)]
    return packed(*head, *((b, 20) for b in entries))


def voucher(zone=0, *partners, void=0, spare=0):
    """A listed zone, and for each of its tokens one of the item's; or that the item is void."""
    used = [*partners, *[0] * (8 - len(partners))]
    return packed((void, 1), (zone, 6), *((p, 4) for p in used), (spare, 9))


# ---- the line of two carriers

TARGET = zone(1, 1)
ZONES = (zone(1, 1), zone(1, 0), zone(0, 0))
VOUCHERS = tuple(voucher(z, 1, 2) for z in (1, 1, 1, 2, 2, 2, 2, 3, 3, 3))


TAKEN, GIVEN = (slot(0, 1, 2),), (slot(1),)
MOVE = transition(TAKEN, GIVEN)


def file(
    net=header(),
    moves=(MOVE,),
    head=docket(),
    tokens=(token(),),
    target=TARGET,
    zones=ZONES,
    vouchers=VOUCHERS,
):
    return b"".join([net, *moves, head, *tokens, target, *zones, *vouchers])


def first_voucher(it, **parts):
    return file(vouchers=(it, *VOUCHERS[1:]), **parts)


def net_with(taken=TAKEN, given=GIVEN, **parts):
    return file(moves=(transition(taken, given, **parts),))


def zone_1(it, **parts):
    return file(zones=(it, *ZONES[1:]), **parts)


# ---- a token of age 1 and more in place 1, of any age there, of any age in place 0

OLD = zone(1, d01=bound(-1))
AGED = (OLD, zone(1), zone(0))
BY = tuple(voucher(z, 1) for z in (0, 1, 2, 3))
VOID = voucher(void=1)
ANSWERS = (BY[1], BY[2], BY[1], VOID, BY[2], BY[2], BY[3], BY[3], BY[3])


def aged(initial, zones, vouchers):
    tokens = initial * (token(),)
    head = docket(initial, zones)
    return file(head=head, tokens=tokens, target=OLD, zones=AGED[:zones], vouchers=vouchers)


# ---- the files

WHOLE = file()
SHORT_TARGET = 49 + 3 + 100

FILES = {
    "two_carriers": WHOLE,
    "kind_unstated": file(net=header(kind=0)),
    "kind_marked": file(net=header(kind=2)),
    "no_transition": file(
        net=header(transitions=0),
        moves=(),
        vouchers=tuple(voucher(z, 1, 2) for z in (1, 1, 2, 3)),
    ),
    "crossed_partners": first_voucher(voucher(1, 2, 1)),
    "void_item": aged(0, 3, ANSWERS),
    # due
    "no_voucher": file(vouchers=()),
    "three_vouchers": file(vouchers=VOUCHERS[:3]),
    "four_vouchers": file(vouchers=VOUCHERS[:4]),
    "without_last_voucher": file(vouchers=VOUCHERS[:-1]),
    "no_listed_zone": file(head=docket(zones=0), zones=(), vouchers=()),
    "reachable_target": aged(1, 2, ANSWERS[:6]),
    # the net
    "empty": b"",
    "three_bytes": WHOLE[:3],
    "twenty_bytes": WHOLE[:20],
    "header_spare": file(net=header(spare=1)),
    "transition_spare": net_with(spare=1),
    "unused_slot": net_with(outputs=0),
    "kind_3": file(net=header(kind=3)),
    "transitions_65": file(net=header(transitions=65)),
    "five_inputs": net_with(inputs=5),
    "output_place_2": net_with(given=(slot(2),)),
    "lower_mark_under_plain": net_with(taken=(slot(0, 1, 2, low_mark=1),)),
    "range_3_to_2": net_with(taken=(slot(0, 3, 2),)),
    # the docket header and the initial tokens
    "net_alone": WHOLE[:45],
    "docket_spare": file(head=docket(spare=1)),
    "token_spare": file(tokens=(token(spare=1),)),
    "token_short": WHOLE[:51],
    "nine_initial_tokens": file(head=docket(initial=9), tokens=9 * (token(),)),
    "initial_place_2": file(tokens=(token(2),)),
    "initial_tokens_covered": file(head=docket(initial=2), tokens=(token(1), token())),
    # the target and the listed zones
    "target_short": WHOLE[:SHORT_TARGET],
    "target_spare": file(target=zone(1, 1, spare=1)),
    "target_nine_tokens": file(target=zone(1, 1, tokens=9)),
    "target_place_2": file(target=zone(1, 2)),
    "zone_absent_bound": zone_1(zone(1, 1, d30=0)),
    "zone_strict_under_plain": zone_1(zone(1, 1, d01=bound(1, mark=1))),
    "zone_strict_under_marked": zone_1(zone(1, 1, d01=bound(1, mark=1)), net=header(kind=2)),
    "zone_less_under_marked": zone_1(zone(1, 1, d10=bound(8, mark=1)), net=header(kind=2)),
    "zone_inconsistent": zone_1(zone(1, 1, d10=bound(2), d01=bound(-3))),
    "zones_one_too_few": file(head=docket(zones=4)),
    # vouchers
    "last_voucher_short": WHOLE[:-1],
    "voucher_spare": first_voucher(voucher(1, 1, 2, spare=1)),
    "voucher_third_partner": first_voucher(voucher(1, 1, 2, 3)),
    "void_target": first_voucher(VOID),
    "void_item_paired": aged(1, 2, (*ANSWERS[:3], BY[2])),
    "voucher_zone_4": first_voucher(voucher(4, 1, 2)),
    "partner_twice": first_voucher(voucher(1, 1, 1)),
    "partner_0": first_voucher(voucher(1, 0, 2)),
    "other_places": first_voucher(voucher(2, 1, 2)),
    "bound_exceeded": zone_1(zone(1, 1, d10=bound(5))),
    "eleventh_voucher": file(vouchers=(*VOUCHERS, VOUCHERS[-1])),
    # two things are wrong
    "header_spare_and_kind_3": file(net=header(kind=3, spare=1)),
    "output_place_2_and_range_3_to_2": net_with(taken=(slot(0, 3, 2),), given=(slot(2),)),
    "lower_mark_and_range_3_to_2": net_with(taken=(slot(0, 3, 2, low_mark=1),)),
    "range_3_to_2_and_docket_spare": file(
        moves=(transition((slot(0, 3, 2),), GIVEN),), head=docket(spare=1)
    ),
    "token_spare_and_place_2": file(tokens=(token(2, spare=1),)),
    "nine_initial_tokens_one_in_place_2": file(
        head=docket(initial=9), tokens=(*8 * (token(),), token(2))
    ),
    "nine_initial_tokens_and_target_short": file(head=docket(initial=9), tokens=9 * (token(),))[
        : SHORT_TARGET + 24
    ],
    "target_nine_tokens_and_short": file(target=zone(1, 1, tokens=9))[:SHORT_TARGET],
    "target_nine_tokens_and_initial_place_2": file(target=zone(1, 1, tokens=9), tokens=(token(2),)),
    "target_nine_tokens_and_spare": file(target=zone(1, 1, tokens=9, spare=1)),
    "zone_place_2_and_inconsistent": zone_1(zone(1, 2, d10=bound(2), d01=bound(-3))),
    "zone_strict_and_inconsistent": zone_1(zone(1, 1, d10=bound(2, mark=1), d01=bound(-3))),
    "zone_1_covered_and_zone_2_place_2": file(zones=(zone(0), zone(1, 2), ZONES[2])),
    "void_target_and_last_short": first_voucher(VOID)[:-1],
    "void_target_with_zone": first_voucher(voucher(1, void=1)),
    "void_item_zone_3": aged(1, 2, (*ANSWERS[:3], BY[3])),
    "voucher_zone_4_partner_twice": first_voucher(voucher(4, 1, 1)),
    "other_places_partner_twice": first_voucher(voucher(2, 1, 1)),
    "other_places_bound_exceeded": file(
        zones=(ZONES[0], zone(1, 0, d10=bound(5)), ZONES[2]),
        vouchers=(voucher(2, 1, 2), *VOUCHERS[1:]),
    ),
    "eleventh_voucher_spare": file(vouchers=(*VOUCHERS, voucher(3, 1, 2, spare=1))),
    "eleventh_voucher_short": file(vouchers=(*VOUCHERS, VOUCHERS[-1][:5])),
}


def main():
    folder = sys.argv[1] if len(sys.argv) > 1 else HERE
    for name, whole in FILES.items():
        with open(os.path.join(folder, name), "wb") as f:
            f.write(whole)


if __name__ == "__main__":
    main()
