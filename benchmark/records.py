"""Writes the records of a docket file. A bound is (number, 1), strict (number, 0), or NO_LIMIT; so tuples order as bounds do."""
NO_LIMIT = (float("inf"), 1)


def pack(*fields):
    """Numbers with their widths in bits, most significant bit first."""
    value = width = 0
    for number, bits in fields:
        value, width = value << bits | number & (1 << bits) - 1, width + bits
    assert width % 8 == 0
    return value.to_bytes(width // 8, "big")


def net_header(kind, places, transitions):
    return pack((kind, 2), (places - 1, 6), (transitions, 7), (0, 17))


def arc_slot(arc):
    """An arc is (place, lower, upper), its lower bound on the negated age."""
    place, lower, upper = arc
    above = (1, 0, 0) if upper == NO_LIMIT else (0, 1 - upper[1], upper[0])
    return pack((place, 6), (1 - lower[1], 1), (-lower[0], 15), (above[0], 1), (above[1], 1), (above[2], 15), (0, 1))


def transition_record(inputs, outputs):
    slots = [b"".join(map(arc_slot, arcs)).ljust(20, b"\0") for arcs in (inputs, outputs)]
    return pack((len(inputs), 3), (len(outputs), 3), (0, 2)) + slots[0] + slots[1]


def docket_header(initial, listed):
    return pack((initial, 4), (listed, 6), (0, 22))


def initial_token(place, age):
    return pack((place, 6), (age, 15), (0, 3))


def zone_record(places, bounds):
    """The places of the tokens, and a table of bounds with a row and a column for the clock and for each token."""
    fields = [(0, 4), (len(places), 4)] + [(place, 6) for place in places] + [(0, 6)] * (8 - len(places)) + [(0, 40)]
    for j in range(9):
        for i in range(9):
            if j != i:
                present = j <= len(places) and i <= len(places)
                number, kept = bounds[j][i] if present else NO_LIMIT
                fields += [(0, 1), (1 << 18, 19)] if number == NO_LIMIT[0] else [(1 - kept, 1), (number, 19)]
    return pack(*fields)


VOID = bytes([128, 0, 0, 0, 0, 0])


def voucher_record(zone, partners):
    return pack((0, 1), (zone, 6), *[(partner, 4) for partner in partners], (0, 4 * (8 - len(partners)) + 9))
