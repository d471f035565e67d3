"""The line of a docket file, worked out slowly: each rule as the documents say it, with no way saved. For tests."""
import itertools

from records import NO_LIMIT

ZERO = (0, 1)


class Refused(Exception):
    pass


def total(a, b):
    return NO_LIMIT if NO_LIMIT in (a, b) else (a[0] + b[0], a[1] & b[1])


def bits(record, at, width):
    return int.from_bytes(record, "big") >> (8 * len(record) - at - width) & (1 << width) - 1


class Reader:
    def __init__(self, data):
        self.data, self.at, self.number = data, 0, -1

    def take(self, length, short):
        self.number += 1
        record = self.data[self.at : self.at + length]
        self.at += length
        self.refuse((len(record) < length, short))
        return record

    def refuse(self, *rows):
        found = [number for holds, number in rows if holds]
        if found:
            raise Refused(min(found), self.number)

    def more(self):
        return self.at < len(self.data)


def read_net(reader):
    header = reader.take(4, 10)
    kind, places, count = bits(header, 0, 2), bits(header, 2, 6) + 1, bits(header, 8, 7)
    reader.refuse((bits(header, 15, 17) != 0, 11), (kind == 3 or count > 64, 12))
    return kind == 2, places, [read_transition(reader, kind == 2, places) for _ in range(count)]


def read_transition(reader, marked, places):
    record = reader.take(41, 10)
    counts = bits(record, 0, 3), bits(record, 3, 3)
    reader.refuse((bits(record, 6, 2) != 0, 11))
    slots = [record[at : at + 5] for at in range(1, 41, 5)]
    used = [slot for side in (0, 1) for slot in slots[4 * side : 4 * side + 4][: counts[side]]]
    unused = [slot for side in (0, 1) for slot in slots[4 * side : 4 * side + 4][counts[side] :]]
    reader.refuse((any(any(slot) for slot in unused), 11), (any(bits(slot, 39, 1) for slot in used), 11))
    reader.refuse((any(bits(slot, 22, 1) and bits(slot, 23, 16) for slot in used), 11))
    reader.refuse((max(counts) > 4, 12))
    arcs = [read_arc(slot) for slot in used]
    reader.refuse((any(place >= places for place, _, _ in arcs), 13))
    reader.refuse((not marked and any(bits(slot, 6, 1) or bits(slot, 23, 1) for slot in used), 14))
    reader.refuse((any(total(lower, upper) < ZERO for _, lower, upper in arcs), 15))
    return arcs[: counts[0]], arcs[counts[0] :]


def read_arc(slot):
    upper = NO_LIMIT if bits(slot, 22, 1) else (bits(slot, 24, 15), 1 - bits(slot, 23, 1))
    return bits(slot, 0, 6), (-bits(slot, 7, 15), 1 - bits(slot, 6, 1)), upper


def read_zone(record, reader, marked, places):
    """A zone is its places and its table of bounds, in normal form."""
    tokens = bits(record, 4, 4)
    all_places = [bits(record, 8 + 6 * n, 6) for n in range(8)]
    pairs = [(j, i) for j in range(9) for i in range(9) if j != i]
    codes = {pair: bits(record, 96 + 20 * e, 20) for e, pair in enumerate(pairs)}
    reader.refuse((bits(record, 0, 4) or bits(record, 56, 40) or any(all_places[tokens:]), 21))
    reader.refuse((any(max(pair) > tokens and code != 1 << 18 for pair, code in codes.items()), 21))
    reader.refuse((any(code == 3 << 18 for code in codes.values()), 21), (tokens > 8, 22))
    reader.refuse((any(place >= places for place in all_places[:tokens]), 23))
    reader.refuse((not marked and any(code >> 19 for code in codes.values()), 24))
    points = range(tokens + 1)
    table = normal_form([[ZERO if j == i else read_bound(codes[j, i]) for i in points] for j in points])
    reader.refuse((table is None, 25))
    return all_places[:tokens], table


def read_bound(code):
    if code == 1 << 18:
        return NO_LIMIT
    number = code & (1 << 19) - 1
    return number - (1 << 19) * (number >> 18), 1 - (code >> 19)


def normal_form(table):
    """The least sums over walks, or None where a closed walk sums below zero."""
    points = range(len(table))
    least = [[min(bound, ZERO) if j == 0 else bound for bound in table[j]] for j in points]
    for over in points:
        for j in points:
            for i in points:
                least[j][i] = min(least[j][i], total(least[j][over], least[over][i]))
    return None if any(least[i][i] < ZERO for i in points) else least


def satisfies(marking, zone):
    places, table = zone
    for chosen in itertools.permutations(marking, len(places)):
        ages = [0] + [age for _, age in chosen]
        if all(place == token[0] for place, token in zip(places, chosen)):
            if all((ages[j] - ages[i], 1) <= table[j][i] for j in range(len(ages)) for i in range(len(ages))):
                return True
    return False


def delay_predecessor(zone):
    places, table = zone
    return places, normal_form([[ZERO] * len(table)] + table[1:])


def firing_predecessor(zone, transition, matching):
    """None where it is void. The matching has a token or 0 for each output arc."""
    (places, table), (inputs, outputs) = zone, transition
    table = [list(row) for row in table]
    for token, (_, lower, upper) in zip(matching, outputs):
        if token:
            table[token][0], table[0][token] = min(table[token][0], upper), min(table[0][token], lower)
    table = normal_form(table)
    if table is None:
        return None
    stay = [point for point in range(len(table)) if point == 0 or point not in matching]
    places = [places[point - 1] for point in stay[1:]] + [place for place, _, _ in inputs]
    table = [[table[j][i] for i in stay] for j in stay]
    for _, lower, upper in inputs:
        for row in table:
            row.append(NO_LIMIT)
        table[0][-1] = lower
        table.append([upper] + [NO_LIMIT] * (len(table) - 1) + [ZERO])
    return places, normal_form(table)


def matchings(zone, transition):
    """In ascending order of their numbers."""
    places, outputs = zone[0], transition[1]
    choices = [[0] + [n for n in range(1, len(places) + 1) if places[n - 1] == place] for place, _, _ in outputs]
    for matching in itertools.product(*choices):
        tokens = [token for token in matching if token]
        if len(tokens) == len(set(tokens)):
            yield matching


def number_of(matching):
    return sum(token << 12 - 4 * at for at, token in enumerate(matching))


def due(transitions, target, listed):
    """Each item that is due with the zone it asks for, or None where it is void."""
    yield (0, 0, 0), target
    for z, zone in enumerate(listed, 1):
        yield from items(transitions, z, zone)


def items(transitions, z, zone):
    yield (z, 0, 0), delay_predecessor(zone)
    for t, transition in enumerate(transitions, 1):
        for matching in matchings(zone, transition):
            yield (z, t, number_of(matching)), firing_predecessor(zone, transition, matching)


def vouching_fault(listed, item, partners):
    (places, table), (item_places, item_table) = listed, item
    if 0 in partners or max(partners, default=0) > len(item_places) or len(set(partners)) < len(partners):
        return 30
    if any(place != item_places[g - 1] for place, g in zip(places, partners)):
        return 31
    to = [0] + partners
    points = range(len(to))
    return 32 if any(item_table[to[j]][to[i]] > table[j][i] for j in points for i in points if j != i) else None


def voucher_fault(voucher, item, listed):
    void, zone = bits(voucher, 0, 1), bits(voucher, 1, 6)
    partners = [bits(voucher, 7 + 4 * n, 4) for n in range(8)]
    uses = 0 if void else len(listed[zone - 1][0]) if 1 <= zone <= len(listed) else 8
    if bits(voucher, 39, 9) or any(partners[uses:]) or void and zone:
        return 21
    if void:
        return None if item is None else 27
    if item is None:
        return 28
    if not 1 <= zone <= len(listed):
        return 29
    return vouching_fault(listed[zone - 1], item, partners[:uses])


def check(data):
    reader = Reader(data)
    marked, places, transitions = read_net(reader)
    header = reader.take(4, 20)
    reader.refuse((bits(header, 10, 22), 21))
    marking = []
    for _ in range(bits(header, 0, 4)):
        token = reader.take(3, 20)
        reader.refuse((bits(token, 21, 3), 21))
        marking.append((bits(token, 0, 6), bits(token, 6, 15)))
    record = reader.take(192, 20)
    reader.refuse((len(marking) > 8, 22), (any(place >= places for place, _ in marking), 23))
    target = read_zone(record, reader, marked, places)
    listed = []
    for _ in range(bits(header, 4, 6)):
        listed.append(read_zone(reader.take(192, 20), reader, marked, places))
        reader.refuse((satisfies(marking, listed[-1]), 26))
    taken = 0
    for name, item in due(transitions, target, listed):
        if not reader.more():
            return "due %d %d %d %d" % (*name, taken)
        fault = voucher_fault(reader.take(6, 20), item, listed)
        reader.refuse((fault is not None, fault))
        taken += 1
    if reader.more():
        reader.take(6, 20)
        reader.refuse((True, 40))
    return f"sealed {len(listed)} {taken}"


def line(data):
    try:
        return check(data)
    except Refused as fault:
        return "refused %d %d" % fault.args
