#!/usr/bin/env python3
"""Makes small random dockets, right ones and damaged ones, and compares the lines of programs that read a docket from standard input.

    fuzz.py PROGRAM [PROGRAM..] [--count 20000] [--seed 5] [--oracle] [--file FILE] [--save FOLDER]

Each docket is searched for backwards from its target and has the vouchers that are right, as far as there are any; then come nine
damaged ones of it. With --file all are damaged ones of that right file. With --oracle the slow check of oracle.py says its line too.
Files on which lines differ are saved.
"""
import argparse, collections, os, random, subprocess, sys

import oracle, records
from records import NO_LIMIT

MOST_LISTED, MOST_ITEMS = 14, 160  # of one search
MOST_AGE, MOST_BOUND = 32767, 262143


def random_arc(pick, marked, places, scale):
    low = scale * pick.choice([0, 0, 1, 2, 3, 5])
    high = low + scale * pick.choice([0, 1, 2, 4])
    marks = [1 - (marked and high > low and pick.random() < 0.4) for _ in range(2)]
    return pick.randrange(places), (-low, marks[0]), NO_LIMIT if pick.random() < 0.3 else (high, marks[1])


def random_transition(pick, marked, places, scale):
    most = pick.choice([1, 1, 2, 2, 3, 4])
    return [[random_arc(pick, marked, places, scale) for _ in range(pick.randint(0, most))] for _ in range(2)]


def random_zone(pick, marked, places, scale):
    tokens = pick.choice([0, 1, 1, 1, 2, 2, 2, 3, 3, 4, 8])
    free = pick.choice([0.3, 0.8, 1])
    while True:
        free += 0.05
        number = lambda: (scale * pick.randint(-3, 8), 1 - (marked and pick.random() < 0.3))
        points = range(tokens + 1)
        table = [[(0, 1) if i == j else NO_LIMIT if pick.random() < free else number() for i in points] for j in points]
        if oracle.normal_form(table) is not None:
            return [pick.randrange(places) for _ in range(tokens)], table


def loosened(zone, way, most):
    """A zone that vouches for this one: without some limits, so that searches come to an end. Its bounds fit into a record."""
    places, table = zone

    def bound(j, i):
        number, kept = table[j][i]
        if way == "apart" and 0 != i != j != 0:
            return NO_LIMIT
        return NO_LIMIT if number > most else (-most, 1) if number < -most else (number, kept)

    points = range(len(table))
    return places, [[bound(j, i) for i in points] for j in points]


def normal(zone):
    return zone[0], oracle.normal_form(zone[1])


def pairing(listed, item, partners=()):
    """Partners through which the listed zone vouches for the item, or None."""
    (places, table), (item_places, item_table) = listed, item
    next_one = len(partners) + 1
    if next_one > len(places):
        return list(partners)
    to = (0, *partners)
    for g in range(1, len(item_places) + 1):
        if g not in partners and item_places[g - 1] == places[next_one - 1]:
            if all(item_table[g][to[i]] <= table[next_one][i] and item_table[to[i]][g] <= table[i][next_one] for i in range(next_one)):
                found = pairing(listed, item, (*partners, g))
                if found:
                    return found
    return None


def search(pick, transitions, target, marking):
    """Lists zones until all that is due is vouched for, as far as that goes."""
    listed = []

    def vouch(item):
        if item is None or any(pairing(zone, item) for zone in listed) or len(listed) == MOST_LISTED or not 1 <= len(item[0]) <= 8:
            return
        way, most = pick.choice(["apart", "all", "all", "all"]), pick.choice([2, 6, 40000, MOST_BOUND])
        for zone in map(normal, (loosened(item, way, most), loosened(item, "all", MOST_BOUND))):
            if not oracle.satisfies(marking, zone):
                return listed.append(zone)

    vouch(target)
    tried = 0
    for z, zone in enumerate(listed, 1):
        for _, item in oracle.items(transitions, z, zone):
            vouch(item)
            tried += 1
            if tried > MOST_ITEMS:
                return listed
    return listed


def right_vouchers(pick, transitions, target, listed):
    """One for each item that is due, up to the first that no listed zone vouches for."""
    vouchers = []
    for _, item in oracle.due(transitions, target, listed):
        if item is None:
            vouchers.append(records.VOID)
            continue
        for z in pick.sample(range(1, len(listed) + 1), len(listed)):
            partners = pairing(listed[z - 1], item)
            if partners:
                vouchers.append(records.voucher_record(z, partners))
                break
        else:
            break
        if len(vouchers) > 4 * MOST_ITEMS:
            break
    return vouchers


def random_docket(pick):
    """Its records, each with the name of its form."""
    kind, places = pick.choice([0, 1, 1, 2, 2, 2]), pick.choice([1, 2, 2, 3, 3, 4, 64])
    marked = kind == 2
    scale = pick.choice([1, 1, 1, MOST_AGE // 9])
    transitions = [random_transition(pick, marked, places, scale) for _ in range(pick.choice([0, 1, 1, 2, 2, 3]))]
    marking = [(pick.randrange(places), pick.choice([0, 1, 4, MOST_AGE])) for _ in range(pick.choice([0, 1, 1, 2, 3, 8]))]
    target = random_zone(pick, marked, places, pick.choice([scale, 8 * scale]))
    listed = search(pick, transitions, normal(target), marking)
    forms = [("net", records.net_header(kind, places, len(transitions)))]
    forms += [("transition", records.transition_record(*sides)) for sides in transitions]
    forms += [("docket", records.docket_header(len(marking), len(listed)))]
    forms += [("token", records.initial_token(*token)) for token in marking]
    forms += [("zone", records.zone_record(*loosened(zone, "all", MOST_BOUND))) for zone in [target, *listed]]
    return forms + [("voucher", voucher) for voucher in right_vouchers(pick, transitions, normal(target), listed)]


def forms_of(data):
    """The records of a right file, each with the name of its form."""
    header = 4 + 41 * oracle.bits(data[:4], 8, 7)
    tokens, listed = oracle.bits(data[header : header + 4], 0, 4), oracle.bits(data[header : header + 4], 4, 6)
    lengths = [("net", 1, 4), ("transition", (header - 4) // 41, 41), ("docket", 1, 4), ("token", tokens, 3), ("zone", 1 + listed, 192)]
    forms, at = [], 0
    for form, count, length in [*lengths, ("voucher", len(data) // 6, 6)]:
        while count > 0 and at < len(data):
            forms.append((form, data[at : at + length]))
            count, at = count - 1, at + length
    return forms


SLOT = [(0, 6), (6, 1), (7, 15), (22, 1), (23, 1), (24, 15)]
BOUNDS = [(j, i) for j in range(9) for i in range(9) if j != i]


def fields(form, record):
    """The fields that the record uses, as places and widths in bits."""
    number = lambda at, width: oracle.bits(record, at, width)
    if form == "transition":
        used = [4 * side + n for side in (0, 1) for n in range(min(4, number(3 * side, 3)))]
        return [(0, 3), (3, 3)] + [(8 + 40 * slot + at, width) for slot in used for at, width in SLOT]
    if form == "zone":
        tokens = min(8, number(4, 4))
        used = [96 + 20 * e for e, pair in enumerate(BOUNDS) if max(pair) <= tokens]
        limited = [at for at in used if number(at, 20) != 1 << 18]
        return [(4, 4)] + [(8 + 6 * n, 6) for n in range(tokens)] + [(at + 1, 19) for at in used + limited] + [(at, 1) for at in limited]
    if form == "voucher":
        return [(0, 1), (1, 6), (1, 6)] + [(7 + 4 * n, 4) for n in range(8) if number(7 + 4 * n, 4)]
    return {"net": [(0, 2), (2, 6), (8, 7)], "docket": [(0, 4), (4, 6)], "token": [(0, 6), (6, 15)]}[form]


def turn_field(pick, form, record):
    at, width = pick.choice(fields(form, record))
    if pick.random() < 0.1:
        at, width = pick.randrange(8 * len(record)), 1
    old, after = oracle.bits(record, at, width), 8 * len(record) - at - width
    new = pick.choice([old + 1, old - 1, old - 1, 0, 1, 3, -1, 1 << width - 1, pick.getrandbits(width)]) % (1 << width)
    return (int.from_bytes(record, "big") ^ (old ^ new) << after).to_bytes(len(record), "big")


def more_tokens(pick, forms):
    """The same initial marking with 9 to 15 tokens."""
    at = [form for form, _ in forms].index("docket")
    have, want = oracle.bits(forms[at][1], 0, 4), pick.randint(9, 15)
    header = records.docket_header(want, oracle.bits(forms[at][1], 4, 6))
    new = [("token", records.initial_token(0, pick.randrange(4))) for _ in range(want - have)]
    return [*forms[:at], ("docket", header), *new, *forms[at + 1 :]]


def zone_near(pick, forms):
    """The record of a zone whose bounds are near what the initial marking has, so that it is just met or just not."""
    marking = [(oracle.bits(token, 0, 6), oracle.bits(token, 6, 15)) for form, token in forms if form == "token"][:4]
    chosen = pick.sample(marking, pick.randint(0, len(marking)))
    ages, marked = [0] + [age for _, age in chosen], oracle.bits(forms[0][1], 0, 2) == 2
    while True:
        number = lambda j, i: (ages[j] - ages[i] + pick.choice([-1, 0, 0, 1, 2]), 1 - (marked and pick.random() < 0.3))
        points = range(len(ages))
        table = [[(0, 1) if i == j else NO_LIMIT if pick.random() < 0.4 else number(j, i) for i in points] for j in points]
        if oracle.normal_form(table) is not None:
            return records.zone_record([place for place, _ in chosen], table)


def damaged(pick, forms):
    forms = list(forms)
    for _ in range(pick.choice([1, 1, 1, 2, 3])):
        vouchers = [at for at, (form, _) in enumerate(forms) if form == "voucher"]
        void = [at for at in vouchers if forms[at][1] == records.VOID]
        zones = [at for at, (form, _) in enumerate(forms) if form == "zone"]
        way = pick.random()
        if way < 0.7:
            form = pick.choice(["net", "transition", "docket", "token", "zone", "zone", "zone", "voucher", "voucher", "voucher"])
            choices = [at for at in range(len(forms)) if forms[at][0] == form]
            if form == "voucher" and pick.random() < 0.3:
                choices = void or choices
            at = pick.choice(choices or [0])  # a file always has its net header
            forms[at] = forms[at][0], turn_field(pick, *forms[at])
        elif way < 0.76 and len(zones) > 1:
            forms[pick.choice(zones[1:])] = "zone", zone_near(pick, forms)
        elif way < 0.84 and vouchers:
            a, b = pick.choice(void or vouchers), pick.choice(vouchers)
            forms[a], forms[b] = forms[b], forms[a]
        elif way < 0.88 and vouchers:
            del forms[pick.choice(vouchers)]
        elif way < 0.94:
            forms.append(("more", pick.choice([records.VOID, pick.choice(forms)[1][:6], pick.randbytes(6)])))
        elif way < 0.95:
            return b"".join(record for _, record in more_tokens(pick, forms))
        else:
            data = b"".join(record for _, record in forms[: pick.randint(1, len(forms))])
            return data[: len(data) - pick.choice([0, 1, 3, 100])]
    return b"".join(record for _, record in forms)


def said(program, data):
    return subprocess.run([program], input=data, capture_output=True).stdout.decode(errors="replace")


def compare(programs, data, with_oracle):
    lines = {program: said(program, data) for program in programs}
    if with_oracle:
        lines["oracle"] = oracle.line(data) + "\n"
    return lines


def main():
    options = argparse.ArgumentParser()
    options.add_argument("programs", nargs="+")
    options.add_argument("--count", type=int, default=20000)
    options.add_argument("--seed", type=int, default=5)
    options.add_argument("--oracle", action="store_true")
    options.add_argument("--save", default="differences")
    options.add_argument("--file")
    args = options.parse_args()
    kept = forms_of(open(args.file, "rb").read()) if args.file else None
    pick, tally, differ = random.Random(args.seed), collections.Counter(), 0
    for n in range(args.count):
        if n % 10 == 0:
            forms = kept or max((random_docket(pick) for _ in range(pick.choice([1, 8]))), key=len)  # many end early
            data = b"".join(record for _, record in forms)
        else:
            data = damaged(pick, forms)
        lines = compare(args.programs, data, args.oracle)
        words = next(iter(lines.values())).split()
        tally[" ".join(words[: 2 if words[:1] == ["refused"] else 1])] += 1
        if len(set(lines.values())) > 1:
            differ += 1
            os.makedirs(args.save, exist_ok=True)
            name = os.path.join(args.save, f"{args.seed}-{n}")
            with open(name, "wb") as file:
                file.write(data)
            print(name, lines)
    print(", ".join(f"{line}: {count}" for line, count in sorted(tally.items())))
    print(f"{args.count} files, {differ} with different lines")
    sys.exit(differ > 0)


main()
