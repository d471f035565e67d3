//! Reads a docket file from standard input and prints its one line. Written for speed, from the documents alone, and not proved.
//!
//! A bound is one integer, 64 times its number less 1 where it is strict: sums are sums, the lesser is the lesser, and up to 63 marks
//! add up without reaching the next number. Limits stay below 2^28: 64 times at most 8 bounds below 2^18 and two ends of ranges.

use std::io::Read;

type Bound = i32;
const NO_LIMIT: Bound = 1 << 29; // what is left of it after adding range ends stays above 2^28
const OUT_OF_REACH: Bound = 3 << 28; // with any bound added to it no less than NO_LIMIT

fn limited(bound: Bound) -> bool {
    bound < 1 << 28
}

fn sum(a: Bound, b: Bound) -> Bound {
    if limited(a) && limited(b) {
        a + b
    } else {
        NO_LIMIT
    }
}

fn bound(number: i32, strict: bool) -> Bound {
    64 * number - strict as Bound
}

/// Marks that have added up count as one.
fn one_mark(a: Bound) -> Bound {
    if limited(a) {
        bound((a + 63) >> 6, a & 63 != 0)
    } else {
        NO_LIMIT
    }
}

enum Line {
    Sealed(usize, usize),
    Due(usize, usize, u32, usize),
    Refused(u8, usize),
}

/// Records in borrowed bytes, and the number of the next one.
struct Reader<'a> {
    rest: &'a [u8],
    next: usize,
}

impl<'a> Reader<'a> {
    fn take(&mut self, length: usize, short: u8) -> Result<&'a [u8], Line> {
        if self.rest.len() < length {
            return Err(Line::Refused(short, self.next));
        }
        let (record, rest) = self.rest.split_at(length);
        self.rest = rest;
        self.next += 1;
        Ok(record)
    }

    /// The fault of the record taken last, if there is one.
    fn refuse(&self, number: Option<u8>) -> Result<(), Line> {
        number.map_or(Ok(()), |n| Err(Line::Refused(n, self.next - 1)))
    }
}

fn bits(bytes: &[u8], from: usize, width: usize) -> u32 {
    (from..from + width).fold(0, |value, at| value << 1 | (bytes[at / 8] >> (7 - at % 8) & 1) as u32)
}

fn first(rows: &[(bool, u8)]) -> Option<u8> {
    rows.iter().find(|row| row.0).map(|row| row.1)
}

#[derive(Clone, Copy)]
struct Arc {
    place: u8,
    lower: Bound,
    upper: Bound,
}

struct Transition {
    inputs: Vec<Arc>,
    outputs: Vec<Arc>,
}

struct Net {
    marked: bool,
    places: u8,
    transitions: Vec<Transition>,
}

fn read_net(reader: &mut Reader) -> Result<Net, Line> {
    let header = reader.take(4, 10)?;
    let (kind, transitions) = (bits(header, 0, 2), bits(header, 8, 7));
    reader.refuse(first(&[(bits(header, 15, 17) != 0, 11), (kind == 3 || transitions > 64, 12)]))?;
    let mut net = Net { marked: kind == 2, places: bits(header, 2, 6) as u8 + 1, transitions: Vec::new() };
    for _ in 0..transitions {
        let record = reader.take(41, 10)?;
        net.transitions.push(read_transition(record, &net).map_err(|n| Line::Refused(n, reader.next - 1))?);
    }
    Ok(net)
}

fn read_transition(record: &[u8], net: &Net) -> Result<Transition, u8> {
    let counts = [bits(record, 0, 3) as usize, bits(record, 3, 3) as usize];
    let mut fault = first(&[(bits(record, 6, 2) != 0, 11), (counts.iter().any(|&c| c > 4), 12)]);
    let mut sides = [Vec::new(), Vec::new()];
    for slot in 0..8 {
        let bytes = &record[1 + 5 * slot..6 + 5 * slot];
        let (side, used) = (slot / 4, slot % 4 < counts[slot / 4]);
        let (no_limit, marks) = (bits(bytes, 22, 1) == 1, [bits(bytes, 6, 1) == 1, bits(bytes, 23, 1) == 1]);
        let arc = Arc {
            place: bits(bytes, 0, 6) as u8,
            lower: bound(-(bits(bytes, 7, 15) as i32), marks[0]),
            upper: if no_limit { NO_LIMIT } else { bound(bits(bytes, 24, 15) as i32, marks[1]) },
        };
        let spare = bits(bytes, 39, 1) != 0 || no_limit && bits(bytes, 23, 16) != 0;
        let here = first(&[
            (if used { spare } else { bytes != [0; 5] }, 11),
            (used && arc.place >= net.places, 13),
            (used && !net.marked && marks != [false; 2], 14),
            (used && arc.lower + arc.upper < 0, 15),
        ]);
        fault = [fault, here].into_iter().flatten().min();
        if used {
            sides[side].push(arc);
        }
    }
    let [inputs, outputs] = sides;
    fault.map_or(Ok(Transition { inputs, outputs }), Err)
}

/// Bounds between points, which are 0 to 7 for the zone's tokens and 8 to 11 for those of the input arcs of a firing. Towards points
/// that are not there, and past 11, nothing is limited.
#[derive(Clone, Copy)]
struct Grid {
    above: [Bound; 16],         // the age of a point
    below: [Bound; 16],         // the negated age of a point
    between: [[Bound; 16]; 16], // the age of the first less the age of the second
}

struct Zone {
    tokens: usize,
    places: [u8; 16],
    grid: Grid,
}

/// The bounds by points as records count them: the clock is 0.
type Table = [[Bound; 9]; 9];

fn read_zone(record: &[u8], net: &Net) -> Result<Zone, u8> {
    let tokens = bits(record, 4, 4) as usize;
    let (mut places, mut table) = ([0; 16], [[NO_LIMIT; 9]; 9]);
    let mut spare = bits(record, 0, 4) != 0 || record[7..12] != [0; 5];
    let mut marks = false;
    for token in 0..8 {
        places[token] = bits(record, 8 + 6 * token, 6) as u8;
        spare |= token >= tokens && places[token] != 0;
    }
    for entry in 0..72 {
        let (j, rest) = (entry / 8, entry % 8);
        let i = if rest < j { rest } else { rest + 1 };
        let (mark, code) = (bits(record, 96 + 20 * entry, 1) == 1, bits(record, 97 + 20 * entry, 19));
        let no_limit = code == 1 << 18;
        spare |= no_limit && mark || (j > tokens || i > tokens) && !no_limit;
        marks |= mark;
        if !no_limit {
            table[j][i] = bound((code << 13) as i32 >> 13, mark);
        }
    }
    let outside = tokens <= 8 && places[..tokens].iter().any(|&place| place >= net.places);
    match first(&[(spare, 21), (tokens > 8, 22), (outside, 23), (marks && !net.marked, 24)]) {
        Some(number) => Err(number),
        None if close(&mut table, tokens) => Ok(Zone { tokens, places, grid: grid_of(&table) }),
        None => Err(25),
    }
}

/// Brings a zone to normal form; false where it is inconsistent.
fn close(table: &mut Table, tokens: usize) -> bool {
    for i in 0..=tokens {
        table[0][i] = table[0][i].min(0);
        table[i][i] = 0;
    }
    for over in 0..=tokens {
        for j in 0..=tokens {
            for i in 0..=tokens {
                table[j][i] = table[j][i].min(sum(table[j][over], table[over][i]));
            }
        }
        if (0..=tokens).any(|i| table[i][i] < 0) {
            return false;
        }
    }
    true
}

fn grid_of(table: &Table) -> Grid {
    let mut grid = Grid { above: [NO_LIMIT; 16], below: [NO_LIMIT; 16], between: [[NO_LIMIT; 16]; 16] };
    for j in 0..8 {
        grid.above[j] = one_mark(table[j + 1][0]);
        grid.below[j] = one_mark(table[0][j + 1]);
        for i in 0..8 {
            grid.between[j][i] = one_mark(table[j + 1][i + 1]);
        }
    }
    grid
}

/// Whether the zone's tokens that are not chosen for yet can be paired with tokens of the marking that are not chosen yet.
fn satisfied(zone: &Zone, marking: &[(u8, i32)], chosen: &mut Vec<usize>) -> bool {
    let next = chosen.len();
    next == zone.tokens
        || (0..marking.len()).any(|at| {
            let (place, age) = marking[at];
            let fits = place == zone.places[next]
                && !chosen.contains(&at)
                && 64 * age <= zone.grid.above[next]
                && -64 * age <= zone.grid.below[next]
                && (0..next).all(|i| {
                    let older = 64 * (age - marking[chosen[i]].1);
                    older <= zone.grid.between[next][i] && -older <= zone.grid.between[i][next]
                });
            fits && {
                chosen.push(at);
                let found = satisfied(zone, marking, chosen);
                chosen.pop();
                found
            }
        })
}

/// The clock's row becomes zero. From the clock to a token it is then a leg of zero alone, or with a leg from another token behind it.
fn delayed(grid: &Grid) -> Grid {
    let mut delayed = *grid;
    for i in 0..8 {
        delayed.below[i] = (0..8).map(|j| grid.between[j][i]).fold(0, Bound::min);
    }
    delayed
}

/// The zone with the input arcs' tokens beside its own. They are bounded against the others through the clock alone, so it makes
/// no difference that they are added before narrowing, and that matched tokens are still there.
fn with_inputs(zone: &Zone, inputs: &[Arc]) -> Grid {
    let mut grid = zone.grid;
    for (x, arc) in inputs.iter().enumerate() {
        grid.above[8 + x] = arc.upper;
        grid.below[8 + x] = arc.lower;
    }
    for x in 8..8 + inputs.len() {
        for point in 0..8 + inputs.len() {
            grid.between[point][x] = sum(grid.above[point], grid.below[x]);
            grid.between[x][point] = sum(grid.above[x], grid.below[point]);
        }
        grid.between[x][x] = 0;
    }
    grid
}

/// Narrows token `i` by the arc's range, in normal form; false where that is inconsistent. Ways are shortened by the new upper bound or
/// by the new lower one, never by both, as these sum to no less than zero. Rows of tokens that are not in `order` are left out.
fn narrow(from: &Grid, i: usize, arc: &Arc, order: Order, into: &mut Grid) -> bool {
    if from.below[i] + arc.upper < 0 || from.above[i] + arc.lower < 0 {
        return false;
    }
    for b in 0..8 {
        into.below[b] = from.below[b].min(arc.lower + from.between[i][b]);
    }
    for a in (0..order.stay).map(|at| order.point(at)) {
        let by_upper = if limited(from.between[a][i]) && limited(arc.upper) { from.between[a][i] + arc.upper } else { OUT_OF_REACH };
        let by_lower = if limited(from.above[a]) { from.above[a] + arc.lower } else { OUT_OF_REACH };
        for b in 0..8 {
            into.between[a][b] = from.between[a][b].min(by_upper + from.below[b]).min(by_lower + from.between[i][b]);
        }
        into.above[a] = from.above[a].min(by_upper);
        for x in 8..12 {
            into.between[a][x] = into.above[a] + from.below[x];
        }
    }
    for x in 8..12 {
        for b in 0..8 {
            into.between[x][b] = from.above[x] + into.below[b];
        }
    }
    true
}

/// Which point each of an item's tokens is, from the lowest 4 bits on: first the zone's tokens that stay, then the inputs'.
#[derive(Clone, Copy)]
struct Order {
    points: u64,
    stay: usize,
    tokens: usize,
}

impl Order {
    fn new(stay: usize, inputs: usize) -> Order {
        let before = (1 << (4 * stay)) - 1;
        Order { points: 0x7654_3210 & before | 0xBA98 << (4 * stay), stay, tokens: stay + inputs }
    }

    fn point(self, at: usize) -> usize {
        (self.points >> (4 * (at & 15)) & 15) as usize
    }

    fn without(self, at: usize) -> Order {
        let before = (1 << (4 * at)) - 1;
        let points = self.points & before | self.points >> 4 & !before;
        Order { points, stay: self.stay - 1, tokens: self.tokens - 1 }
    }
}

/// What is due: its three numbers, its bounds (none if it is void), and the places of its points.
struct Item<'a> {
    name: (usize, usize, u32),
    grid: Option<&'a Grid>,
    places: &'a [u8; 16],
    order: Order,
}

impl<'a> Item<'a> {
    fn whole(z: usize, zone: &'a Zone, grid: &'a Grid) -> Item<'a> {
        Item { name: (z, 0, 0), grid: Some(grid), places: &zone.places, order: Order::new(zone.tokens, 0) }
    }
}

/// A listed zone and a transition that is taken back from it.
struct Step<'a> {
    name: (usize, usize),
    places: [u8; 16],
    outputs: &'a [Arc],
}

struct Check<'a> {
    reader: Reader<'a>,
    listed: &'a [Zone],
    taken: usize,
}

impl Check<'_> {
    fn run(&mut self, net: &Net, target: &Zone) -> Result<(), Line> {
        self.discharge(&Item::whole(0, target, &target.grid))?;
        for (z, zone) in (1..).zip(self.listed) {
            self.discharge(&Item::whole(z, zone, &delayed(&zone.grid)))?;
            for (t, transition) in (1..).zip(&net.transitions) {
                let mut step = Step { name: (z, t), places: zone.places, outputs: &transition.outputs };
                for (x, arc) in transition.inputs.iter().enumerate() {
                    step.places[8 + x] = arc.place;
                }
                let grid = with_inputs(zone, &transition.inputs);
                self.fire(&step, 0, 0, Order::new(zone.tokens, transition.inputs.len()), Some(&grid))?;
            }
        }
        Ok(())
    }

    /// All matchings that begin with the `arc` digits of `number`, in ascending order.
    fn fire(&mut self, step: &Step, arc: usize, number: u32, order: Order, grid: Option<&Grid>) -> Result<(), Line> {
        let Some(output) = step.outputs.get(arc) else {
            return self.discharge(&Item { name: (step.name.0, step.name.1, number), grid, places: &step.places, order });
        };
        self.fire(step, arc + 1, number, order, grid)?;
        let mut narrowed = grid.copied();
        for at in 0..order.stay {
            let token = order.point(at);
            if step.places[token] == output.place {
                let order = order.without(at);
                let number = number | (token as u32 + 1) << (12 - 4 * arc);
                let narrowed = match (grid, &mut narrowed) {
                    (Some(from), Some(into)) => narrow(from, token, output, order, into).then_some(&*into),
                    _ => None,
                };
                self.fire(step, arc + 1, number, order, narrowed)?;
            }
        }
        Ok(())
    }

    /// Takes the next voucher for the item.
    fn discharge(&mut self, item: &Item) -> Result<(), Line> {
        if self.reader.rest.is_empty() {
            let (z, t, m) = item.name;
            return Err(Line::Due(z, t, m, self.taken));
        }
        let bytes = self.reader.take(6, 20)?;
        let voucher = bytes.iter().fold(0, |value, &byte| value << 8 | byte as u64);
        self.reader.refuse(refusal(voucher, item, self.listed))?;
        self.taken += 1;
        Ok(())
    }
}

fn refusal(voucher: u64, item: &Item, listed: &[Zone]) -> Option<u8> {
    if voucher >> 47 == 1 {
        return first(&[(voucher << 17 != 0, 21), (item.grid.is_some(), 27)]);
    }
    let zone = listed.get(((voucher >> 41) as usize).wrapping_sub(1));
    let unused = 9 + 4 * (8 - zone.map_or(8, |zone| zone.tokens));
    if voucher & ((1 << unused) - 1) != 0 {
        return Some(21);
    }
    let Some(grid) = item.grid else { return Some(28) };
    let Some(zone) = zone else { return Some(29) };
    let (mut points, mut seen, mut places_differ) = ([0; 8], 0u32, false);
    for token in 0..zone.tokens {
        let partner = (voucher >> (37 - 4 * token) & 15) as usize;
        seen |= 1 << partner;
        points[token] = item.order.point(partner.wrapping_sub(1));
        places_differ |= zone.places[token] != item.places[points[token]];
    }
    let one_each = seen & 1 == 0 && seen >> (item.order.tokens + 1) == 0 && seen.count_ones() == zone.tokens as u32;
    if !one_each || places_differ {
        return Some(if one_each { 31 } else { 30 });
    }
    exceeds(grid, &points, &zone.grid).then_some(32)
}

/// Whether a bound of the item exceeds the zone's, which then makes a difference below zero. Past its tokens the zone has no limit.
fn exceeds(grid: &Grid, points: &[usize; 8], zone: &Grid) -> bool {
    let points = points.map(|point| point & 15);
    let mut differences = 0;
    for j in 0..8 {
        let row = &grid.between[points[j]];
        for i in 0..8 {
            differences |= zone.between[j][i] - row[points[i]];
        }
        differences |= (zone.above[j] - grid.above[points[j]]) | (zone.below[j] - grid.below[points[j]]);
    }
    differences < 0
}

fn check(bytes: &[u8]) -> Result<(usize, usize), Line> {
    let mut reader = Reader { rest: bytes, next: 0 };
    let net = read_net(&mut reader)?;
    let header = reader.take(4, 20)?;
    reader.refuse(first(&[(bits(header, 10, 22) != 0, 21)]))?;
    let mut marking = Vec::new();
    for _ in 0..bits(header, 0, 4) {
        let token = reader.take(3, 20)?;
        reader.refuse(first(&[(bits(token, 21, 3) != 0, 21)]))?;
        marking.push((bits(token, 0, 6) as u8, bits(token, 6, 15) as i32));
    }
    let record = reader.take(192, 20)?;
    let outside = marking.iter().any(|token| token.0 >= net.places);
    reader.refuse(first(&[(marking.len() > 8, 22), (outside, 23)]))?;
    let target = read_zone(record, &net).map_err(|n| Line::Refused(n, reader.next - 1))?;
    let mut listed = Vec::new();
    for _ in 0..bits(header, 4, 6) {
        let record = reader.take(192, 20)?;
        let zone = read_zone(record, &net).map_err(|n| Line::Refused(n, reader.next - 1))?;
        reader.refuse(first(&[(satisfied(&zone, &marking, &mut Vec::new()), 26)]))?;
        listed.push(zone);
    }
    let mut check = Check { reader, listed: &listed, taken: 0 };
    check.run(&net, &target)?;
    if !check.reader.rest.is_empty() {
        check.reader.take(6, 20)?;
        check.reader.refuse(Some(40))?;
    }
    Ok((listed.len(), check.taken))
}

fn main() -> std::io::Result<()> {
    let mut bytes = Vec::new();
    std::io::stdin().lock().read_to_end(&mut bytes)?;
    match check(&bytes).map_or_else(|line| line, |(zones, taken)| Line::Sealed(zones, taken)) {
        Line::Sealed(zones, taken) => println!("sealed {zones} {taken}"),
        Line::Due(z, t, m, taken) => println!("due {z} {t} {m} {taken}"),
        Line::Refused(number, record) => println!("refused {number} {record}"),
    }
    Ok(())
}
