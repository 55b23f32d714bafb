//! Check, writing and clearance on values: of an instance with anything past its counts, and of that value changed, so that number 9's
//! conditions hold in turn.

use crate::layout::{packing_bytes, value_bytes};
use crate::library::{self, Written};
use crate::parts::{some_marks, Run};
use crate::random::{self, Random};
use crate::reference::bytes::{marks_of, positions_of};
use crate::reference::packing::Position;
use crate::reference::sheet::{self, Instance, MOST_ITEMS, MOST_PRECEDENCES};
use crate::reference::value::{self, Value};
use crate::report::{hexadecimal, Report};

type Order = (usize, usize);

/// Any measures, 0 among them.
fn any_size(random: &mut Random) -> [u32; 3] {
    let most = random.pick(&[1, 3, 4096, 65536]);
    [0; 3].map(|_: u32| random.below(most) as u32)
}

/// Any order, also of pieces that no sheet has.
fn any_order(random: &mut Random) -> Order {
    let most = random.pick(&[2, MOST_ITEMS, 256]);
    (random.below(most), random.below(most))
}

/// Any lag, 0 as often as not.
fn any_lag(random: &mut Random) -> u32 {
    let byte = random.byte() as u32;
    random.pick(&[0, 0, 0, 1, 255, byte])
}

/// The value of an instance; past its counts 0, as reading leaves them, or anything.
fn value_of(random: &mut Random, instance: &Instance) -> Value {
    let blank = random.one_in(3);
    let mut value = Value {
        container: instance.container,
        item_count: instance.items.len() as u64,
        items: [0; MOST_ITEMS].map(|_| if blank { [0; 3] } else { any_size(random) }),
        may_turn: [0; MOST_ITEMS].map(|_| !blank && random.one_in(2)),
        precedence_count: instance.precedences.len() as u64,
        precedences: [0; MOST_PRECEDENCES].map(|_| if blank { (0, 0) } else { any_order(random) }),
        lags: [0; MOST_PRECEDENCES].map(|_| if blank { 0 } else { any_lag(random) }),
        yard_number: instance.yard_number,
        walkway: instance.walkway,
    };
    value.items[..instance.items.len()].copy_from_slice(&instance.items);
    value.may_turn[..instance.items.len()].copy_from_slice(&instance.may_turn);
    value.precedences[..instance.precedences.len()].copy_from_slice(&instance.precedences);
    value.lags[..instance.lags.len()].copy_from_slice(&instance.lags);
    value
}

/// A count over a limit; the low bytes of most are a count that stands.
fn count_over(random: &mut Random, most: usize, count: u64) -> u64 {
    let most = most as u64;
    let part = random.pick(&[1 << 8, 1 << 16, 1 << 32, 1 << 63]);
    let any = random.next();
    random.pick(&[most + 1, most + 2, 255, 65535, u64::MAX, part, part + count, part + most, any.max(most + 1)])
}

/// A measure in the container, in an item or past the count: whether past it.
fn put_measure(random: &mut Random, value: &mut Value, measure: u32) -> bool {
    let axis = random.below(3);
    let counted = value.item_count as usize;
    match random.below(3) {
        0 => value.container[axis] = measure,
        1 if counted > 0 => value.items[random.below(counted)][axis] = measure,
        _ if counted < MOST_ITEMS => {
            value.items[random.between(counted, MOST_ITEMS - 1)][axis] = measure;
            return true;
        }
        _ => value.items[MOST_ITEMS - 1][axis] = measure,
    }
    false
}

fn with_measure_0(random: &mut Random, value: &mut Value) -> &'static str {
    if put_measure(random, value, 0) { "values with a measure 0 past the count" } else { "values with a measure 0" }
}

fn with_large_measure(random: &mut Random, value: &mut Value) -> &'static str {
    let measure = random::about_greatest(random);
    if put_measure(random, value, measure) { "values with a measure about 4,095 past the count" } else { "values with a measure about 4,095" }
}

/// An order that is not above the one before, or names what is no piece, or one piece twice.
fn with_order_changed(random: &mut Random, value: &mut Value) -> &'static str {
    let items = value.item_count as usize;
    if value.precedence_count == 0 {
        value.precedence_count = random.between(1, 3) as u64;
    }
    let at = random.below(value.precedence_count as usize);
    let (u, v) = value.precedences[at];
    let strange = random.pick(&[items, items + 1, MOST_ITEMS, 255]);
    match random.below(7) {
        0 if at > 0 => {
            // A greater lag does not put it above.
            value.precedences[at] = value.precedences[at - 1];
            value.lags[at] = random.pick(&[value.lags[at], 255]);
        }
        1 if at > 0 => value.precedences.swap(at, at - 1),
        2 => value.precedences[at] = (v, u),
        3 => value.precedences[at] = (u, u),
        4 => value.precedences[at] = (strange, v),
        5 => value.precedences[at] = (u, strange),
        _ => value.precedences[at] = any_order(random),
    }
    "values with an order changed"
}

/// Other lags: any, the lag of one order, all 0 up to the count, or all 0 but past the count.
fn with_lags_changed(random: &mut Random, value: &mut Value) -> &'static str {
    let counted = value.precedence_count as usize;
    match random.below(4) {
        0 => value.lags = [0; MOST_PRECEDENCES].map(|_| any_lag(random)),
        1 if counted > 0 => value.lags[random.below(counted)] = random.pick(&[0, 1, 2, 127, 128, 255]),
        2 => value.lags[..counted].fill(0),
        _ => {
            value.lags.fill(0);
            if counted < MOST_PRECEDENCES {
                let past = random.between(counted, MOST_PRECEDENCES - 1);
                value.lags[random.pick(&[counted, past, MOST_PRECEDENCES - 1])] = random.pick(&[1, 255]);
            }
        }
    }
    "values with lags changed"
}

/// Another walkway: any byte is one, and 9 has nothing to say of it.
fn with_walkway_changed(random: &mut Random, value: &mut Value) -> &'static str {
    let byte = random.byte() as u32;
    value.walkway = random.pick(&[0, 1, 2, 127, 128, 255, byte]);
    "values with another walkway"
}

/// Another set of pieces that may turn, in the count and past it.
fn with_turning_changed(random: &mut Random, value: &mut Value) -> &'static str {
    let counted = value.item_count as usize;
    match random.below(3) {
        0 => value.may_turn = [0; MOST_ITEMS].map(|_| random.one_in(2)),
        1 if counted > 0 => value.may_turn[random.below(counted)] ^= true,
        _ => value.may_turn[counted..].iter_mut().for_each(|may_turn| *may_turn ^= true),
    }
    "values with other pieces that may turn"
}

/// The value changed in one way, and what the change is.
fn changed(random: &mut Random, value: &Value, way: usize) -> (&'static str, Value) {
    let mut value = value.clone();
    let kind = match way {
        0 => {
            value.item_count = count_over(random, MOST_ITEMS, value.item_count);
            "values with too many items"
        }
        1 => {
            value.precedence_count = count_over(random, MOST_PRECEDENCES, value.precedence_count);
            "values with too many orders"
        }
        2 => with_measure_0(random, &mut value),
        3 => with_order_changed(random, &mut value),
        4 => with_lags_changed(random, &mut value),
        5 => with_large_measure(random, &mut value),
        6 => with_walkway_changed(random, &mut value),
        7 => with_turning_changed(random, &mut value),
        _ if random.one_in(2) => {
            value.item_count = random.below(MOST_ITEMS + 1) as u64;
            "values with another count of items"
        }
        _ => {
            let near = value.precedence_count as usize + 2;
            value.precedence_count = random.below(near.min(MOST_PRECEDENCES + 1)) as u64;
            "values with another count of orders"
        }
    };
    (kind, value)
}

fn shown(value: &Value) -> String {
    hexadecimal(&value_bytes(value))
}

fn check(report: &mut Report, value: &Value, (positions, marks): &(Vec<Position>, Vec<u8>)) {
    let expected = value::check(value, positions, marks);
    let kind = match expected {
        0 => "checks of values: no",
        1 => "checks of values: yes",
        113 => "checks of values: refused by 13",
        _ => "checks of values: refused",
    };
    let plan = packing_bytes(positions, marks);
    report.same(kind, &Ok(expected), &library::check_value(&value_bytes(value), &plan), || {
        format!("value {} plan {}", shown(value), hexadecimal(&plan))
    });
}

fn write(report: &mut Report, random: &mut Random, value: &Value, room: usize) {
    let before: Vec<u8> = (0..room).map(|_| random.byte()).collect();
    let mut after = before.clone();
    let answer = value::write(value, &mut after);
    let kind = match answer {
        Ok(_) => "values written",
        Err(refusal) if refusal.number == 8 => "values not written for the room",
        Err(_) => "values not written by 9",
    };
    let (length, (number, place)) = match answer {
        Ok(length) => (length, (0, 0)),
        Err(refusal) => (0, (refusal.number, refusal.place)),
    };
    let expected = Written { length, number, place, room: after };
    report.same(kind, &Ok(expected), &library::write_value(&value_bytes(value), &before), || {
        format!("value {} room {room}", shown(value))
    });
}

fn clearance(report: &mut Report, random: &mut Random, value: &Value, items: usize) {
    let any = random.pick(&[items, MOST_ITEMS, 256, usize::MAX]);
    let mut item = || if random.one_in(8) { any } else { random.below(items.max(1)) };
    let (u, v) = (item(), item());
    let axis = random.pick(&[0, 1, 2, 0, 1, 2, 3, 255]);
    let most = random.pick(&[2, 8, 65536]);
    let positions: Vec<Position> = (0..MOST_ITEMS).map(|_| [0; 3].map(|_: u32| random.below(most) as u32)).collect();
    let marks = ten_marks(random, value);
    let plan = packing_bytes(&positions, &marks);
    let (expected, kind) = match value::clearance(value, &positions, &marks, u, v, axis as usize) {
        Ok(clearance) if clearance > 0 => ((clearance, 0, 0), "clearances above 0"),
        Ok(clearance) if clearance < 0 => ((clearance, 0, 0), "clearances below 0"),
        Ok(_) => ((0, 0, 0), "clearances 0"),
        Err(refusal) if refusal.number == 13 => ((0, 13, refusal.place), "clearances refused by 13"),
        Err(refusal) => ((0, refusal.number, refusal.place), "clearances refused"),
    };
    report.same(kind, &Ok(expected), &library::clearance(&value_bytes(value), &plan, u, v, axis), || {
        format!("value {} plan {} u {u} v {v} axis {axis}", shown(value), hexadecimal(&plan))
    });
}

/// A mark by chance on one of so many items.
fn spoil_mark(random: &mut Random, marks: &mut [u8], items: usize) {
    if items > 0 {
        let (at, any) = (random.below(items), random.byte());
        marks[at] = random.pick(&[marks[at] ^ 1, 1, 2, 255, any]);
    }
}

/// Ten marks: mostly such as the value allows, now and then one of them by chance; anything past the count.
fn ten_marks(random: &mut Random, value: &Value) -> Vec<u8> {
    let items = value.item_count.min(MOST_ITEMS as u64) as usize;
    let mut marks = some_marks(random, &value.may_turn[..items]);
    if random.one_in(4) {
        spoil_mark(random, &mut marks, items);
    }
    let past: Vec<u8> = (items..MOST_ITEMS).map(|_| random.byte()).collect();
    marks.into_iter().chain(past.into_iter().map(|byte| if byte % 4 == 0 { byte % 3 } else { byte })).collect()
}

/// Ten positions and marks: those of the run where it is placed, else by chance; a position or a mark changed; anything past the count.
fn ten_positions(random: &mut Random, instance: &Instance, run: &Run) -> (Vec<Position>, Vec<u8>) {
    let plan = run.end.as_ref().map_or(Vec::new(), |(_, packed)| packed.clone());
    let (mut positions, mut marks) = (positions_of(&plan), marks_of(&plan));
    let items = instance.items.len();
    if plan.is_empty() {
        let [width, depth, shifts] = instance.container;
        let mut position = || [width, depth, shifts].map(|measure| random.below(measure as usize) as u32);
        positions = instance.items.iter().map(|_| position()).collect();
        marks = some_marks(random, &instance.may_turn);
    }
    if items > 0 && random.one_in(2) {
        let start = &mut positions[random.below(items)][random.below(3)];
        *start = if random.one_in(2) { (*start + 1) & 0xFFFF } else { start.wrapping_sub(1) & 0xFFFF };
    }
    if random.one_in(4) {
        spoil_mark(random, &mut marks, items);
    }
    while positions.len() < MOST_ITEMS {
        positions.push([0; 3].map(|_: u32| random.below(65536) as u32));
        marks.push(random.byte());
    }
    (positions, marks)
}

/// A measure on one axis of the container (place 0), of item 0 or item 1, or past the count of two: whether 9 names the value.
const MEASURES_BY_HAND: &[(u32, usize, bool)] = &[
    (4095, 0, false),
    (4096, 0, true),
    (65535, 0, true),
    (4095, 1, false),
    (4096, 1, true),
    (4095, 2, false),
    (4096, 2, true),
    (65535, 2, true),
    (4096, 3, false),
    (65535, 3, false),
    (65535, 10, false),
];

/// Check, writing and clearance of such values: 9 before the room that is too short, the item and the axis that are not there.
pub fn by_hand(report: &mut Report) {
    let kind = "values by hand";
    for &(measure, place, by_9) in MEASURES_BY_HAND {
        for axis in 0..3 {
            let mut value = value_of(&mut Random::new(1, 0), &pair());
            let size = if place == 0 { &mut value.container } else { &mut value.items[place - 1] };
            size[axis] = measure;
            let (bytes, plan) = (value_bytes(&value), packing_bytes(&[[65535; 3]; MOST_ITEMS], &[0, 0, 1, 2, 255, 1, 2, 255, 1, 2]));
            report.same(kind, &by_9, &value::instance_of(&value).is_err(), || shown(&value));
            report.same(kind, &Ok(if by_9 { 109 } else { 0 }), &library::check_value(&bytes, &plan), || shown(&value));
            let number = |other| if by_9 { 9 } else { other };
            let written = library::write_value(&bytes, &[7]).map(|written| (written.number, written.place, written.room));
            report.same(kind, &Ok((number(8), 0, vec![7])), &written, || shown(&value));
            for (u, axis, other) in [(2, 0, 5), (0, 3, 8)] {
                report.same(kind, &Ok((0, number(other), 0)), &library::clearance(&bytes, &plan, u, 0, axis), || shown(&value));
            }
        }
    }
}

/// Two items in a hall of 4,095.
fn pair() -> Instance {
    let (items, may_turn) = (vec![[2, 3, 4]; 2], vec![false; 2]);
    Instance { container: [4095; 3], items, may_turn, precedences: vec![(0, 1)], lags: vec![255], yard_number: 65535, walkway: 0 }
}

/// Two items of 2 x 3 x 4 in a hall of 9, each walkway with whether the second may stand at 4, 0, 0: 2 modules from the first. The clearance is
/// 2 whatever the walkway; and the sheet has a byte more where it is above 0.
const WALKWAYS_BY_HAND: &[(u32, u32)] = &[(0, 1), (1, 1), (2, 1), (3, 0), (128, 0), (255, 0)];

pub fn walkways_by_hand(report: &mut Report) {
    let kind = "values with a walkway, by hand";
    let starts: Vec<Position> = (0..MOST_ITEMS as u32).map(|item| [4 * item, 0, 0]).collect();
    for &(walkway, fits) in WALKWAYS_BY_HAND {
        let two = Instance { walkway, ..two_blocks(vec![false; 2]) };
        let value = value_of(&mut Random::new(1, 0), &two);
        let marks = [0; MOST_ITEMS];
        let (bytes, plan) = (value_bytes(&value), packing_bytes(&starts, &marks));
        report.same(kind, &(fits, Ok(fits)), &(value::check(&value, &starts, &marks), library::check_value(&bytes, &plan)), || shown(&value));
        for (u, v, axis, clearance) in [(0, 1, 0, 2), (1, 0, 0, 2), (0, 1, 1, -3), (1, 0, 2, -4), (1, 1, 0, -2)] {
            let own = value::clearance(&value, &starts, &marks, u, v, axis);
            let got = library::clearance(&bytes, &plan, u, v, axis as u8);
            report.same(kind, &(Ok(clearance), Ok((clearance, 0, 0))), &(own, got), || shown(&value));
        }
        let mut sheet = vec![15, 9, 0, 9, 0, 9, 0, 2, 7, 2, 0, 3, 0, 4, 0, 7, 2, 0, 3, 0, 4, 0];
        if walkway > 0 {
            sheet[0] += 128;
            sheet.push(walkway as u8);
        }
        let written = library::write_value(&bytes, &vec![7; sheet.len()]);
        let expected = Written { length: sheet.len(), number: 0, place: 0, room: sheet.clone() };
        report.same(kind, &Ok(expected), &written, || shown(&value));
        let shorter = vec![7; sheet.len() - 1];
        let refused = Written { length: 0, number: 8, place: 0, room: shorter.clone() };
        report.same(kind, &Ok(refused), &library::write_value(&bytes, &shorter), || shown(&value));
    }
}

/// Two items of 2 x 3 x 4 in a hall of 9.
fn two_blocks(may_turn: Vec<bool>) -> Instance {
    Instance { container: [9; 3], items: vec![[2, 3, 4]; 2], may_turn, precedences: vec![], lags: vec![], yard_number: 0, walkway: 0 }
}

/// The same two items, the first at 0, 0, 0 and the second at 2, 0, 0; which may turn, the marks, what check returns, and the clearance on x and on y. Upright
/// the first ends at 2 on x, turned at 3: they overlap by 1, and the least move that parts them is 1. On y the overlap is 2 where one of them is turned, as
/// the turned one ends at 2; with neither it is 3.
const MARKS_BY_HAND: &[(&str, [u8; 2], u32, i64, i64)] = &[
    ("00", [0, 0], 1, 0, -3),
    ("11", [0, 0], 1, 0, -3),
    ("11", [0, 1], 1, 0, -2),
    ("01", [0, 1], 1, 0, -2),
    ("11", [1, 0], 0, -1, -2),
    ("10", [1, 0], 0, -1, -2),
    ("11", [1, 1], 0, -1, -2),
    ("10", [0, 1], 113, 0, 0),
    ("01", [1, 0], 113, 0, 0),
    ("01", [1, 1], 113, 0, 0),
    ("00", [0, 1], 113, 0, 0),
    ("11", [0, 2], 113, 0, 0),
    ("11", [2, 0], 113, 0, 0),
    ("11", [255, 1], 113, 0, 0),
    ("11", [1, 255], 113, 0, 0),
    ("00", [0, 128], 113, 0, 0),
];

/// Such values with any marks past the count; 9, 5 and 8 before 13, which is of all items on the sheet and not only of the two asked for; and the bytes
/// that are written.
pub fn marks_by_hand(report: &mut Report) {
    let kind = "values with marks, by hand";
    let starts: Vec<Position> = (0..MOST_ITEMS as u32).map(|item| [2 * item, 0, 0]).collect();
    for &(may_turn, [first, second], fits, on_x, on_y) in MARKS_BY_HAND {
        let may_turn: Vec<bool> = may_turn.bytes().map(|digit| digit == b'1').collect();
        for past in [0, 1, 2, 255] {
            let mut value = value_of(&mut Random::new(1, past), &two_blocks(may_turn.clone()));
            let mut marks = vec![past as u8; MOST_ITEMS];
            (marks[0], marks[1]) = (first, second);
            let (bytes, plan) = (value_bytes(&value), packing_bytes(&starts, &marks));
            report.same(kind, &(fits, Ok(fits)), &(value::check(&value, &starts, &marks), library::check_value(&bytes, &plan)), || shown(&value));
            let refused = fits == 113;
            for (u, v, axis, clearance) in [(0, 1, 0, on_x), (1, 0, 0, on_x), (0, 1, 1, on_y), (1, 0, 1, on_y), (0, 1, 2, -4), (1, 0, 2, -4)] {
                let expected = if refused { (0, 13, 0) } else { (clearance, 0, 0) };
                report.same(kind, &Ok(expected), &library::clearance(&bytes, &plan, u, v, axis), || shown(&value));
            }
            // Of one item alone: minus its measure, where the other's mark stands too.
            let widths = [[2, 3][first as usize & 1], [2, 3][second as usize & 1]];
            for item in 0..2 {
                let expected = if refused { (0, 13, 0) } else { (-widths[item], 0, 0) };
                report.same(kind, &Ok(expected), &library::clearance(&bytes, &plan, item, item, 0), || shown(&value));
            }
            for (u, axis, number) in [(2, 0, 5), (2, 3, 5), (0, 3, 8)] {
                report.same(kind, &Ok((0, number, 0)), &library::clearance(&bytes, &plan, u, 0, axis), || shown(&value));
            }
            let pieces = may_turn.iter().flat_map(|&may_turn| [if may_turn { 15 } else { 7 }, 2, 0, 3, 0, 4, 0]);
            let sheet: Vec<u8> = [15, 9, 0, 9, 0, 9, 0, 2].into_iter().chain(pieces).collect();
            let expected = Written { length: sheet.len(), number: 0, place: 0, room: sheet.clone() };
            report.same(kind, &Ok(expected), &library::write_value(&bytes, &vec![7; sheet.len()]), || shown(&value));
            value.container[1] = 0;
            let bytes = value_bytes(&value);
            report.same(kind, &Ok(109), &library::check_value(&bytes, &plan), || shown(&value));
            report.same(kind, &Ok((0, 9, 0)), &library::clearance(&bytes, &plan, 0, 1, 0), || shown(&value));
        }
    }
}

/// Everything about the value of one instance.
pub fn values(report: &mut Report, random: &mut Random, instance: &Instance, run: &Run) {
    let (items, len) = (instance.items.len(), sheet::encode(instance).len());
    let own = value_of(random, instance);
    for _ in 0..2 {
        check(report, &own, &ten_positions(random, instance, run));
        clearance(report, random, &own, items);
        clearance(report, random, &own, items);
    }
    let near = if random.one_in(20) { 0 } else { len - 1 };
    for room in (near..len + 3).chain([0, len + random.below(40)]) {
        write(report, random, &own, room);
    }
    for way in 0..9 {
        let (kind, other) = changed(random, &own, way);
        report.count(kind);
        report.count(if value::instance_of(&other).is_ok() { "changed values that stand" } else { "changed values refused by 9" });
        check(report, &other, &ten_positions(random, instance, run));
        clearance(report, random, &other, items);
        // "9 is tested before 5, 8 and 10": in a room long enough and in one too short
        for room in [random.pick(&[0, 1, len - 1]), random.pick(&[len, len + 1, sheet::LONGEST_SHEET, 400])] {
            write(report, random, &other, room);
        }
    }
}
