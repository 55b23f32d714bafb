//! Tiny containers, where all positions are tried one after another, with all ways to turn the items that may, module by module and shift by shift:
//! none exactly when none fits, and the earliest finish is the first length in which some fit.

use crate::library;
use crate::parts::some_marks;
use crate::random::Random;
use crate::reference::bytes::{marks_of, plan_bytes, positions_of, NOTE_BYTES, PIECE_BYTES};
use crate::reference::finish::with_shifts;
use crate::reference::packing::{is_feasible, Position};
use crate::reference::sheet::{self, Instance};
use crate::reference::turning::{judge_marks, turned};
use crate::report::{hexadecimal, Report};

/// The modules and shifts that an item takes up; where it is turned, its width along y and its depth along x.
fn cells(instance: &Instance, positions: &[Position], marks: &[u8], item: usize) -> Vec<Position> {
    let ([x, y, t], [mut width, mut depth, shifts]) = (positions[item], instance.items[item]);
    if marks[item] == 1 {
        (width, depth) = (depth, width);
    }
    let mut cells = Vec::new();
    for dx in 0..width {
        for dy in 0..depth {
            cells.extend((0..shifts).map(|dt| [x + dx, y + dy, t + dt]));
        }
    }
    cells
}

/// Fit by cells: each in the hall; of two items in the same shift, no two modules with fewer than the walkway's between them on x and on y, which
/// without a walkway is no module twice; and so many shifts as the lag between the last of u and the first of v.
fn fits_by_cells(instance: &Instance, positions: &[Position], marks: &[u8]) -> bool {
    let all: Vec<Vec<Position>> = (0..instance.items.len()).map(|item| cells(instance, positions, marks, item)).collect();
    let inside = all.iter().flatten().all(|cell| (0..3).all(|axis| cell[axis] < instance.container[axis]));
    let close = |a: &Position, b: &Position| a[2] == b[2] && a[0].abs_diff(b[0]) <= instance.walkway && a[1].abs_diff(b[1]) <= instance.walkway;
    let apart = |u: usize, v: usize| !all[u].iter().any(|a| all[v].iter().any(|b| close(a, b)));
    let waits = |u: usize, v: usize, lag: u32| all[u].iter().all(|a| all[v].iter().all(|b| a[2] + lag < b[2]));
    inside
        && (0..all.len()).all(|v| (0..v).all(|u| apart(u, v)))
        && instance.precedences.iter().zip(&instance.lags).all(|(&(u, v), &lag)| waits(u, v, lag))
}

fn some_position_fits(instance: &Instance) -> bool {
    let (mut positions, mut marks) = (Vec::new(), Vec::new());
    some_rest_fits(instance, &mut positions, &mut marks)
}

/// With the first items where they are.
fn some_rest_fits(instance: &Instance, positions: &mut Vec<Position>, marks: &mut Vec<u8>) -> bool {
    let item = positions.len();
    if item == instance.items.len() {
        return fits_by_cells(instance, positions, marks);
    }
    let [width, depth, shifts] = instance.container;
    let ways: &[u8] = if instance.may_turn[item] { &[0, 1] } else { &[0] };
    for x in 0..width {
        for y in 0..depth {
            for t in 0..shifts {
                for &mark in ways {
                    positions.push([x, y, t]);
                    marks.push(mark);
                    let found = some_rest_fits(instance, positions, marks);
                    positions.pop();
                    marks.pop();
                    if found {
                        return true;
                    }
                }
            }
        }
    }
    false
}

fn one(report: &mut Report, instance: &Instance) {
    report.count(if instance.lags.iter().any(|&lag| lag > 0) { "tiny halls: with lags" } else { "tiny halls: without lags" });
    report.count(if instance.walkway > 0 { "tiny halls: with a walkway" } else { "tiny halls: without a walkway" });
    let sheet = sheet::encode(instance);
    report.count(if instance.may_turn.contains(&true) { "tiny halls: with pieces that may turn" } else { "tiny halls: without pieces that may turn" });
    let fits = some_position_fits(instance);
    let plan = vec![0; PIECE_BYTES * instance.items.len()];
    let got = library::search(&sheet, &[0; NOTE_BYTES], u32::MAX, &[0; 4], &plan);
    let answer = got.as_ref().map(|searched| searched.returned).map_err(|&fault| fault);
    let (expected, kind) = if fits { (1, "tiny halls: some positions fit") } else { (2, "tiny halls: no positions fit") };
    report.same(kind, &Ok(expected), &answer, || hexadecimal(&sheet));
    if let Ok(searched) = got {
        if searched.returned == 1 {
            let plan = searched.plan.unwrap_or_default();
            let (positions, marks) = (positions_of(&plan), marks_of(&plan));
            let stand = positions.len() == instance.items.len() && judge_marks(instance, &marks).is_ok();
            let feasible = stand && is_feasible(instance, &positions, &marks) && fits_by_cells(instance, &positions, &marks);
            report.same("tiny halls: placed plans that fit", &true, &feasible, || {
                format!("sheet {} plan {}", hexadecimal(&sheet), hexadecimal(&plan))
            });
            report.same("tiny halls: placed plans that check", &Ok(1), &library::check(&sheet, &plan), || hexadecimal(&sheet));
        }
    }
    earliest(report, instance);
}

/// "A given length has a plan and no shorter one has any. None means that no length up to the sheet's shifts has one"
fn earliest(report: &mut Report, instance: &Instance) {
    let sheet = sheet::encode(instance);
    let fits = |&length: &u32| some_position_fits(&with_shifts(instance, length));
    let first = (1..=instance.container[2]).find(fits);
    let got = library::finish(&sheet, u32::MAX, &[7; 2], &[7; 4], &vec![7; PIECE_BYTES * instance.items.len()]);
    let told = got.as_ref().map(|finished| (finished.returned, finished.length.clone())).map_err(|&fault| fault);
    let expected = first.map_or((2, 0), |length| (1, length as u8));
    report.same("tiny halls: earliest finishes", &Ok((expected.0, Ok(vec![expected.1, 0]))), &told, || hexadecimal(&sheet));
    if let (Some(length), Ok(Ok(plan))) = (first, got.map(|finished| finished.plan)) {
        let stand = judge_marks(instance, &marks_of(&plan)).is_ok();
        let feasible = stand && is_feasible(&with_shifts(instance, length), &positions_of(&plan), &marks_of(&plan));
        report.same("tiny halls: earliest plans that fit", &true, &feasible, || {
            format!("sheet {} plan {}", hexadecimal(&sheet), hexadecimal(&plan))
        });
    }
}

/// The check of positions and marks by chance, inside the hall or just outside, by cells.
fn by_cells(report: &mut Report, random: &mut Random, instance: &Instance, times: usize) {
    let sheet = sheet::encode(instance);
    for _ in 0..times {
        let start = |random: &mut Random, axis: usize, measure: u32| {
            let outside = u32::from(random.one_in(10));
            let room = (instance.container[axis] + 1).saturating_sub(measure).max(1) + outside;
            random.below(room as usize) as u32
        };
        let marks = some_marks(random, &instance.may_turn);
        let sizes = turned(instance, &marks).items;
        let positions: Vec<Position> = sizes.iter().map(|size| [0, 1, 2].map(|axis| start(random, axis, size[axis]))).collect();
        let fits = fits_by_cells(instance, &positions, &marks);
        let kind = if fits { "tiny halls: checks by cells: yes" } else { "tiny halls: checks by cells: no" };
        let got = (is_feasible(instance, &positions, &marks), library::check(&sheet, &plan_bytes(&positions, &marks)));
        report.same(kind, &(fits, Ok(fits as u32)), &got, || format!("sheet {} positions {positions:?} marks {marks:?}", hexadecimal(&sheet)));
    }
}

/// The size with that number: each measure 1 or 2.
fn size(number: usize) -> [u32; 3] {
    [0, 1, 2].map(|axis| 1 + (number >> axis & 1) as u32)
}

/// All with up to two items and any orders, all of three items with no order, and some of three with orders.
pub fn all(report: &mut Report, random: &mut Random) {
    let (none, one_way, other, both) = (vec![], vec![(0, 1)], vec![(1, 0)], vec![(0, 1), (1, 0)]);
    for number in 0..8 * 8 * 8 * 8 {
        let container = size(number);
        let items: Vec<[u32; 3]> = (1..4).map(|k| size(number >> (3 * k))).collect();
        let instance = |count: usize, precedences: Vec<(usize, usize)>| Instance {
            container,
            items: items[..count].to_vec(),
            may_turn: vec![false; count],
            lags: vec![0; precedences.len()],
            precedences,
            yard_number: 0,
            walkway: 0,
        };
        if number < 8 {
            one(report, &instance(0, vec![]));
        }
        if number < 64 {
            one(report, &instance(1, vec![]));
        }
        if number < 512 {
            for precedences in [&none, &one_way, &other, &both] {
                one(report, &instance(2, precedences.clone()));
            }
        }
        one(report, &instance(3, vec![]));
        one(report, &instance(3, some_orders(random, &PAIRS)));
    }
}

const PAIRS: [(usize, usize); 6] = [(0, 1), (0, 2), (1, 0), (1, 2), (2, 0), (2, 1)];

/// At least one of these orders.
fn some_orders(random: &mut Random, pairs: &[(usize, usize)]) -> Vec<(usize, usize)> {
    let chosen = random.between(1, (1 << pairs.len()) - 1);
    (0..pairs.len()).filter(|bit| chosen >> bit & 1 == 1).map(|bit| pairs[bit]).collect()
}

/// Halls of up to six shifts and 2 modules: all with two items and one order with a lag of 1 to 4, and some with three items and lags of
/// 0 to 4. Mostly the orders are of one direction, so that there is something to place.
pub fn with_lags(report: &mut Report, random: &mut Random) {
    let measure = |number: usize| 1 + number as u32;
    for number in 0..6 * 2 * 4 * 4 * 2 {
        let container = [measure(number / 6 % 2), 1, measure(number % 6)];
        let items = [number / 12 % 4, number / 48 % 4].map(|way| [measure(way % 2), 1, measure(way / 2)]).to_vec();
        for lag in 1..5 {
            let precedences = vec![[(0, 1), (1, 0)][number / 192]];
            let may_turn = vec![false; 2];
            one(report, &Instance { container, items: items.clone(), may_turn, precedences, lags: vec![lag], yard_number: 0, walkway: 0 });
        }
    }
    for _ in 0..6000 {
        let container = [random.between(1, 2) as u32, 1, random.between(2, 6) as u32];
        let wide = random.between(1, 2);
        let items = (0..3).map(|_| [random.between(1, wide) as u32, 1, random.between(1, 2) as u32]).collect();
        let one_way = random.pick(&[[(0, 1), (0, 2), (1, 2)], [(0, 2), (1, 0), (1, 2)], [(1, 0), (2, 0), (2, 1)]]);
        let precedences = if random.one_in(6) { some_orders(random, &PAIRS) } else { some_orders(random, &one_way) };
        let most = random.between(1, 4);
        let lags = precedences.iter().map(|_| random.below(most + 1) as u32).collect();
        one(report, &Instance { container, items, may_turn: vec![false; 3], precedences, lags, yard_number: 0, walkway: 0 });
    }
}

/// Halls with walkways of 1 to 3: all rows of up to 7 modules on x or on y for one or two shifts with two items, and some floors with two to four
/// items, with orders and lags in half of them.
pub fn with_walkways(report: &mut Report, random: &mut Random) {
    let measure = |number: usize| 1 + number as u32;
    for number in 0..7 * 2 * 4 * 4 * 2 {
        let turned = number / 224 == 1;
        let along = |length: u32, shifts: u32| if turned { [1, length, shifts] } else { [length, 1, shifts] };
        let container = along(measure(number % 7), measure(number / 7 % 2));
        let items = [number / 14 % 4, number / 56 % 4].map(|way| along(measure(way % 2), measure(way / 2))).to_vec();
        for walkway in 1..4 {
            let (may_turn, precedences, lags) = (vec![false; 2], vec![], vec![]);
            let instance = Instance { container, items: items.clone(), may_turn, precedences, lags, yard_number: 0, walkway };
            one(report, &instance);
            by_cells(report, random, &instance, 3);
        }
    }
    let floors = [[5, 1, 2], [4, 2, 1], [3, 3, 1], [4, 3, 1], [3, 3, 2], [1, 6, 2], [2, 4, 2], [7, 1, 1], [3, 1, 4], [2, 1, 5]];
    for _ in 0..5000 {
        let container = random.pick(&floors);
        let cells: u32 = container.iter().product();
        let count = if cells <= 9 { random.between(2, 4) } else { random.between(2, 3) };
        let items: Vec<[u32; 3]> = (0..count).map(|_| container.map(|most| random.between(1, 2.min(most as usize)).min(random.between(1, 2)) as u32)).collect();
        let precedences = match (random.one_in(2), count) {
            (true, 2) => vec![random.pick(&[(0, 1), (1, 0)])],
            (true, _) => some_orders(random, &[(0, 1), (0, 2), (1, 2)]),
            _ => vec![],
        };
        let lags = precedences.iter().map(|_| random.below(3) as u32).collect();
        let instance = Instance { container, items, may_turn: vec![false; count], precedences, lags, yard_number: 0, walkway: random.pick(&[1, 1, 1, 2, 3]) };
        one(report, &instance);
        by_cells(report, random, &instance, 3);
    }
}

/// Floors of up to 3 x 3 with pieces that may turn: all with two pieces of up to 3 x 2 for a shift on one of these floors, and each set of them
/// that may turn; and some with two or three pieces, of one shift or two, with walkways, orders and lags in half of them.
pub fn with_turning(report: &mut Report, random: &mut Random) {
    let floors = [[3, 2, 1], [2, 3, 1], [3, 3, 1], [1, 3, 2], [4, 2, 1]];
    let sizes = [[1, 1, 1], [2, 1, 1], [1, 2, 1], [3, 1, 1], [1, 3, 1], [3, 2, 1], [2, 3, 1], [2, 2, 1]];
    for number in 0..5 * 8 * 8 * 4 {
        let container = floors[number % 5];
        let items = vec![sizes[number / 5 % 8], sizes[number / 40 % 8]];
        let may_turn = vec![number / 320 % 2 == 1, number / 640 == 1];
        let instance = Instance { container, items, may_turn, precedences: vec![], lags: vec![], yard_number: 0, walkway: 0 };
        one(report, &instance);
        by_cells(report, random, &instance, 2);
    }
    let floors = [[3, 2, 1], [2, 3, 1], [2, 2, 2], [3, 1, 2], [1, 3, 2], [4, 1, 1], [3, 3, 1], [2, 4, 1], [1, 2, 4]];
    for _ in 0..3000 {
        let container = random.pick(&floors);
        let cells: u32 = container.iter().product();
        let count = if cells <= 6 { random.between(2, 3) } else { 2 };
        let most = [3, 2, 2.min(container[2] as usize)];
        let items: Vec<[u32; 3]> = (0..count).map(|_| most.map(|most| random.between(1, most) as u32)).collect();
        let precedences = match (random.one_in(3), count) {
            (true, 2) => vec![random.pick(&[(0, 1), (1, 0)])],
            (true, _) => some_orders(random, &[(0, 1), (0, 2), (1, 2)]),
            _ => vec![],
        };
        let lags = precedences.iter().map(|_| random.below(2) as u32).collect();
        let may_turn = (0..count).map(|_| !random.one_in(3)).collect();
        let instance = Instance { container, items, may_turn, precedences, lags, yard_number: 0, walkway: random.pick(&[0, 0, 1]) };
        one(report, &instance);
        by_cells(report, random, &instance, 3);
    }
}
