//! Document 01's table of small halls, sheets on which rule 3 tells, sheets with lags, measures about the greatest, sheets with a walkway, with pieces
//! that may turn, and sheets from a file with their answers and steps.

use crate::library;
use crate::parts;
use crate::random::Random;
use crate::reference::bytes::{self, CHOICE_AT, NOTE_BYTES, PIECE_BYTES};
use crate::reference::sheet::{self, Instance};
use crate::report::{hexadecimal, Report};

type Sizes = &'static [[u32; 3]];

/// Container, items, precedences; what is returned, steps, starts of the plan in 2 bytes each.
type Row = ([u32; 3], Sizes, &'static [(usize, usize)], u32, u32, &'static [u8]);

const UNIT: [u32; 3] = [1, 1, 1];
const ORDERED: Sizes = &[[2, 1, 1], UNIT];
const BOXES: Sizes = &[[58, 1, 20], [99, 1, 3], [7, 1, 53], [11, 1, 90], [26, 1, 65]];
const BOX_ORDERS: &[(usize, usize)] = &[(1, 3), (1, 4), (2, 0), (2, 1), (2, 3), (3, 0), (4, 3)];
const BOX_PLAN: &[u8] = &[
    0, 0, 0, 0, 211, 0, 0, 0, 0, 0, 53, 0, 0, 0, 0, 0, 0, 0, 0, 0, 0, 0, 121, 0, 0, 0, 0, 0, 56, 0,
];

const ROWS: &[Row] = &[
    (UNIT, &[], &[], 1, 1, &[]),
    ([2, 1, 2], ORDERED, &[(1, 0)], 1, 1, &[0, 0, 0, 0, 1, 0, 0, 0, 0, 0, 0, 0]),
    ([2, 1, 2], ORDERED, &[], 1, 2, &[0, 0, 0, 0, 0, 0, 0, 0, 0, 0, 1, 0]),
    ([2, 1, 1], ORDERED, &[(1, 0)], 2, 1, &[]),
    (UNIT, &[[2, 1, 1]], &[], 2, 1, &[]),
    (UNIT, &[UNIT], &[], 1, 1, &[0, 0, 0, 0, 0, 0]),
    ([2, 2, 2], &[UNIT, UNIT], &[], 1, 3, &[0, 0, 0, 0, 0, 0, 1, 0, 0, 0, 0, 0]),
    ([2, 1, 1], &[UNIT, UNIT, UNIT], &[], 2, 3, &[]),
    ([3, 1, 3], &[UNIT, UNIT, UNIT], &[(0, 1), (1, 2), (2, 0)], 2, 1, &[]),
    ([100, 1, 231], BOXES, BOX_ORDERS, 1, 1, BOX_PLAN),
    ([100, 1, 230], BOXES, BOX_ORDERS, 2, 1, &[]),
];

/// Rule 3 strikes more than 000's D1, which asks for a known overlap: D1 in its place takes 287 and 427 steps.
const RULE_3_ROWS: &[Row] = &[
    ([9, 4, 7], &[[1, 2, 1], [2, 2, 2], [2, 3, 3], [4, 3, 5], [4, 3, 5]], &[(0, 2)], 2, 275, &[]),
    ([8, 1, 4], &[UNIT, [3, 1, 1], UNIT, [3, 1, 3], [3, 1, 3], [3, 1, 3]], &[(1, 0)], 2, 423, &[]),
];

/// Sheets with lags, worked out by hand. On y nothing but overlap is possible, on x neither where the hall is 1 wide; then rule 1 strikes
/// overlap on t too, and where the orders settle each pair one step says placed.
///
/// Three units one after another in 7 shifts: 1 is set 1 shift after 0's end, at 1 + 1 = 2. The row 0, 1, 2 has the total
/// 1 + 1 + 1 + 0 + 1 = 4, but the row 0, 2 has 1 + 5 + 1 = 7: 2 starts at 6. In 6 shifts rule 5 strikes "0 before 2", the last word.
///
/// Three units and the order 0, 1 with lag 1. In 3 shifts the row 0, 1 has all of them: rule 5 strikes "1 before 2" (3 + 1) and "2 before 0"
/// (1 + 3). So 2 stands between, at 1, where no lag counts: 0, 2 and 2, 1 are no orders. In 4 shifts neither is struck: the first turns at
/// 0, 2 and at 1, 2 put 2 last, at 1 + 1 + 1 = 3, and the third step says placed. In 2 shifts 1 + 1 + 1 is too much.
///
/// The same in a hall 2 wide, 3 shifts: 2 goes beside 0. Three turns: x of 0, 2 without overlap, then 0 before 2; x of 1, 2 without
/// overlap, where "2 before 1" is struck since 0, 2 and 1 would need 3 modules. On t 2 has no order and nothing before it.
///
/// In a hall 3 wide, 4 shifts, 1 stands all shifts beside 0 and 2, whose order has lag 2. The first turns put 0 before 1 and 1 before 2 on
/// x, so 0 is before 2 there too; but the lag counts on t alone: 0, 1, 2 take 3 modules, and 2 is set at 1 + 2 = 3.
///
/// An order that only follows from others has no lag: 0, 1 with lag 2 and 1, 2 with lag 0 take 1 + 2 + 1 + 0 + 1 = 5.
///
/// Orders 0, 2 with lag 3, and 1, 2 with lag 0: 2 is last, at 4 after 0's lag; 0 and 1 in turn, 0 first, so that 1 is at 1. Rule 5 strikes
/// "1 before 0" in 5 shifts, since 1 + 1 + 3 + 1 = 6; in 6 it leaves it, and the first turn takes the other way.
const LAG_ROWS: &[(Row, &[u32])] = &[
    (([1, 1, 7], &[UNIT; 3], &[(0, 1), (0, 2), (1, 2)], 1, 1, &[0, 0, 0, 0, 0, 0, 0, 0, 0, 0, 2, 0, 0, 0, 0, 0, 6, 0]), &[1, 5, 0]),
    (([1, 1, 6], &[UNIT; 3], &[(0, 1), (0, 2), (1, 2)], 2, 1, &[]), &[1, 5, 0]),
    (([1, 1, 4], &[UNIT; 3], &[(0, 1)], 1, 3, &[0, 0, 0, 0, 0, 0, 0, 0, 0, 0, 2, 0, 0, 0, 0, 0, 3, 0]), &[1]),
    (([1, 1, 3], &[UNIT; 3], &[(0, 1)], 1, 1, &[0, 0, 0, 0, 0, 0, 0, 0, 0, 0, 2, 0, 0, 0, 0, 0, 1, 0]), &[1]),
    (([1, 1, 2], &[UNIT; 3], &[(0, 1)], 2, 1, &[]), &[1]),
    (([2, 1, 3], &[UNIT; 3], &[(0, 1)], 1, 4, &[0, 0, 0, 0, 0, 0, 0, 0, 0, 0, 2, 0, 1, 0, 0, 0, 0, 0]), &[1]),
    (([3, 1, 4], &[UNIT, [1, 1, 4], UNIT], &[(0, 2)], 1, 3, &[0, 0, 0, 0, 0, 0, 1, 0, 0, 0, 0, 0, 2, 0, 0, 0, 3, 0]), &[2]),
    (([1, 1, 5], &[UNIT; 3], &[(0, 1), (1, 2)], 1, 1, &[0, 0, 0, 0, 0, 0, 0, 0, 0, 0, 3, 0, 0, 0, 0, 0, 4, 0]), &[2, 0]),
    (([1, 1, 4], &[UNIT; 3], &[(0, 1), (1, 2)], 2, 1, &[]), &[2, 0]),
    (([1, 1, 5], &[UNIT; 3], &[(0, 2), (1, 2)], 1, 1, &[0, 0, 0, 0, 0, 0, 0, 0, 0, 0, 1, 0, 0, 0, 0, 0, 4, 0]), &[3, 0]),
    (([1, 1, 6], &[UNIT; 3], &[(0, 2), (1, 2)], 1, 2, &[0, 0, 0, 0, 0, 0, 0, 0, 0, 0, 1, 0, 0, 0, 0, 0, 4, 0]), &[3, 0]),
    // The printed example with lag 2: 1 ends at 1, and 0 is set at 3.
    (([2, 1, 4], ORDERED, &[(1, 0)], 1, 1, &[0, 0, 0, 0, 3, 0, 0, 0, 0, 0, 0, 0]), &[2]),
    (([2, 1, 3], ORDERED, &[(1, 0)], 2, 1, &[]), &[2]),
    // Lags of 128 and 255 are 128 and 255: 1 + 128 + 1 and 1 + 255 + 1.
    (([1, 1, 130], &[UNIT; 2], &[(0, 1)], 1, 1, &[0, 0, 0, 0, 0, 0, 0, 0, 0, 0, 129, 0]), &[128]),
    (([1, 1, 129], &[UNIT; 2], &[(0, 1)], 2, 1, &[]), &[128]),
    (([1, 1, 257], &[UNIT; 2], &[(0, 1)], 1, 1, &[0, 0, 0, 0, 0, 0, 0, 0, 0, 0, 0, 1]), &[255]),
    (([1, 1, 256], &[UNIT; 2], &[(0, 1)], 2, 1, &[]), &[255]),
    // 3,584 + 255 + 256 = 4,095, and 1 starts at 3,839 = 255 + 256 * 14; one more is too much.
    (([1, 1, 4095], &[[1, 1, 3584], [1, 1, 256]], &[(0, 1)], 1, 1, &[0, 0, 0, 0, 0, 0, 0, 0, 0, 0, 255, 14]), &[255]),
    (([1, 1, 4095], &[[1, 1, 3585], [1, 1, 256]], &[(0, 1)], 2, 1, &[]), &[255]),
    // A circle: nothing fits, in however many shifts.
    (([3, 1, 99], &[UNIT; 3], &[(0, 1), (1, 2), (2, 0)], 2, 1, &[]), &[1, 0, 0]),
];

/// The first sheet of these with other starts, and whether they fit: 1 is due at 2, and 2 at 6 and after 1's end.
const LAG_PLANS: &[([u8; 3], u32)] = &[
    ([0, 2, 6], 1),
    ([0, 1, 6], 0),
    ([0, 2, 5], 0),
    ([0, 5, 6], 1),
    ([0, 6, 6], 0),
    ([0, 2, 7], 0),
    ([1, 3, 6], 0),
];

/// The lag field's refusals, and the order of checks about it.
const LAGS_REFUSED: &[(&[u8], u32, usize)] = &[
    // An empty field, before anything that follows it
    (&[0x40, 0], 11, 1),
    (&[0x40, 1], 11, 1),
    (&[0x60], 1, 1),
    (&[0x60, 0, 0], 3, 1),
    (&[0x60, 1, 0], 11, 3),
    (&[0x48, 1, 0], 11, 3),
    (&[0x48, 1, 0, 5], 11, 3),
    (&[0x48, 1], 1, 2),
    // A field of one lag: cut, 0, with a byte after it
    (&[0x58, 2, 0, 0, 1, 0, 1], 1, 7),
    (&[0x58, 2, 0, 0, 1, 0, 1, 0], 11, 7),
    (&[0x58, 2, 0, 0, 1, 0, 1, 0, 0], 11, 7),
    (&[0x58, 2, 0, 0, 1, 0, 1, 0, 9], 11, 7),
    (&[0x58, 2, 0, 0, 1, 0, 1, 1, 0], 7, 8),
    // A field of two, cut after a 0 and after a 1; two zeros
    (&[0x58, 2, 0, 0, 2, 0, 1, 1, 0, 0], 1, 10),
    (&[0x58, 2, 0, 0, 2, 0, 1, 1, 0, 1], 1, 10),
    (&[0x58, 2, 0, 0, 2, 0, 1, 1, 0, 0, 0], 11, 9),
    // After the yard number, which is judged first
    (&[0x78, 2, 0, 0, 1, 0, 1, 0, 0, 5], 3, 7),
    (&[0x78, 2, 0, 0, 1, 0, 1, 7, 0, 0], 11, 9),
    (&[0x78, 2, 0, 0, 1, 0, 1, 7, 0], 1, 9),
];

const MOST: [u32; 3] = [4095; 3];
const CHAIN: &[(usize, usize)] = &[(0, 1), (1, 2), (2, 3), (3, 4), (4, 5), (5, 6), (6, 7), (7, 8), (8, 9)];

/// Halls of 4,095. A piece as large as the hall, and larger on each axis; ten of them, which take 40,950 and with lags of 255 43,245. Two
/// pieces one after another, 2,047 + 2,048 = 4,095: with the order 0, 1 at once, and on x, where the first turn puts 0 first; 4,096 is too
/// much.
const GREATEST_ROWS: &[(Row, &[u32])] = &[
    ((MOST, &[MOST], &[], 1, 1, &[0; 6]), &[]),
    (([4094, 4095, 4095], &[MOST], &[], 2, 1, &[]), &[]),
    (([4095, 4094, 4095], &[MOST], &[], 2, 1, &[]), &[]),
    (([4095, 4095, 4094], &[MOST], &[], 2, 1, &[]), &[]),
    ((MOST, &[MOST; 10], &[], 2, 1, &[]), &[]),
    ((MOST, &[MOST; 10], CHAIN, 2, 1, &[]), &[0; 9]),
    ((MOST, &[MOST; 10], CHAIN, 2, 1, &[]), &[255; 9]),
    (([1, 1, 4095], &[[1, 1, 2047], [1, 1, 2048]], &[(0, 1)], 1, 1, &[0, 0, 0, 0, 0, 0, 0, 0, 0, 0, 255, 7]), &[0]),
    (([1, 1, 4095], &[[1, 1, 2048]; 2], &[(0, 1)], 2, 1, &[]), &[0]),
    (([4095, 1, 1], &[[2047, 1, 1], [2048, 1, 1]], &[], 1, 2, &[0, 0, 0, 0, 0, 0, 255, 7, 0, 0, 0, 0]), &[]),
    (([4095, 1, 1], &[[2048, 1, 1]; 2], &[], 2, 1, &[]), &[]),
];

/// Measures of 4,096 and more, and the order of checks about them.
const GREATEST_REFUSED: &[(&[u8], u32, usize)] = &[
    // Each place, the low byte first
    (&[1, 0, 0x10], 12, 1),
    (&[2, 0xFF, 0xFF], 12, 1),
    (&[4, 0, 0x80], 12, 1),
    (&[7, 0xFF, 0x0F, 0, 0x10, 2, 0], 12, 3),
    (&[7, 0xFF, 0x0F, 0xFF, 0x0F, 0, 0x10], 12, 5),
    (&[8, 1, 1, 0, 0x10], 12, 3),
    (&[8, 1, 2, 0x0F, 0xFF], 12, 3),
    (&[8, 1, 4, 1, 0x10], 12, 3),
    (&[8, 2, 0, 7, 0xFF, 0x0F, 0xFF, 0x0F, 0, 0x10], 12, 8),
    (&[8, 2, 1, 0xFF, 0x0F, 1, 0, 0x10], 12, 6),
    // A byte that is missing: of this field, and of a later one
    (&[1, 0xFF], 1, 2),
    (&[1, 0x10], 1, 2),
    (&[8, 1, 1, 0xFF], 1, 4),
    (&[3, 0, 0x10], 12, 1),
    (&[3, 0xFF, 0x0F, 0], 1, 4),
    // 3 in an earlier field, and in a later one
    (&[3, 1, 0, 0, 0x10], 3, 1),
    (&[3, 0, 0x10, 0, 0], 12, 1),
    (&[9, 0, 0x10, 1, 1, 1, 0], 12, 1),
    (&[9, 1, 0, 1, 1, 0, 0x10], 3, 1),
    (&[8, 2, 1, 0, 0x10, 1, 1, 0], 12, 3),
    (&[8, 2, 1, 1, 0, 1, 0, 0x10], 3, 3),
    // 2, 4, 5, 7 and 11
    (&[0x81, 0, 0x10], 12, 1),
    (&[8, 1, 0x11, 0, 0x10], 2, 2),
    (&[8, 1, 9, 0, 0x10], 12, 3),
    (&[8, 2, 1, 0, 0x10, 8], 12, 3),
    (&[9, 0, 0x10, 0], 12, 1),
    (&[9, 0xFF, 0x0F, 0], 4, 3),
    (&[0x18, 2, 0, 2, 0, 0x10, 1, 1, 1], 12, 4),
    (&[0x18, 2, 0, 2, 0xFF, 0x0F, 1, 1, 1], 5, 7),
    (&[1, 0, 0x10, 0], 12, 1),
    (&[1, 0xFF, 0x0F, 0], 7, 3),
    (&[0x41, 0, 0x10], 12, 1),
    (&[0x41, 0xFF, 0x0F], 11, 3),
    // The yard number 0 is still 3, after the hall
    (&[0x21, 0, 0x10, 0, 0], 12, 1),
    (&[0x21, 0xFF, 0x0F, 0, 0], 3, 3),
];

/// Sheets that read: measures of 4,095 and less, yard numbers above it.
const GREATEST_READ: &[&[u8]] = &[
    &[1, 0xFE, 0x0F],
    &[1, 0xFF, 0x0F],
    &[2, 0xFF, 0x0F],
    &[4, 0xFF, 0x0F],
    &[8, 1, 1, 0xFF, 0x0F],
    &[8, 1, 2, 0xFF, 0x0F],
    &[8, 1, 4, 0xFF, 0x0F],
    &[1, 0x10, 0],
    &[1, 0x10, 0x0F],
    &[0x20, 0, 0x10],
    &[0x20, 0x88, 0x13],
    &[0x21, 0xFF, 0x0F, 0xFF, 0xFF],
    &[0x58, 2, 4, 0xFF, 0x0F, 0, 1, 0, 1, 0xFF],
];

/// Sheets with a walkway, worked out by hand. In a hall 1 deep and 1 shift long nothing but overlap is possible on y and t, so rule 1 strikes it
/// on x.
///
/// Two pieces of 4 modules: in 8 they touch, and the first turn puts 0 first. With a walkway of 1 rule 5's sum is 4 + 1 + 4 = 9 either way: in 8
/// all three words are struck on x, in 9 none but overlap. In 8 with a second shift overlap is known on x and y, so one has to be before the
/// other on t, where no walkway counts: the first turn puts 0 first, at t 0, and 1 starts at t 1, both at x 0. With the order 1, 0 no turn is
/// needed.
///
/// Two units on a floor of 3 x 3: the first turn strikes overlap on x, the second puts 0 first: x 0 and 2. On 2 x 3, 1 + 1 + 1 is too much for
/// x, so overlap is struck on y; on 2 x 2 with two shifts it is struck on t.
///
/// Three units in a row with a walkway of 1 take 3 + 2 = 5 modules, with one of 2 they take 3 + 4 = 7. In 5 each pair takes a turn: the chain 0, 1
/// has the total 3, and 2 before 0 would take 1 + 1 + 3 = 5. So the fourth step says placed, at 0, 2 and 4. In 4 the first turn puts 0 before 1: 1
/// before 2 and 2 before 0 take 5 and are struck, which leaves 2 between the two, where it takes 3 + 1 + 1 = 5. The same the other way round: the
/// third step says none. In 2 no two have room beside one another: none at once.
///
/// Two units with a walkway of 128 take 130 modules, with 255 they take 257. 1,920 + 255 + 1,920 = 4,095, and 2,175 = 127 + 256 * 8.
///
/// With lags, which count on t alone. Two pieces of 4 modules in 8, order 0, 1 with lag 2: 1 + 2 + 1 = 4 shifts. Three units and the order 0, 1 with
/// lag 1, in 3 shifts: on a floor of 3 modules 2 goes beside 0, as above on a floor of 2 without a walkway; on one of 2 it has no room there, and
/// stands in the lag. On a floor of 5 modules, 4 shifts, 1 stands all shifts beside 0 and 2, whose order has lag 2: 0, 1, 2 take 3 + 2 modules.
///
/// At the walls nothing is needed: a piece as large as the hall, whatever the walkway.
const WALKWAY_ROWS: &[(u32, Row, &[u32])] = &[
    (0, ([8, 1, 1], &[[4, 1, 1]; 2], &[], 1, 2, &[0, 0, 0, 0, 0, 0, 4, 0, 0, 0, 0, 0]), &[]),
    (1, ([8, 1, 1], &[[4, 1, 1]; 2], &[], 2, 1, &[]), &[]),
    (1, ([9, 1, 1], &[[4, 1, 1]; 2], &[], 1, 2, &[0, 0, 0, 0, 0, 0, 5, 0, 0, 0, 0, 0]), &[]),
    (2, ([9, 1, 1], &[[4, 1, 1]; 2], &[], 2, 1, &[]), &[]),
    (1, ([8, 1, 2], &[[4, 1, 1]; 2], &[], 1, 2, &[0, 0, 0, 0, 0, 0, 0, 0, 0, 0, 1, 0]), &[]),
    (1, ([8, 1, 2], &[[4, 1, 1]; 2], &[(1, 0)], 1, 1, &[0, 0, 0, 0, 1, 0, 0, 0, 0, 0, 0, 0]), &[0]),
    (1, ([8, 1, 1], &[[4, 1, 1]; 2], &[(1, 0)], 2, 1, &[]), &[0]),
    (1, ([1, 8, 1], &[[1, 4, 1]; 2], &[], 2, 1, &[]), &[]),
    (1, ([1, 9, 1], &[[1, 4, 1]; 2], &[], 1, 2, &[0, 0, 0, 0, 0, 0, 0, 0, 5, 0, 0, 0]), &[]),
    (1, ([3, 3, 1], &[UNIT; 2], &[], 1, 3, &[0, 0, 0, 0, 0, 0, 2, 0, 0, 0, 0, 0]), &[]),
    (1, ([2, 3, 1], &[UNIT; 2], &[], 1, 2, &[0, 0, 0, 0, 0, 0, 0, 0, 2, 0, 0, 0]), &[]),
    (1, ([2, 2, 2], &[UNIT; 2], &[], 1, 2, &[0, 0, 0, 0, 0, 0, 0, 0, 0, 0, 1, 0]), &[]),
    (1, ([2, 2, 1], &[UNIT; 2], &[], 2, 1, &[]), &[]),
    (1, ([5, 1, 1], &[UNIT; 3], &[], 1, 4, &[0, 0, 0, 0, 0, 0, 2, 0, 0, 0, 0, 0, 4, 0, 0, 0, 0, 0]), &[]),
    (1, ([4, 1, 1], &[UNIT; 3], &[], 2, 3, &[]), &[]),
    (1, ([1, 5, 1], &[UNIT; 3], &[], 1, 4, &[0, 0, 0, 0, 0, 0, 0, 0, 2, 0, 0, 0, 0, 0, 4, 0, 0, 0]), &[]),
    (1, ([1, 4, 1], &[UNIT; 3], &[], 2, 3, &[]), &[]),
    (2, ([7, 1, 1], &[UNIT; 3], &[], 1, 4, &[0, 0, 0, 0, 0, 0, 3, 0, 0, 0, 0, 0, 6, 0, 0, 0, 0, 0]), &[]),
    (2, ([6, 1, 1], &[UNIT; 3], &[], 2, 3, &[]), &[]),
    (1, ([2, 1, 1], &[UNIT; 3], &[], 2, 1, &[]), &[]),
    (128, ([130, 1, 1], &[UNIT; 2], &[], 1, 2, &[0, 0, 0, 0, 0, 0, 129, 0, 0, 0, 0, 0]), &[]),
    (128, ([129, 1, 1], &[UNIT; 2], &[], 2, 1, &[]), &[]),
    (255, ([257, 1, 1], &[UNIT; 2], &[], 1, 2, &[0, 0, 0, 0, 0, 0, 0, 1, 0, 0, 0, 0]), &[]),
    (255, ([256, 1, 1], &[UNIT; 2], &[], 2, 1, &[]), &[]),
    (255, ([4095, 1, 1], &[[1920, 1, 1]; 2], &[], 1, 2, &[0, 0, 0, 0, 0, 0, 127, 8, 0, 0, 0, 0]), &[]),
    (255, ([4095, 1, 1], &[[1921, 1, 1], [1920, 1, 1]], &[], 2, 1, &[]), &[]),
    (255, (MOST, &[MOST; 10], CHAIN, 2, 1, &[]), &[255; 9]),
    (1, ([8, 1, 4], &[[4, 1, 1]; 2], &[(0, 1)], 1, 1, &[0, 0, 0, 0, 0, 0, 0, 0, 0, 0, 3, 0]), &[2]),
    (1, ([8, 1, 3], &[[4, 1, 1]; 2], &[(0, 1)], 2, 1, &[]), &[2]),
    (1, ([3, 1, 3], &[UNIT; 3], &[(0, 1)], 1, 4, &[0, 0, 0, 0, 0, 0, 0, 0, 0, 0, 2, 0, 2, 0, 0, 0, 0, 0]), &[1]),
    (1, ([2, 1, 3], &[UNIT; 3], &[(0, 1)], 1, 1, &[0, 0, 0, 0, 0, 0, 0, 0, 0, 0, 2, 0, 0, 0, 0, 0, 1, 0]), &[1]),
    (1, ([5, 1, 4], &[UNIT, [1, 1, 4], UNIT], &[(0, 2)], 1, 3, &[0, 0, 0, 0, 0, 0, 2, 0, 0, 0, 0, 0, 4, 0, 0, 0, 3, 0]), &[2]),
    (255, ([4, 3, 2], &[[4, 3, 2]], &[], 1, 1, &[0; 6]), &[]),
    (255, ([4, 3, 2], &[[5, 3, 2]], &[], 2, 1, &[]), &[]),
    (255, (UNIT, &[], &[], 1, 1, &[]), &[]),
];

/// Two cubes of 2 in a hall of 9 with a walkway of 3, the first at 0, 0, 0: starts of the second, and whether they fit. On x and y 3 modules are
/// between 2 and 5; on t it may touch, and then nothing is needed on the floor. One of the axes is enough.
const WALKWAY_PLANS: &[([u8; 3], u32)] = &[
    ([5, 0, 0], 1),
    ([4, 0, 0], 0),
    ([2, 0, 0], 0),
    ([0, 5, 0], 1),
    ([0, 4, 0], 0),
    ([0, 2, 1], 0),
    ([4, 4, 0], 0),
    ([5, 4, 1], 1),
    ([4, 5, 1], 1),
    ([2, 2, 2], 1),
    ([0, 0, 2], 1),
    ([0, 0, 1], 0),
    ([7, 7, 7], 1),
    ([8, 0, 0], 0),
    ([0, 0, 8], 0),
];

/// The walkway's refusals, and the order of checks about it.
const WALKWAYS_REFUSED: &[(&[u8], u32, usize)] = &[
    // Alone: missing, 0, with bytes after it, without its bit
    (&[0x80], 1, 1),
    (&[0x80, 0], 3, 1),
    (&[0x80, 0, 5], 3, 1),
    (&[0x80, 5, 0], 7, 2),
    (&[0x80, 5, 5], 7, 2),
    (&[0, 5], 7, 1),
    // After the hall, the pieces, the orders, the yard number
    (&[0x81, 2, 0], 1, 3),
    (&[0x81, 2, 0, 0], 3, 3),
    (&[0x81, 1, 0, 0], 3, 1),
    (&[0x88, 1, 0], 1, 3),
    (&[0x88, 1, 0, 0], 3, 3),
    (&[0x88, 0, 5], 4, 1),
    (&[0x98, 2, 0, 0, 1, 0, 1], 1, 7),
    (&[0x98, 2, 0, 0, 1, 0, 1, 0], 3, 7),
    (&[0x98, 2, 0, 0, 1, 1, 1, 0], 5, 5),
    (&[0x98, 2, 0, 0, 2, 0, 1, 0, 1, 0], 6, 7),
    (&[0xA0, 5, 0], 1, 3),
    (&[0xA0, 0, 0, 0], 3, 1),
    (&[0xA0, 5, 0, 0], 3, 3),
    // Bit 7 of a piece's map has no meaning
    (&[0x88, 1, 0x80, 5], 2, 2),
    (&[8, 1, 0x80], 2, 2),
    // An empty lag field, before anything that follows it
    (&[0xC0], 11, 1),
    (&[0xC0, 0], 11, 1),
    (&[0xC0, 5], 11, 1),
    (&[0xC0, 5, 5], 11, 1),
    (&[0xE0, 5, 0, 5], 11, 3),
    (&[0xC8, 1, 0, 5], 11, 3),
    // After the lags: of zeros, cut, whole
    (&[0xD8, 2, 0, 0, 1, 0, 1, 0, 5], 11, 7),
    (&[0xD8, 2, 0, 0, 1, 0, 1, 0, 0], 11, 7),
    (&[0xD8, 2, 0, 0, 1, 0, 1, 5], 1, 8),
    (&[0xD8, 2, 0, 0, 1, 0, 1, 5, 0], 3, 8),
    (&[0xD8, 2, 0, 0, 1, 0, 1, 5, 5, 0], 7, 9),
    (&[0xD8, 2, 0, 0, 2, 0, 1, 1, 0, 5, 5], 1, 11),
    (&[0xF8, 2, 0, 0, 1, 0, 1, 5, 0, 5], 1, 10),
    (&[0xF8, 2, 0, 0, 1, 0, 1, 5, 0, 5, 0], 3, 10),
    (&[0xFF], 1, 1),
];

/// Sheets that read, with the walkway.
const WALKWAYS_READ: &[(&[u8], u32)] = &[
    (&[0], 0),
    (&[0x80, 1], 1),
    (&[0x80, 127], 127),
    (&[0x80, 128], 128),
    (&[0x80, 255], 255),
    (&[0x87, 2, 0, 3, 0, 4, 0, 5], 5),
    (&[0x88, 1, 0, 9], 9),
    (&[0x98, 2, 0, 0, 1, 0, 1, 3], 3),
    (&[0xA0, 5, 0, 3], 3),
    (&[0xA0, 3, 5, 1], 1),
    (&[0xD8, 2, 0, 0, 1, 0, 1, 5, 3], 3),
    (&[0xD8, 2, 0, 0, 2, 0, 1, 1, 0, 5, 0, 7], 7),
    (&[0xF8, 2, 0, 0, 1, 0, 1, 5, 6, 7, 8], 8),
];

/// Two of 2 x 1 in halls of these measures: with a walkway on a floor of 3 x 2, and one after the other in a hall 1 x 2.
const SLABS: Sizes = &[[2, 1, 1]; 2];
const UNITS_10: Sizes = &[UNIT; 10];
const NINTH_WIDE: Sizes = &[UNIT, UNIT, UNIT, UNIT, UNIT, UNIT, UNIT, UNIT, [2, 1, 1]];
const TENTH_WIDE: Sizes = &[UNIT, UNIT, UNIT, UNIT, UNIT, UNIT, UNIT, UNIT, UNIT, [2, 1, 1]];
const NINTH_WIDER: Sizes = &[UNIT, UNIT, UNIT, UNIT, UNIT, UNIT, UNIT, UNIT, [3, 1, 1]];
const TENTH_WIDER: Sizes = &[UNIT, UNIT, UNIT, UNIT, UNIT, UNIT, UNIT, UNIT, UNIT, [3, 1, 1]];
const TWO_WIDE: Sizes = &[UNIT, UNIT, UNIT, UNIT, UNIT, UNIT, UNIT, [2, 1, 1], [2, 1, 1], UNIT];
const IN_A_ROW: &[u8] = &[
    0, 0, 0, 0, 0, 0, 0, 0, 0, 0, 1, 0, 0, 0, 0, 0, 2, 0, 0, 0, 0, 0, 3, 0, 0, 0, 0, 0, 4, 0, 0, 0, 0, 0, 5, 0, 0, 0, 0, 0, 6, 0, 0, 0, 0, 0, 7, 0,
    0, 0, 0, 0, 8, 0, 0, 0, 0, 0, 9, 0,
];

/// Sheets with pieces that may turn, worked out by hand: the row, lags, walkway, which pieces may turn, and the marks of the plan. A choice in which a
/// piece is wider or deeper than the hall is contradictory at the opening, and takes the one step that opens the next.
///
/// One piece of 2 x 1 in a hall 1 x 2: choice 0 takes a step, and in choice 1 the next says placed. In a hall 1 x 1 choice 1 says none; so it does
/// where only width and shifts, or depth and shifts, could be exchanged. A square counts: 2 x 2 in a hall 1 x 1 takes 2 steps, with a unit that may turn
/// beside it 4. Where it need not be turned it is not: choice 0 says placed.
///
/// 3 x 1 and 1 x 3 on a floor of 3 x 2 stand along x. Where piece 1 has to be turned, choices 0 and 1 take a step each, and 2 a turn on y, the only axis
/// with room for two, and the step that says placed. Where piece 0 has to be, choice 0 takes a step, and 1 the two. Beside a piece that may not turn, piece 1
/// is the lowest digit: choice 1.
///
/// Three units in a hall 2 wide take 3 steps in document 01; where k of them may turn, as many in each of 2 to the k choices.
///
/// 2 x 1 and 1 x 2 on a floor of 2 x 2: upright there is room for the two neither on x nor on y. With either turned they are alike: where piece 0 is, along
/// y, with both choices 0 and 1 the fork is on x; where piece 1 is, on y. Choice 0 takes a step, choice 1 the two.
///
/// With a walkway of 1, two of 2 x 1 on a floor of 3 x 2: upright they take 5 on x and 3 on y, with one turned 4 on x and 4 on y, with both 3 on x. So
/// choices 0, 1 and 2 take a step each, and 3 a turn and the step that says placed. With a walkway of 2 choice 3 takes a step too, which says none.
///
/// In a hall 1 x 2 two of 2 x 1 are turned, after three steps; with the order 0, 1 and lag 2 they take 1 + 2 + 1 shifts.
///
/// A chain of nine units, the last of them 2 x 1, all of which may turn, in a hall 1 x 2: the last is too wide in choices 0 to 255, and in 256 the next step
/// says placed. Where the last is 3 x 1, it is too wide or too deep in each of the 512 choices. Of ten likewise 512 and 1,024. With 7 and 8 too wide it is the
/// choice 128 + 256 = 384. Nine units that may turn and a tenth that has not to: choice 0.
const TURN_ROWS: &[(Row, &[u32], u32, &str, &str)] = &[
    (([1, 2, 1], &[[2, 1, 1]], &[], 1, 2, &[0; 6]), &[], 0, "1", "1"),
    (([2, 1, 1], &[[1, 2, 1]], &[], 1, 2, &[0; 6]), &[], 0, "1", "1"),
    (([1, 2, 1], &[[2, 1, 1]], &[], 2, 1, &[]), &[], 0, "0", ""),
    (([1, 1, 1], &[[2, 1, 1]], &[], 2, 2, &[]), &[], 0, "1", ""),
    (([1, 1, 2], &[[2, 1, 1]], &[], 2, 2, &[]), &[], 0, "1", ""),
    (([1, 1, 2], &[[1, 2, 1]], &[], 2, 2, &[]), &[], 0, "1", ""),
    (([2, 2, 1], &[[1, 1, 2]], &[], 2, 2, &[]), &[], 0, "1", ""),
    (([1, 1, 1], &[UNIT], &[], 1, 1, &[0; 6]), &[], 0, "1", "0"),
    (([1, 1, 1], &[[2, 2, 1]], &[], 2, 2, &[]), &[], 0, "1", ""),
    (([1, 1, 1], &[[2, 2, 1], UNIT], &[], 2, 4, &[]), &[], 0, "11", ""),
    (([3, 3, 1], &[[3, 1, 1]], &[], 1, 1, &[0; 6]), &[], 0, "1", "0"),
    (([3, 2, 1], &[[3, 1, 1], [1, 3, 1]], &[], 1, 4, &[0, 0, 0, 0, 0, 0, 0, 0, 1, 0, 0, 0]), &[], 0, "11", "01"),
    (([3, 2, 1], &[[1, 3, 1], [3, 1, 1]], &[], 1, 3, &[0, 0, 0, 0, 0, 0, 0, 0, 1, 0, 0, 0]), &[], 0, "11", "10"),
    (([3, 2, 1], &[[3, 1, 1], [1, 3, 1]], &[], 1, 3, &[0, 0, 0, 0, 0, 0, 0, 0, 1, 0, 0, 0]), &[], 0, "01", "01"),
    (([3, 2, 1], &[[3, 1, 1], [1, 3, 1]], &[], 2, 2, &[]), &[], 0, "10", ""),
    (([2, 1, 1], &[UNIT; 3], &[], 2, 6, &[]), &[], 0, "010", ""),
    (([2, 1, 1], &[UNIT; 3], &[], 2, 12, &[]), &[], 0, "101", ""),
    (([2, 1, 1], &[UNIT; 3], &[], 2, 24, &[]), &[], 0, "111", ""),
    (([2, 2, 1], &[[2, 1, 1], [1, 2, 1]], &[], 1, 3, &[0, 0, 0, 0, 0, 0, 1, 0, 0, 0, 0, 0]), &[], 0, "11", "10"),
    (([2, 2, 1], &[[2, 1, 1], [1, 2, 1]], &[], 1, 3, &[0, 0, 0, 0, 0, 0, 0, 0, 1, 0, 0, 0]), &[], 0, "01", "01"),
    (([3, 2, 1], SLABS, &[], 1, 5, &[0, 0, 0, 0, 0, 0, 2, 0, 0, 0, 0, 0]), &[], 1, "11", "11"),
    (([3, 2, 1], SLABS, &[], 2, 4, &[]), &[], 2, "11", ""),
    (([3, 2, 1], SLABS, &[], 2, 2, &[]), &[], 1, "10", ""),
    (([1, 2, 2], SLABS, &[], 1, 5, &[0, 0, 0, 0, 0, 0, 0, 0, 0, 0, 1, 0]), &[], 0, "11", "11"),
    (([1, 2, 4], SLABS, &[(0, 1)], 1, 4, &[0, 0, 0, 0, 0, 0, 0, 0, 0, 0, 3, 0]), &[2], 0, "11", "11"),
    (([1, 2, 3], SLABS, &[(0, 1)], 2, 4, &[]), &[2], 0, "11", ""),
    (([1, 2, 9], NINTH_WIDE, CHAIN_9, 1, 257, IN_A_ROW), &[0; 8], 0, "111111111", "000000001"),
    (([1, 2, 9], NINTH_WIDER, CHAIN_9, 2, 512, &[]), &[0; 8], 0, "111111111", ""),
    (([1, 2, 10], TENTH_WIDE, CHAIN, 1, 513, IN_A_ROW), &[0; 9], 0, "1111111111", "0000000001"),
    (([1, 2, 10], TENTH_WIDER, CHAIN, 2, 1024, &[]), &[0; 9], 0, "1111111111", ""),
    (([1, 2, 10], TWO_WIDE, CHAIN, 1, 385, IN_A_ROW), &[0; 9], 0, "1111111111", "0000000110"),
    (([1, 2, 10], TENTH_WIDE, CHAIN, 1, 2, IN_A_ROW), &[0; 9], 0, "0000000001", "0000000001"),
    (([1, 2, 10], UNITS_10, CHAIN, 1, 1, IN_A_ROW), &[0; 9], 0, "1111111110", ""),
];

const CHAIN_9: &[(usize, usize)] = &[(0, 1), (1, 2), (2, 3), (3, 4), (4, 5), (5, 6), (6, 7), (7, 8)];

/// Pieces of 3 x 1, which may turn, and 2 x 1 in a hall of 3 x 3: whether the second may turn, x, y and mark of each, and what check returns. Turned, the
/// first stands along y, 1 wide; so does the second.
const TURN_PLANS: &[(bool, [[u8; 3]; 2], u32)] = &[
    (true, [[0, 0, 0], [0, 1, 0]], 1),
    (true, [[0, 0, 1], [1, 0, 0]], 1),
    (true, [[0, 0, 1], [1, 0, 1]], 1),
    (true, [[0, 0, 0], [1, 0, 1]], 0),
    (true, [[0, 0, 0], [2, 1, 1]], 1),
    (true, [[0, 0, 0], [2, 1, 0]], 0),
    (true, [[0, 0, 0], [2, 2, 1]], 0),
    (true, [[2, 0, 1], [0, 0, 0]], 1),
    (true, [[2, 0, 0], [0, 0, 0]], 0),
    (true, [[0, 1, 1], [1, 0, 0]], 0),
    (true, [[1, 0, 1], [0, 0, 0]], 0),
    (true, [[1, 0, 1], [0, 0, 1]], 1),
    (false, [[0, 0, 1], [1, 0, 0]], 1),
    (false, [[0, 0, 1], [1, 0, 1]], 113),
    (false, [[0, 0, 0], [0, 0, 1]], 113),
    (true, [[0, 0, 0], [0, 1, 2]], 113),
    (true, [[0, 0, 2], [0, 1, 0]], 113),
    (true, [[0, 0, 255], [0, 1, 1]], 113),
    (true, [[0, 0, 1], [1, 0, 255]], 113),
    (true, [[0, 0, 128], [0, 0, 0]], 113),
    (false, [[0, 0, 0], [0, 1, 3]], 113),
];

/// Bits 3 to 7 of a piece's map, and the order of checks about them.
const TURNS_REFUSED: &[(&[u8], u32, usize)] = &[
    (&[8, 1, 0x10], 2, 2),
    (&[8, 1, 0x18], 2, 2),
    (&[8, 1, 0x28], 2, 2),
    (&[8, 1, 0x48], 2, 2),
    (&[8, 1, 0x88], 2, 2),
    (&[8, 1, 0xF8], 2, 2),
    (&[8, 2, 8, 0x10], 2, 3),
    (&[8, 2, 8], 1, 3),
    // No field: what follows is the next piece, or too much
    (&[8, 1, 8, 0], 7, 3),
    (&[8, 2, 8, 8, 0], 7, 4),
    (&[8, 1, 9], 1, 3),
    (&[8, 1, 9, 2], 1, 4),
    (&[8, 1, 9, 1, 0], 3, 3),
    (&[8, 1, 15, 2, 0, 2, 0], 1, 7),
];

/// Sheets that read, with the pieces that may turn.
const TURNS_READ: &[(&[u8], &[bool])] = &[
    (&[8, 1, 8], &[true]),
    (&[8, 1, 0], &[false]),
    (&[8, 2, 8, 0], &[true, false]),
    (&[8, 2, 0, 8], &[false, true]),
    (&[8, 3, 9, 3, 0, 1, 2, 0, 15, 2, 0, 3, 0, 4, 0], &[true, false, true]),
    (&[0xF8, 2, 8, 8, 1, 0, 1, 5, 6, 7, 8], &[true, true]),
];

const REFUSED: &[(&[u8], u32, usize)] = &[
    (&[1, 1, 0], 3, 1),
    (&[1, 2], 1, 2),
    // Request #101, in place of document 01's 2 0
    (&[0x40], 11, 1),
    (&[0, 0], 7, 1),
    (&[8, 0], 4, 1),
];

/// What search returns from the opening note, with the steps; by the independent implementation and by the library.
fn answers(sheet: &[u8], items: usize, allowance: u32) -> [Result<(u32, u32, Vec<u8>), &'static str>; 2] {
    let (mut note, mut steps, mut plan) = (vec![0; NOTE_BYTES], vec![0; 4], vec![0; PIECE_BYTES * items]);
    let returned = bytes::search(sheet, &mut note, allowance, &mut steps, &mut plan);
    let four = |steps: &[u8]| u32::from_le_bytes([steps[0], steps[1], steps[2], steps[3]]);
    let own = (returned, four(&steps), plan);
    let linked = library::search(sheet, &[0; NOTE_BYTES], allowance, &[0; 4], &vec![0; PIECE_BYTES * items]);
    [Ok(own), linked.and_then(|searched| Ok((searched.returned, four(&searched.steps?), searched.plan?)))]
}

fn row(report: &mut Report, kind: &'static str, one: &Row, lags: Vec<u32>, walkway: u32) {
    turned_row(report, kind, one, lags, walkway, "", "");
}

/// A row whose pieces may turn where `may_turn` has a 1, with the marks of the plan; a text too short has zeros at its end.
fn turned_row(report: &mut Report, kind: &'static str, row: &Row, lags: Vec<u32>, walkway: u32, may_turn: &str, marks: &str) {
    let &(container, items, precedences, returned, steps, starts) = row;
    let (items, precedences) = (items.to_vec(), precedences.to_vec());
    let digit = |text: &str, item: usize| text.as_bytes().get(item) == Some(&b'1');
    let may_turn = (0..items.len()).map(|item| digit(may_turn, item)).collect();
    let sheet = sheet::encode(&Instance { container, items: items.clone(), may_turn, precedences, lags, yard_number: 0, walkway });
    let mut plan = vec![0; PIECE_BYTES * items.len()];
    for item in (0..items.len()).filter(|_| returned == 1) {
        plan[PIECE_BYTES * item..][..6].copy_from_slice(&starts[6 * item..][..6]);
        plan[PIECE_BYTES * item + 6] = u8::from(digit(marks, item));
    }
    for got in answers(&sheet, items.len(), 1_000_000) {
        report.same(kind, &Ok((returned, steps, plan.clone())), &got, || hexadecimal(&sheet));
    }
}

fn rows(report: &mut Report, kind: &'static str, rows: &[Row]) {
    for one in rows {
        row(report, kind, one, vec![0; one.2.len()], 0);
    }
}

fn refusals(report: &mut Report, kind: &'static str, refused: &[(&[u8], u32, usize)]) {
    for &(sheet, number, place) in refused {
        let own = sheet::read(sheet).map_err(|refusal| (refusal.number, refusal.place)).map(|_| ());
        report.same(kind, &Err((number, place)), &own, || hexadecimal(sheet));
        report.same(kind, &Ok((number, place)), &library::read(sheet), || hexadecimal(sheet));
    }
}

/// The rows and refusals above, the longest sheet, and a sheet byte by byte.
pub fn lags(report: &mut Report) {
    let kind = "sheets with lags";
    for (one, lags) in LAG_ROWS {
        row(report, kind, one, lags.to_vec(), 0);
    }
    refusals(report, kind, LAGS_REFUSED);
    let first = [0x5C, 7, 0, 3, 0, 0, 0, 3, 0, 1, 0, 2, 1, 2, 1, 5, 0];
    for (starts, fits) in LAG_PLANS {
        let plan: Vec<u8> = starts.iter().flat_map(|&start| [0, 0, 0, 0, start, 0, 0]).collect();
        report.same(kind, &(*fits, Ok(*fits)), &(bytes::check(&first, &plan), library::check(&first, &plan)), || format!("{starts:?}"));
    }
    // 1 x 1 x 7, three units, orders 0,1 0,2 1,2; yard number 9; lags 1, 5, 0
    let written = [0x7C, 7, 0, 3, 0, 0, 0, 3, 0, 1, 0, 2, 1, 2, 9, 0, 1, 5, 0];
    let read = sheet::read(&written);
    let lags = read.as_ref().map(|instance| (instance.lags.clone(), instance.yard_number, sheet::encode(instance)));
    report.same(kind, &Ok((vec![1, 5, 0], 9, written.to_vec())), &lags, || hexadecimal(&written));
    report.same(kind, &Ok((19, written.to_vec())), &library::rewrite(&written, &[0; 19]), || hexadecimal(&written));
}

/// The rows, plans, refusals and sheets above, and the longest sheet.
pub fn walkways(report: &mut Report) {
    let kind = "sheets with a walkway";
    for (walkway, one, lags) in WALKWAY_ROWS {
        row(report, kind, one, lags.to_vec(), *walkway);
    }
    let cubes = [0x8F, 9, 0, 9, 0, 9, 0, 2, 7, 2, 0, 2, 0, 2, 0, 7, 2, 0, 2, 0, 2, 0, 3];
    for &(second, fits) in WALKWAY_PLANS {
        for starts in [[[0; 3], second], [second, [0; 3]]] {
            let plan: Vec<u8> = starts.iter().flat_map(|&[x, y, t]| [x, 0, y, 0, t, 0, 0]).collect();
            report.same(kind, &(fits, Ok(fits)), &(bytes::check(&cubes, &plan), library::check(&cubes, &plan)), || format!("{starts:?}"));
        }
    }
    refusals(report, kind, WALKWAYS_REFUSED);
    for &(sheet, walkway) in WALKWAYS_READ {
        let own = sheet::read(sheet).map(|instance| (instance.walkway, sheet::encode(&instance)));
        report.same(kind, &Ok((walkway, sheet.to_vec())), &own, || hexadecimal(sheet));
        report.same(kind, &Ok((0, 0)), &library::read(sheet), || hexadecimal(sheet));
        report.same(kind, &Ok((sheet.len(), sheet.to_vec())), &library::rewrite(sheet, &vec![0; sheet.len()]), || hexadecimal(sheet));
    }
    longest(report);
    // An error that was found need not let such searches end.
    if report.differences == 0 {
        ten_in_a_row(report, kind);
    }
}

/// The rows, plans, refusals and sheets above; lists of calls over the choices, split at each step; and notes with choices.
pub fn turning(report: &mut Report) {
    let kind = "sheets with pieces that may turn";
    for (one, lags, walkway, may_turn, marks) in TURN_ROWS {
        turned_row(report, kind, one, lags.to_vec(), *walkway, may_turn, marks);
    }
    for &(may_turn, pieces, returned) in TURN_PLANS {
        let sheet = [0x0B, 3, 0, 3, 0, 2, 9, 3, 0, if may_turn { 9 } else { 1 }, 2, 0];
        let plan: Vec<u8> = pieces.iter().flat_map(|&[x, y, mark]| [x, 0, y, 0, 0, 0, mark]).collect();
        report.same(kind, &(returned, Ok(returned)), &(bytes::check(&sheet, &plan), library::check(&sheet, &plan)), || format!("{pieces:?}"));
        // 8 before 13
        for length in [12, 13, 15, 21] {
            let mut other = plan.clone();
            other.resize(length, 255);
            report.same(kind, &(108, Ok(108)), &(bytes::check(&sheet, &other), library::check(&sheet, &other)), || format!("{pieces:?}"));
        }
    }
    // A square, which may not turn and which may; and 6 bytes, where nothing may turn
    for (map, plan, returned) in [(0, vec![0, 0, 0, 0, 0, 0, 1], 113), (8, vec![0, 0, 0, 0, 0, 0, 1], 1), (0, vec![0; 7], 1), (0, vec![0; 6], 108)] {
        let unit = [8, 1, map];
        report.same(kind, &(returned, Ok(returned)), &(bytes::check(&unit, &plan), library::check(&unit, &plan)), || format!("{map} {plan:?}"));
    }
    refusals(report, kind, TURNS_REFUSED);
    for &(sheet, may_turn) in TURNS_READ {
        let own = sheet::read(sheet).map(|instance| (instance.may_turn.clone(), sheet::encode(&instance)));
        report.same(kind, &Ok((may_turn.to_vec(), sheet.to_vec())), &own, || hexadecimal(sheet));
        report.same(kind, &Ok((0, 0)), &library::read(sheet), || hexadecimal(sheet));
        report.same(kind, &Ok((sheet.len(), sheet.to_vec())), &library::rewrite(sheet, &vec![0; sheet.len()]), || hexadecimal(sheet));
        parts::records(report, sheet);
    }
    // An error that was found need not let such searches end.
    if report.differences == 0 {
        over_choices(report);
    }
    choices_of_notes(report);
}

/// The notes of whole runs, told by hand: states, rows and choices after each step. Three units in a hall 2 wide, of which 0 and 2 may turn: in each choice an
/// empty row, first, second. And nine or ten pieces in a row: an empty row in each choice, up to one above 255.
fn over_choices(report: &mut Report) {
    let kind = "notes over the choices";
    let mut three: Vec<(u8, Vec<u8>, u32)> = (0..12).map(|step| (0, [vec![], vec![0], vec![1]][step % 3].clone(), step as u32 / 3)).collect();
    three.push((1, vec![], 3));
    let in_a_row = |last: u32, state: u8| (0..=last).map(|choice| (0, vec![], choice)).chain([(state, vec![], last)]).collect::<Vec<_>>();
    let row = |items: u8, width: u8| {
        let mut sheet = vec![0x1E, 2, 0, items, 0, items];
        sheet.resize(5 + items as usize, 8);
        sheet.extend([9, width, 0, items - 1]);
        sheet.extend((1..items).flat_map(|item| [item - 1, item]));
        sheet
    };
    let runs = [
        (vec![9, 2, 0, 3, 8, 0, 8], 3, three),
        (row(9, 2), 9, in_a_row(256, 2)),
        (row(9, 3), 9, in_a_row(511, 1)),
        (row(10, 2), 10, in_a_row(512, 2)),
        (row(10, 3), 10, in_a_row(1023, 1)),
    ];
    for (sheet, items, expected) in runs {
        let run = parts::Run::new(&sheet::read(&sheet).expect("a sheet"), 400);
        let by_hand: Vec<Vec<u8>> = expected.iter().map(|(state, row, choice)| note(*state, row, *choice)).collect();
        report.same(kind, &by_hand, &run.notes, || hexadecimal(&sheet));
        let random = &mut Random::new(1, 0);
        parts::list_of_calls(report, random, &sheet, items, &run, true);
        parts::split_lists(report, random, &sheet, items, &run, 20);
    }
}

fn note(state: u8, row: &[u8], choice: u32) -> Vec<u8> {
    let mut note = vec![0; NOTE_BYTES];
    (note[0], note[1]) = (state, row.len() as u8);
    note[3..3 + row.len()].copy_from_slice(row);
    note[CHOICE_AT..].copy_from_slice(&(choice as u16).to_le_bytes());
    note
}

/// Notes by hand on 3 x 1 and 1 x 3, which may both turn, in a hall 3 x 2: state, row, choice, and what a call with no steps returns. Choices 0, 1 and 3 are
/// contradictory, so that their rows are empty; in 2 there is a fork, after which it is placed either way. The last is 3. Then the same sheet with
/// neither and with the second alone that may turn, and three units that may turn, whose last choice is 7; and a unit that may turn, placed in either.
fn choices_of_notes(report: &mut Report) {
    let kind = "notes with choices, by hand";
    let two = |first: u8, second: u8| vec![0x0B, 3, 0, 2, 0, 2, 1 + first, 3, 0, 2 + second, 3, 0];
    let none: &[u8] = &[];
    let cases: &[(Vec<u8>, u8, &[u8], u32, u32)] = &[
        (two(8, 8), 0, none, 0, 0),
        (two(8, 8), 0, none, 1, 0),
        (two(8, 8), 0, none, 2, 0),
        (two(8, 8), 0, none, 3, 0),
        (two(8, 8), 0, none, 4, 110),
        (two(8, 8), 0, none, 256, 110),
        (two(8, 8), 0, none, 258, 110),
        (two(8, 8), 0, none, 65535, 110),
        (two(8, 8), 0, &[0], 0, 110),
        (two(8, 8), 0, &[0], 1, 110),
        (two(8, 8), 0, &[0], 2, 0),
        (two(8, 8), 0, &[1], 2, 0),
        (two(8, 8), 0, &[0], 3, 110),
        (two(8, 8), 0, &[0, 0], 2, 110),
        (two(8, 8), 0, &[0], 512, 110),
        (two(8, 8), 2, &[0], 2, 1),
        (two(8, 8), 2, &[1], 2, 1),
        (two(8, 8), 2, none, 2, 110),
        (two(8, 8), 2, &[0], 0, 110),
        (two(8, 8), 2, &[0], 3, 110),
        (two(8, 8), 2, &[0], 258, 110),
        (two(8, 8), 1, none, 0, 110),
        (two(8, 8), 1, none, 1, 110),
        (two(8, 8), 1, none, 2, 110),
        (two(8, 8), 1, none, 3, 2),
        (two(8, 8), 1, none, 4, 110),
        (two(8, 8), 1, none, 259, 110),
        (two(8, 8), 1, &[0], 2, 110),
        (two(8, 8), 1, &[0], 3, 110),
        (two(0, 0), 0, none, 0, 0),
        (two(0, 0), 0, none, 1, 110),
        (two(0, 0), 0, none, 256, 110),
        (two(0, 0), 1, none, 0, 2),
        (two(0, 0), 1, none, 1, 110),
        (two(0, 8), 0, &[0], 1, 0),
        (two(0, 8), 0, &[0], 2, 110),
        (two(0, 8), 2, &[0], 1, 1),
        (two(0, 8), 1, none, 1, 2),
        (two(0, 8), 1, none, 3, 110),
        (vec![9, 2, 0, 3, 8, 8, 8], 1, none, 7, 2),
        (vec![9, 2, 0, 3, 8, 8, 8], 1, none, 0, 110),
        (vec![9, 2, 0, 3, 8, 8, 8], 0, &[1], 6, 0),
        (vec![9, 2, 0, 3, 8, 8, 8], 0, &[1], 8, 110),
        (vec![8, 1, 8], 2, none, 0, 1),
        (vec![8, 1, 8], 2, none, 1, 1),
        (vec![8, 1, 8], 2, none, 2, 110),
        (vec![0], 0, none, 0, 0),
        (vec![0], 0, none, 1, 110),
        (vec![0], 1, none, 0, 2),
        (vec![0], 2, none, 0, 1),
        (vec![0], 2, none, 256, 110),
    ];
    for (sheet, state, row, choice, returned) in cases {
        let items = sheet::read(sheet).expect("a sheet").items.len();
        let got = parts::search(report, kind, sheet, &note(*state, row, *choice), 0, &[9; 4], &vec![9; PIECE_BYTES * items]);
        report.same(kind, returned, &got, || format!("{} state {state} row {row:?} choice {choice}", hexadecimal(sheet)));
    }
}

/// Ten pieces in a row on x or on y that just has room for them and nine walkways: 10 + 9 = 19, and ten of 180 with 255: 1,800 + 2,295 = 4,095. The
/// pieces before v are in a row; v before all of them would take no more than the hall has. So each pair takes a turn, 45 in all, and the next
/// step says placed.
fn ten_in_a_row(report: &mut Report, kind: &'static str) {
    for (axis, length, walkway, hall) in [(0, 1, 1, 19), (1, 1, 1, 19), (0, 180, 255, 4095), (1, 180, 255, 4095)] {
        let on = |measure: u32, other: u32| if axis == 0 { [measure, other, other] } else { [other, measure, other] };
        let (items, may_turn) = (vec![on(length, 1); 10], vec![false; 10]);
        let sheet = sheet::encode(&Instance { container: on(hall, 1), items, may_turn, precedences: vec![], lags: vec![], yard_number: 0, walkway });
        let plan = bytes::plan_bytes(&(0..10).map(|piece| on((length + walkway) * piece, 0)).collect::<Vec<_>>(), &[0; 10]);
        for got in answers(&sheet, 10, 1_000_000) {
            report.same(kind, &Ok((1, 46, plan.clone())), &got, || hexadecimal(&sheet));
        }
    }
}

/// The rows, refusals and sheets above, and ten pieces of 180 with lags of 255: 1,800 + 2,295 = 4,095, each 435 after the one before.
pub fn greatest(report: &mut Report) {
    let kind = "measures about the greatest";
    for (one, lags) in GREATEST_ROWS {
        row(report, kind, one, lags.to_vec(), 0);
    }
    refusals(report, kind, GREATEST_REFUSED);
    for &sheet in GREATEST_READ {
        let own = sheet::read(sheet).map(|instance| sheet::encode(&instance));
        report.same(kind, &Ok(sheet.to_vec()), &own, || hexadecimal(sheet));
        report.same(kind, &Ok((0, 0)), &library::read(sheet), || hexadecimal(sheet));
        report.same(kind, &Ok((sheet.len(), sheet.to_vec())), &library::rewrite(sheet, &vec![0; sheet.len()]), || hexadecimal(sheet));
    }
    for (shifts, returned) in [(4095, 1), (4094, 2)] {
        let (items, may_turn, precedences, lags) = (vec![[1, 1, 180]; 10], vec![false; 10], CHAIN.to_vec(), vec![255; 9]);
        let sheet = sheet::encode(&Instance { container: [1, 1, shifts], items, may_turn, precedences, lags, yard_number: 0, walkway: 0 });
        let start = |piece: u32| if returned == 1 { 435 * piece } else { 0 };
        let plan = bytes::plan_bytes(&(0..10).map(|piece| [0, 0, start(piece)]).collect::<Vec<_>>(), &[0; 10]);
        for got in answers(&sheet, 10, 1_000_000) {
            report.same(kind, &Ok((returned, 1, plan.clone())), &got, || hexadecimal(&sheet));
        }
    }
    far_plans(report, kind);
}

/// A start is no measure: 65,535 is one, and a piece there is outside, also where its end is small in 16 bits.
fn far_plans(report: &mut Report, kind: &'static str) {
    let piece = [0x0F, 0xFF, 0x0F, 0xFF, 0x0F, 0xFF, 0x0F, 1, 4, 0xFF, 0x0F];
    for (start, fits) in [(0, 1), (1, 0), (4095, 0), (61441, 0), (65535, 0)] {
        let plan = bytes::plan_bytes(&[[4094, 4094, start]], &[0]);
        report.same(kind, &(fits, Ok(fits)), &(bytes::check(&piece, &plan), library::check(&piece, &plan)), || format!("start {start}"));
    }
}

/// "The longest sheet is 352 bytes": whole, a byte shorter, a byte longer; with a walkway of 0; with lags of 0, in 351, in 352 and in 353 bytes;
/// without the walkway's bit, in 351 and in 352. 90 orders are circles.
fn longest(report: &mut Report) {
    let kind = "the longest sheet";
    let precedences: Vec<(usize, usize)> = (0..90).map(|i| (i / 9, i % 9 + usize::from(i % 9 >= i / 9))).collect();
    let (items, may_turn, lags) = (vec![[4095; 3]; 10], vec![false; 10], vec![255; 90]);
    let full = Instance { container: [4095; 3], items, may_turn, precedences, lags, yard_number: 65535, walkway: 255 };
    let sheet = sheet::encode(&full);
    report.same(kind, &(sheet::LONGEST_SHEET, Ok(full.clone())), &(sheet.len(), sheet::read(&sheet)), || hexadecimal(&sheet));
    // "Bit 3 of a piece's map, with no field": no byte longer where all may turn. Each choice is contradictory at once.
    let turning = sheet::encode(&Instance { may_turn: vec![true; 10], ..full });
    for got in answers(&turning, 10, 1_000_000) {
        report.same(kind, &(352, Ok((2, 1024, vec![0; 70]))), &(turning.len(), got), || hexadecimal(&turning));
    }
    let mut longer = sheet.clone();
    longer.push(0);
    let mut zeros = longer.clone();
    zeros[261..].fill(0);
    let mut no_walkway = longer.clone();
    no_walkway[0] = 0x7F;
    let mut walkway_0 = longer.clone();
    walkway_0[351] = 0;
    let cases: [(&[u8], (u32, usize)); 11] = [
        (&sheet, (0, 0)),
        (&sheet[..351], (1, 351)),
        (&sheet[..350], (1, 350)),
        (&longer, (7, 352)),
        (&walkway_0[..352], (3, 351)),
        (&walkway_0, (3, 351)),
        (&zeros[..350], (1, 350)),
        (&zeros[..351], (11, 261)),
        (&zeros, (11, 261)),
        (&no_walkway[..351], (0, 0)),
        (&no_walkway[..352], (7, 351)),
    ];
    for (bytes, expected) in cases {
        report.same(kind, &Ok(expected), &library::read(bytes), || hexadecimal(bytes));
        parts::reading(report, kind, bytes);
    }
    for room in [351, 352, 353] {
        let mut after = vec![7; room];
        let length = if room < 352 { 0 } else { 352 };
        after[..length].copy_from_slice(&sheet[..length]);
        report.same(kind, &Ok((length, after)), &library::rewrite(&sheet, &vec![7; room]), || format!("room {room}"));
    }
    for got in answers(&sheet, 10, 1_000_000) {
        report.same(kind, &Ok((2, 1, vec![0; 70])), &got, || hexadecimal(&sheet));
    }
}

/// The rows above; and a row of turns that rule 3 makes a placed one, and that with D1 in its place is a branching point.
pub fn rule_3(report: &mut Report) {
    let kind = "sheets on which rule 3 tells";
    rows(report, kind, RULE_3_ROWS);
    let precedences = vec![(0, 1), (3, 2)];
    let (items, may_turn, lags) = (vec![UNIT; 4], vec![false; 4], vec![0, 0]);
    let instance = Instance { container: [4, 1, 2], items, may_turn, precedences, lags, yard_number: 0, walkway: 0 };
    let sheet = sheet::encode(&instance);
    let mut note = [0; NOTE_BYTES];
    note[..4].copy_from_slice(&[2, 4, 0, 1]);
    let returned = parts::search(report, kind, &sheet, &note, 1, &[9; 4], &[9; 28]);
    report.same(kind, &1, &returned, || hexadecimal(&sheet));
}

pub fn small_halls(report: &mut Report) {
    rows(report, "small halls of document 01", ROWS);
    refusals(report, "small halls of document 01", REFUSED);
    let printed = [0x1D, 2, 0, 2, 0, 2, 1, 2, 0, 0, 1, 1, 0];
    let encoded = sheet::read(&printed).map(|instance| sheet::encode(&instance));
    report.same("small halls of document 01", &Ok(printed.to_vec()), &encoded, || hexadecimal(&printed));
    split_budgets(report);
}

/// "the last, allowances 0, 1, 1, 1": "spent 0, spent 1, spent 1, placed 1"
fn split_budgets(report: &mut Report) {
    let sheet = [0x0F, 2, 0, 2, 0, 2, 0, 2, 0, 0];
    let mut note = vec![0; NOTE_BYTES];
    for (allowance, returned, steps) in [(0, 0, 0), (1, 0, 1), (1, 0, 1), (1, 1, 1)] {
        let got = library::search(&sheet, &note, allowance, &[9; 4], &[9; 14]);
        let short = got.as_ref().map(|searched| (searched.returned, searched.steps.clone())).map_err(|&fault| fault);
        report.same("small halls of document 01", &Ok((returned, Ok(vec![steps, 0, 0, 0]))), &short, || hexadecimal(&sheet));
        if let Ok(Ok(left)) = got.map(|searched| searched.note) {
            note = left;
        }
    }
}

/// Lines of name, sheet in hexadecimal, answer, steps with an allowance of 1,000,000; those of at most so many steps.
pub fn from_file(report: &mut Report, text: &str, most_steps: u32) {
    for line in text.lines().filter(|line| !line.starts_with('#')) {
        let fields: Vec<&str> = line.split_whitespace().collect();
        let [name, digits, answer, steps] = fields[..] else { panic!("a line of the file: {line}") };
        let sheet: Vec<u8> =
            (0..digits.len() / 2).map(|i| u8::from_str_radix(&digits[2 * i..2 * i + 2], 16).expect("hexadecimal")).collect();
        let steps: u32 = steps.parse().expect("a number of steps");
        let returned = ["spent", "placed", "none"].iter().position(|word| *word == answer).expect("an answer") as u32;
        if steps > most_steps {
            report.count("sheets of the file left out");
            continue;
        }
        let items = sheet::read(&sheet).expect("a sheet").items.len();
        let [own, linked] = answers(&sheet, items, 1_000_000);
        let short = own.as_ref().map(|own| (own.0, own.1)).map_err(|&fault| fault);
        report.same("sheets of the file, answer and steps", &Ok((returned, steps)), &short, || name.to_string());
        report.same("sheets of the file, whole", &own, &linked, || name.to_string());
    }
}
