//! The earliest finish: what request #103 says of each allowance, from the steps of the lengths; rows worked out by hand; lengths of
//! buffers; refused sheets.

use crate::library::{self, Finished};
use crate::random::Random;
use crate::parts::wrong_plan_length;
use crate::reference::bytes::{plan_bytes, NOTE_BYTES, PIECE_BYTES};
use crate::reference::finish::{self, with_shifts, LENGTH_BYTES};
use crate::reference::packing::TIME;
use crate::reference::search::{opening, Search, Status};
use crate::reference::sheet::{self, Instance, GREATEST_MEASURE};
use crate::report::{hexadecimal, Report};

/// Container, items, precedences, lags; the steps of each length, and the starts where the last one is placed.
type Row = ([u32; 3], &'static [[u32; 3]], &'static [(usize, usize)], &'static [u32], &'static [u64], Option<&'static [[u32; 3]]>);

const UNIT: [u32; 3] = [1, 1, 1];
const ORDERED: &[[u32; 3]] = &[[2, 1, 1], UNIT];
const ORDERED_PLAN: Option<&[[u32; 3]]> = Some(&[[0, 0, 1], [0, 0, 0]]);
const CIRCLE: &[(usize, usize)] = &[(0, 1), (1, 2), (2, 0)];

/// Rows worked out by hand. In a hall 1 deep nothing but overlap is possible on y, and the same on x and t where two items do not fit one
/// after the other. A length below an item's, or below a chain of orders, is contradictory at the opening: one step says none.
///
/// Three units in a hall 2 wide: one shift takes 3 steps (document 01). In two shifts the first turns take overlap from 0, 1 on x and put 0
/// before 1; that leaves 0, 2 overlap and "0 before 2", of which the third turn takes overlap. Then 2 has no room before 1 or after it on x,
/// they overlap there, and the fourth turn puts 1 before 2 on t. The fifth step says placed.
///
/// Three units in a hall 1 wide go one after another. Two shifts: 0 before 1 leaves no room for 2, nor does 1 before 0; 3 steps. Three
/// shifts: one turn for each pair, and the fourth step says placed.
///
/// Three units and the order 0, 1 with lag 1: in 3 shifts 2 stands in the lag, after one step. In 4 the search would put it last: the plan
/// is the one of 3.
const ROWS: &[Row] = &[
    // "An empty sheet gives 1 once a step is allowed"
    ([1, 1, 1], &[], &[], &[], &[1], Some(&[])),
    ([1, 1, 4095], &[], &[], &[], &[1], Some(&[])),
    ([1, 1, 4095], &[UNIT], &[], &[], &[1], Some(&[[0, 0, 0]])),
    ([3, 3, 9], &[[2, 2, 4]], &[], &[], &[1; 4], Some(&[[0, 0, 0]])),
    ([3, 3, 3], &[[2, 2, 4]], &[], &[], &[1; 3], None),
    ([1, 1, 300], &[[1, 1, 258]], &[], &[], &[1; 258], Some(&[[0, 0, 0]])),
    // Wider or deeper than the hall, and a circle: no length is enough.
    ([1, 1, 3], &[[2, 1, 1]], &[], &[], &[1; 3], None),
    ([1, 1, 3], &[[1, 2, 1]], &[], &[], &[1; 3], None),
    ([3, 1, 4], &[UNIT; 3], CIRCLE, &[0; 3], &[1; 4], None),
    ([1, 1, 4095], &[[2, 1, 1]], &[], &[], &[1; 4095], None),
    ([2, 1, 1], ORDERED, &[(1, 0)], &[0], &[1], None),
    ([2, 1, 2], ORDERED, &[(1, 0)], &[0], &[1, 1], ORDERED_PLAN),
    ([2, 1, 9], ORDERED, &[(1, 0)], &[0], &[1, 1], ORDERED_PLAN),
    ([2, 1, 5], ORDERED, &[], &[], &[1, 2], Some(&[[0, 0, 0], [0, 0, 1]])),
    ([2, 2, 5], &[UNIT; 2], &[], &[], &[3], Some(&[[0, 0, 0], [1, 0, 0]])),
    ([2, 1, 1], &[UNIT; 3], &[], &[], &[3], None),
    ([2, 1, 4], &[UNIT; 3], &[], &[], &[3, 5], Some(&[[0, 0, 0], [1, 0, 0], [1, 0, 1]])),
    ([1, 1, 2], &[UNIT; 3], &[], &[], &[1, 3], None),
    ([1, 1, 9], &[UNIT; 3], &[], &[], &[1, 3, 4], Some(&[[0, 0, 0], [0, 0, 1], [0, 0, 2]])),
    ([1, 1, 4], &[UNIT; 3], &[(0, 1)], &[1], &[1; 3], Some(&[[0, 0, 0], [0, 0, 2], [0, 0, 1]])),
    ([1, 1, 20], &[UNIT; 3], &[(0, 1), (0, 2), (1, 2)], &[1, 5, 0], &[1; 7], Some(&[[0, 0, 0], [0, 0, 2], [0, 0, 6]])),
    ([1, 1, 300], &[UNIT; 2], &[(0, 1)], &[255], &[1; 257], Some(&[[0, 0, 0], [0, 0, 256]])),
    ([1, 1, 256], &[UNIT; 2], &[(0, 1)], &[255], &[1; 256], None),
    // All lengths there are: one item, a chain of 2,047 + 2,048, and one of 1,920 + 255 + 1,920; with one more no length is enough.
    ([1, 1, 4095], &[[1, 1, 4095]], &[], &[], &[1; 4095], Some(&[[0, 0, 0]])),
    ([1, 1, 4094], &[[1, 1, 4095]], &[], &[], &[1; 4094], None),
    ([1, 1, 4095], &[[1, 1, 2047], [1, 1, 2048]], &[(0, 1)], &[0], &[1; 4095], Some(&[[0, 0, 0], [0, 0, 2047]])),
    ([1, 1, 4095], &[[1, 1, 1920]; 2], &[(0, 1)], &[255], &[1; 4095], Some(&[[0, 0, 0], [0, 0, 2175]])),
    ([1, 1, 4095], &[[1, 1, 1921], [1, 1, 1920]], &[(0, 1)], &[255], &[1; 4095], None),
];

/// Rows with a walkway, each with its width; worked out by hand. Where two items have no room beside one another, they stand one after the other,
/// as if the hall had been narrower: two of 4 modules on 8 in 4 shifts, where each shorter length takes the step that says none, and the last one
/// the turn on t and the step that says placed; on 9 modules they stand beside one another. Three units on 3 modules as above on 2 without a
/// walkway, and on 2 as above on 1. With a lag of 2 between them, two of 4 modules take 1 + 2 + 1 shifts.
const WALKWAY_ROWS: &[(u32, Row)] = &[
    (255, ([1, 1, 9], &[], &[], &[], &[1], Some(&[]))),
    (255, ([3, 3, 9], &[[3, 3, 2]], &[], &[], &[1, 1], Some(&[[0, 0, 0]]))),
    (0, ([8, 1, 9], &[[4, 1, 2]; 2], &[], &[], &[1, 2], Some(&[[0, 0, 0], [4, 0, 0]]))),
    (1, ([8, 1, 9], &[[4, 1, 2]; 2], &[], &[], &[1, 1, 1, 2], Some(&[[0, 0, 0], [0, 0, 2]]))),
    (1, ([9, 1, 9], &[[4, 1, 2]; 2], &[], &[], &[1, 2], Some(&[[0, 0, 0], [5, 0, 0]]))),
    (1, ([8, 1, 3], &[[4, 1, 2]; 2], &[], &[], &[1; 3], None)),
    (1, ([2, 2, 5], &[UNIT; 2], &[], &[], &[1, 2], Some(&[[0, 0, 0], [0, 0, 1]]))),
    (1, ([3, 1, 4], &[UNIT; 3], &[], &[], &[3, 5], Some(&[[0, 0, 0], [2, 0, 0], [2, 0, 1]]))),
    (1, ([3, 1, 1], &[UNIT; 3], &[], &[], &[3], None)),
    (1, ([2, 1, 9], &[UNIT; 3], &[], &[], &[1, 3, 4], Some(&[[0, 0, 0], [0, 0, 1], [0, 0, 2]]))),
    (1, ([8, 1, 9], &[[4, 1, 1]; 2], &[(0, 1)], &[2], &[1; 4], Some(&[[0, 0, 0], [0, 0, 3]]))),
    (255, ([257, 1, 9], &[UNIT; 2], &[], &[], &[2], Some(&[[0, 0, 0], [256, 0, 0]]))),
    (255, ([256, 1, 9], &[UNIT; 2], &[], &[], &[1, 2], Some(&[[0, 0, 0], [0, 0, 1]]))),
    (255, ([256, 1, 1], &[UNIT; 2], &[], &[], &[1], None)),
];

/// Rows with pieces that may turn, with the walkway, which pieces may turn, and the marks; worked out by hand. Each length is searched in all choices,
/// and a choice that is contradictory at once takes one step.
///
/// A piece of 2 x 1 for 3 shifts in a hall 1 x 2: in lengths 1 and 2 it is too long either way, in length 3 too wide until it is turned. In a hall
/// 1 x 1 it is too wide or too deep. Three units in a hall 2 wide, as above, but one shift takes 3 steps in each of eight choices. 2 x 1 and 1 x 2 on
/// a floor of 2 x 2 have no room beside one another; with the second turned they have, in a turn on y and a step. Two of 2 x 1 with a walkway of 1 on 3 x
/// 2: only with both turned, 1 + 1 + 1 modules on x. Two of 2 x 1 in a hall 1 x 2, order 0, 1 with lag 2: both are turned, and 1 + 2 + 1 shifts taken.
const TURN_ROWS: &[(u32, Row, &str, &str)] = &[
    (0, ([1, 2, 9], &[[2, 1, 3]], &[], &[], &[2, 2, 2], Some(&[[0, 0, 0]])), "1", "1"),
    (0, ([1, 1, 3], &[[2, 1, 1]], &[], &[], &[2, 2, 2], None), "1", "0"),
    (0, ([1, 2, 3], &[[2, 1, 1]], &[], &[], &[1, 1, 1], None), "0", "0"),
    (0, ([2, 1, 4], &[UNIT; 3], &[], &[], &[24, 5], Some(&[[0, 0, 0], [1, 0, 0], [1, 0, 1]])), "111", "000"),
    (0, ([2, 1, 1], &[UNIT; 3], &[], &[], &[24], None), "111", "000"),
    (0, ([2, 2, 4], &[[2, 1, 1], [1, 2, 1]], &[], &[], &[3], Some(&[[0, 0, 0], [0, 1, 0]])), "01", "01"),
    (0, ([2, 2, 4], &[[2, 1, 1], [1, 2, 1]], &[], &[], &[1, 2], Some(&[[0, 0, 0], [0, 0, 1]])), "00", "00"),
    (1, ([3, 2, 5], &[[2, 1, 2]; 2], &[], &[], &[4, 5], Some(&[[0, 0, 0], [2, 0, 0]])), "11", "11"),
    (0, ([1, 2, 9], &[[2, 1, 1]; 2], &[(0, 1)], &[2], &[4; 4], Some(&[[0, 0, 0], [0, 0, 3]])), "11", "11"),
];

/// The searches of lengths 1, 2 and so on, as far as they were taken.
struct Lengths {
    /// The steps up to the end of each length, 0 for length 0.
    sums: Vec<u64>,
    /// All steps taken: the last sum, where the lengths were decided.
    known: u64,
    /// How they ended, with the plan bytes where one is packed.
    end: Option<(Status, Vec<u8>)>,
}

impl Lengths {
    fn new(instance: &Instance, most_steps: u64) -> Lengths {
        let mut lengths = Lengths { sums: vec![0], known: 0, end: None };
        for length in 1..=instance.container[TIME] {
            let mut search = Search::resume(&with_shifts(instance, length), &opening()).expect("the opening follows every instance");
            while search.checkpoint.status == Status::Open {
                if lengths.known == most_steps {
                    return lengths;
                }
                search.step();
                lengths.known += 1;
            }
            lengths.sums.push(lengths.known);
            if search.checkpoint.status == Status::Packed {
                lengths.end = Some((Status::Packed, plan_bytes(&search.starts(), &search.marks())));
                return lengths;
            }
        }
        lengths.end = Some((Status::Infeasible, Vec::new()));
        lengths
    }

    /// By the steps of each length.
    fn of_row(&(_, _, _, _, steps, starts): &Row, marks: &[u8]) -> Lengths {
        let mut sums = vec![0];
        for &more in steps {
            sums.push(sums[sums.len() - 1] + more);
        }
        let end = starts.map_or((Status::Infeasible, Vec::new()), |starts| (Status::Packed, plan_bytes(starts, marks)));
        Lengths { known: sums[sums.len() - 1], sums, end: Some(end) }
    }

    /// "spent comes exactly when the allowance is below the steps another answer needs, and takes all of it"
    fn expected(&self, allowance: u64, plan: &[u8]) -> (&'static str, Finished) {
        let last = self.sums.len() - 1;
        let answer = |returned: u32, length: usize, steps: u64, plan: &[u8]| Finished {
            returned,
            length: Ok((length as u16).to_le_bytes().to_vec()),
            steps: Ok((steps as u32).to_le_bytes().to_vec()),
            plan: Ok(plan.to_vec()),
        };
        match &self.end {
            Some((Status::Packed, packed)) if allowance >= self.known => ("finish: placed", answer(1, last, self.known, packed)),
            Some(_) if allowance >= self.known => ("finish: none", answer(2, 0, self.known, plan)),
            _ => {
                let shown = self.sums.iter().rposition(|&sum| sum <= allowance).expect("length 0 takes no steps");
                ("finish: spent", answer(0, shown, allowance, plan))
            }
        }
    }

    /// 0, 1, 2, about the sums of some lengths, about the last, and the greatest; none beyond what is known.
    fn allowances(&self, random: &mut Random) -> Vec<u64> {
        let mut about = vec![1, self.known];
        for _ in 0..3 {
            about.push(random.pick(&self.sums));
        }
        let mut all: Vec<u64> = about.iter().flat_map(|&sum| [sum.saturating_sub(1), sum, sum + 1]).collect();
        all.push(random.below(self.known as usize + 1) as u64);
        all.push(u32::MAX as u64);
        all.sort();
        all.dedup();
        all.retain(|&allowance| self.end.is_some() || allowance <= self.known);
        all
    }
}

/// Each allowance up to one more than is needed, where they are few; else those about the ends.
fn allowances_by_hand(lengths: &Lengths) -> Vec<u64> {
    let total = lengths.known;
    let mut all: Vec<u64> = match total {
        0..=300 => (0..total + 2).collect(),
        _ => vec![total - 1],
    };
    all.push(u32::MAX as u64);
    all
}

pub fn by_hand(report: &mut Report) {
    let (plain, with_walkway) = (ROWS.iter().map(|one| (0, one, "", "")), WALKWAY_ROWS.iter().map(|(walkway, one)| (*walkway, one, "", "")));
    let turned = TURN_ROWS.iter().map(|(walkway, one, may_turn, marks)| (*walkway, one, *may_turn, *marks));
    for (walkway, one, may_turn, marks) in plain.chain(with_walkway).chain(turned) {
        let &(container, items, precedences, lags, _, _) = one;
        let digits = |text: &str| (0..items.len()).map(|item| u8::from(text.as_bytes().get(item) == Some(&b'1'))).collect::<Vec<u8>>();
        let may_turn = digits(may_turn).iter().map(|&digit| digit == 1).collect();
        let (items, precedences, lags) = (items.to_vec(), precedences.to_vec(), lags.to_vec());
        let instance = Instance { container, items: items.clone(), may_turn, precedences, lags, yard_number: 0, walkway };
        let (sheet, lengths) = (sheet::encode(&instance), Lengths::of_row(one, &digits(marks)));
        // 8: other lengths of the plan, also 6 bytes a piece
        for wrong in [6 * items.len(), PIECE_BYTES * items.len() + 1, PIECE_BYTES * (items.len() + 1)] {
            if wrong != PIECE_BYTES * items.len() {
                let left = Finished { returned: 108, length: Ok(vec![9; 2]), steps: Ok(vec![9; 4]), plan: Ok(vec![9; wrong]) };
                report.same("finish: by hand", &Ok(left), &library::finish(&sheet, 3, &[9; 2], &[9; 4], &vec![9; wrong]), || hexadecimal(&sheet));
            }
        }
        for allowance in allowances_by_hand(&lengths) {
            let (length, steps, plan) = ([9; 2], [9; 4], vec![9; PIECE_BYTES * items.len()]);
            let (_, expected) = lengths.expected(allowance, &plan);
            for got in [own(&sheet, allowance as u32, &length, &steps, &plan), library::finish(&sheet, allowance as u32, &length, &steps, &plan)] {
                report.same("finish: by hand", &Ok(expected.clone()), &got, || input(&sheet, allowance as u32, &length, &steps, &plan));
            }
        }
    }
}

fn input(sheet: &[u8], allowance: u32, length: &[u8], steps: &[u8], plan: &[u8]) -> String {
    let [length, steps, plan] = [length, steps, plan].map(hexadecimal);
    format!("sheet {} allowance {allowance} length {length} steps {steps} plan {plan}", hexadecimal(sheet))
}

fn bytes(random: &mut Random, len: usize) -> Vec<u8> {
    (0..len).map(|_| random.byte()).collect()
}

/// What the independent implementation returns and leaves: the lengths one after another.
fn own(sheet: &[u8], allowance: u32, length: &[u8], steps: &[u8], plan: &[u8]) -> Result<Finished, &'static str> {
    let (mut l, mut s, mut p) = (length.to_vec(), steps.to_vec(), plan.to_vec());
    let returned = finish::on_bytes(sheet, allowance, &mut l, &mut s, &mut p);
    Ok(Finished { returned, length: Ok(l), steps: Ok(s), plan: Ok(p) })
}

/// One call against the independent implementation's.
pub fn call(report: &mut Report, kind: &'static str, sheet: &[u8], allowance: u32, length: &[u8], steps: &[u8], plan: &[u8]) {
    let expected = own(sheet, allowance, length, steps, plan);
    let got = library::finish(sheet, allowance, length, steps, plan);
    report.same(kind, &expected, &got, || input(sheet, allowance, length, steps, plan));
}

/// A call that is refused for the length of a buffer.
fn refused_call(report: &mut Report, random: &mut Random, sheet: &[u8], items: usize) {
    let spoilt = random.between(1, 7);
    let mut lengths = [LENGTH_BYTES, 4, PIECE_BYTES * items];
    if spoilt & 1 != 0 {
        lengths[0] = random.pick(&[0, 1, 3, 4, NOTE_BYTES]);
    }
    if spoilt & 2 != 0 {
        lengths[1] = random.pick(&[0, 2, 3, 5, 8]);
    }
    if spoilt & 4 != 0 {
        lengths[2] = wrong_plan_length(random, items);
    }
    let [length, steps, plan] = lengths.map(|len| bytes(random, len));
    let allowance = random.pick(&[0, 1, 7]);
    if lengths != [LENGTH_BYTES, 4, PIECE_BYTES * items] {
        call(report, "finish: refused for a length", sheet, allowance, &length, &steps, &plan);
    }
}

/// The instance with other shifts, mostly more; now and then an item is too wide, so that no length is enough.
fn with_other_shifts(random: &mut Random, instance: &Instance) -> Instance {
    let shifts = instance.container[TIME];
    let other = match random.below(7) {
        0 => shifts,
        1 => shifts + 1,
        2 => shifts.max(2) - 1,
        3 => random.between(1, 4) as u32,
        4 => GREATEST_MEASURE,
        _ => shifts + random.between(2, 9) as u32,
    };
    let mut instance = with_shifts(instance, other.min(GREATEST_MEASURE));
    let widest = instance.items.iter().map(|size| size[0]).max().unwrap_or(0);
    if widest > 1 && random.one_in(12) {
        instance.container[0] = widest - 1;
    }
    instance
}

/// The earliest finish of an instance with other shifts, under many allowances, its lengths searched for at most so many steps.
pub fn finishes(report: &mut Report, random: &mut Random, instance: &Instance, most_steps: u64) {
    let instance = with_other_shifts(random, instance);
    let (sheet, items) = (sheet::encode(&instance), instance.items.len());
    // With few items now and then more of them, for lengths above 255.
    let most_steps = if items <= 3 && random.one_in(4) { 1_000 } else { most_steps };
    let lengths = Lengths::new(&instance, most_steps);
    report.add("finish: lengths decided", lengths.sums.len() as u64 - 1);
    report.count(if lengths.end.is_some() { "finish: sheets taken to their answer" } else { "finish: sheets not taken to their answer" });
    for allowance in lengths.allowances(random) {
        let [length, steps, plan] = [LENGTH_BYTES, 4, PIECE_BYTES * items].map(|len| bytes(random, len));
        let (kind, expected) = lengths.expected(allowance, &plan);
        let got = library::finish(&sheet, allowance as u32, &length, &steps, &plan);
        report.same(kind, &Ok(expected), &got, || input(&sheet, allowance as u32, &length, &steps, &plan));
    }
    refused_call(report, random, &sheet, items);
    // The claim above and the lengths one after another, both by the independent implementation; and the plan fits.
    let allowance = random.below(lengths.known as usize + 1) as u32;
    call(report, "finish: by the lengths in turn", &sheet, allowance, &[7; 2], &[7; 4], &vec![7; PIECE_BYTES * items]);
    if let Some((Status::Packed, packed)) = &lengths.end {
        let shortened = sheet::encode(&with_shifts(&instance, lengths.sums.len() as u32 - 1));
        for sheet in [&sheet, &shortened] {
            report.same("finish: plans that check", &Ok(1), &library::check(sheet, packed), || hexadecimal(sheet));
        }
    }
}
