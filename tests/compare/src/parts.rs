//! The comparisons. Each states what is expected by the independent implementation, and asks the library.

use crate::finishes;
use crate::library::{self, Searched};
use crate::random::{self, Random};
use crate::reference::bytes::{self, note_bytes, plan_bytes, CHOICE_AT, NOTE_BYTES, PIECE_BYTES};
use crate::reference::packing;
use crate::reference::search::{opening, Branch, Checkpoint, Look, Search, Status};
use crate::reference::sheet::{self, Instance, Refusal};
use crate::reference::turning::{last_choice, turned};
use crate::report::{hexadecimal, Report};
use crate::values;

fn code(refusal: &Refusal) -> (u32, usize) {
    (refusal.number, refusal.place)
}

/// Reading, the number of pieces, and the refusals of check, search and finish on the same bytes.
pub fn reading(report: &mut Report, kind: &'static str, sheet: &[u8]) {
    let read = sheet::read(sheet);
    let expected = read.as_ref().map_or_else(code, |_| (0, 0));
    report.same(kind, &Ok(expected), &library::read(sheet), || hexadecimal(sheet));
    if let Err(Refusal { number: 12, .. }) = read {
        report.count("sheets refused by 12");
    }
    let kind = if read.is_ok() { "pieces: their number" } else { "pieces: refused" };
    report.same(kind, &Ok(bytes::pieces(sheet)), &library::pieces(sheet), || hexadecimal(sheet));
    let plan = vec![0; PIECE_BYTES * read.as_ref().map_or(1, |instance| instance.items.len())];
    check(report, sheet, &plan);
    if read.is_err() {
        // "the sheet's refusals come first", also where a length is wrong
        let (note, steps) = ([0; NOTE_BYTES + 1], [9, 8, 7, 6, 5]);
        let wrong = sheet.len() % 4;
        let (note, steps) = (&note[..NOTE_BYTES + (wrong & 1)], &steps[..4 + (wrong >> 1)]);
        search(report, "search calls on refused sheets", sheet, note, 3, steps, &plan);
        finishes::call(report, "finish: on refused sheets", sheet, 3, &[9, 8, 7][..2 + (wrong & 1)], steps, &plan);
    }
}

pub fn check(report: &mut Report, sheet: &[u8], plan: &[u8]) {
    let expected = bytes::check(sheet, plan);
    let kind = match expected {
        0 => "checks: no",
        1 => "checks: yes",
        113 => "checks: refused by 13",
        _ => "checks: refused",
    };
    report.same(kind, &Ok(expected), &library::check(sheet, plan), || {
        format!("sheet {} plan {}", hexadecimal(sheet), hexadecimal(plan))
    });
}

fn search_input(sheet: &[u8], note: &[u8], allowance: u32, steps: &[u8], plan: &[u8]) -> String {
    format!(
        "sheet {} note {}..{} ({} bytes) allowance {allowance} steps {} plan {}",
        hexadecimal(sheet),
        hexadecimal(&note[..note.len().min(40)]),
        hexadecimal(&note[note.len().saturating_sub(2)..]),
        note.len(),
        hexadecimal(steps),
        hexadecimal(plan)
    )
}

/// One search call against the independent implementation's.
pub fn search(report: &mut Report, kind: &'static str, sheet: &[u8], note: &[u8], allowance: u32, steps: &[u8], plan: &[u8]) -> u32 {
    let (mut n, mut s, mut p) = (note.to_vec(), steps.to_vec(), plan.to_vec());
    let returned = bytes::search(sheet, &mut n, allowance, &mut s, &mut p);
    let expected = Searched { returned, note: Ok(n), steps: Ok(s), plan: Ok(p) };
    let got = library::search(sheet, note, allowance, steps, plan);
    report.same(kind, &Ok(expected), &got, || search_input(sheet, note, allowance, steps, plan));
    returned
}

/// Reading and writing again, in rooms of several lengths.
pub fn rewriting(report: &mut Report, random: &mut Random, sheet: &[u8]) {
    let len = sheet.len();
    for room in [len, len - 1, 0, len + 1, len + random.below(40)] {
        let before: Vec<u8> = (0..room).map(|_| random.byte()).collect();
        let mut after = before.clone();
        let written = sheet::read(sheet).and_then(|instance| sheet::write(&instance, &mut after)).unwrap_or(0);
        let kind = if written > 0 { "sheets written again" } else { "writings refused" };
        report.same(kind, &Ok((written, after)), &library::rewrite(sheet, &before), || {
            format!("sheet {} room {room}", hexadecimal(sheet))
        });
    }
}

pub fn records(report: &mut Report, sheet: &[u8]) {
    let items = sheet::read(sheet).map_or(1, |instance| instance.items.len());
    for item in (0..items + 1).chain([10, usize::MAX]) {
        let record = sheet::item_record(sheet, item);
        let kind = if record.is_ok() { "item records" } else { "item records refused" };
        let expected = match record {
            Ok(record) => (record.to_vec(), 0, 0),
            Err(refusal) => (Vec::new(), refusal.number, refusal.place),
        };
        report.same(kind, &Ok(expected), &library::item_record(sheet, item), || {
            format!("sheet {} item {item}", hexadecimal(sheet))
        });
    }
}

/// The run of an instance, as far as it was taken.
pub struct Run {
    /// The note after each number of steps.
    pub notes: Vec<Vec<u8>>,
    /// How it ended, with the plan bytes where it is packed.
    pub end: Option<(Status, Vec<u8>)>,
}

impl Run {
    /// At most so many steps, and beside them the choices that are contradictory at once.
    pub fn new(instance: &Instance, most_steps: usize) -> Run {
        let mut search = Search::resume(instance, &opening()).expect("the opening follows every instance");
        let mut notes = vec![note_bytes(&search.checkpoint)];
        let mut left = most_steps;
        while search.checkpoint.status == Status::Open && left > 0 {
            left -= usize::from(!(search.checkpoint.path.is_empty() && search.look() == Look::Inconsistent));
            search.step();
            notes.push(note_bytes(&search.checkpoint));
        }
        let end = match search.checkpoint.status {
            Status::Open => None,
            Status::Infeasible => Some((Status::Infeasible, Vec::new())),
            Status::Packed => Some((Status::Packed, plan_bytes(&search.starts(), &search.marks()))),
        };
        Run { notes, end }
    }

    /// The choice of the last note.
    pub fn choice(&self) -> u32 {
        let note = &self.notes[self.notes.len() - 1];
        u32::from(note[CHOICE_AT]) + 256 * u32::from(note[CHOICE_AT + 1])
    }

    /// The steps taken: the step count, where the run ended.
    pub fn steps(&self) -> u64 {
        self.notes.len() as u64 - 1
    }
}

impl Run {
    /// What a call has to return and leave that takes the run from one number of steps to another, at most those known.
    fn expected(&self, from: u64, to: u64, plan: &[u8]) -> (&'static str, Searched) {
        let mut expected = Searched {
            returned: 0,
            note: Ok(self.notes[to as usize].clone()),
            steps: Ok(((to - from) as u32).to_le_bytes().to_vec()),
            plan: Ok(plan.to_vec()),
        };
        let kind = match &self.end {
            Some((status, packed)) if to == self.steps() => {
                if *status == Status::Packed {
                    expected.returned = 1;
                    expected.plan = Ok(packed.clone());
                    "calls in lists: placed"
                } else {
                    expected.returned = 2;
                    "calls in lists: none"
                }
            }
            _ => "calls in lists: spent",
        };
        (kind, expected)
    }
}

/// Lists of two calls, split after each number of steps, or after at most so many of them by chance; the second takes the rest.
pub fn split_lists(report: &mut Report, random: &mut Random, sheet: &[u8], items: usize, run: &Run, most: u64) {
    let known = run.steps();
    let points: Vec<u64> = if known < most { (0..=known).collect() } else { (0..most).map(|_| random.below(known as usize + 1) as u64).collect() };
    let plan = vec![random.byte(); PIECE_BYTES * items];
    for split in points {
        for (from, to) in [(0, split), (split, known)] {
            let (_, expected) = run.expected(from, to, &plan);
            let (note, allowance) = (&run.notes[from as usize], (to - from) as u32);
            let got = library::search(sheet, note, allowance, &[9; 4], &plan);
            if !report.same("calls in lists split at each step", &Ok(expected), &got, || search_input(sheet, note, allowance, &[9; 4], &plan)) {
                return;
            }
        }
    }
}

/// A list of calls on a sheet that reads: document 01's claim, call by call, with refused calls among them.
pub fn list_of_calls(report: &mut Report, random: &mut Random, sheet: &[u8], items: usize, run: &Run, one_by_one: bool) {
    let known = run.steps();
    let calls = if one_by_one { known + 2 } else { random.between(1, 7) as u64 };
    let mut note = vec![0; NOTE_BYTES];
    let mut sum: u64 = 0;
    report.count("lists of calls");
    for _ in 0..calls {
        if random.one_in(if one_by_one { 20 } else { 3 }) {
            refused_call(report, random, sheet, items, &note);
        }
        let mut allowance = match random.below(8) {
            _ if one_by_one => 1,
            0 => 0,
            1 => 1,
            2 => 2,
            3 => known.saturating_sub(1),
            4 => known,
            5 => known + 1,
            6 => u32::MAX as u64,
            _ => random.below(known as usize + 2) as u64,
        };
        if run.end.is_none() {
            allowance = allowance.min(known - sum);
        }
        let before = sum.min(known);
        sum += allowance;
        let after = sum.min(known);
        let plan: Vec<u8> = (0..PIECE_BYTES * items).map(|_| random.byte()).collect();
        let steps = [random.byte(), random.byte(), random.byte(), random.byte()];
        let (kind, expected) = run.expected(before, after, &plan);
        let got = library::search(sheet, &note, allowance as u32, &steps, &plan);
        let input = || search_input(sheet, &note, allowance as u32, &steps, &plan);
        if !report.same(kind, &Ok(expected), &got, input) {
            return;
        }
        // The next call gets the note that this one left.
        note = run.notes[after as usize].clone();
    }
}

/// Mostly another length than a plan of so many items has.
pub fn wrong_plan_length(random: &mut Random, items: usize) -> usize {
    let due = PIECE_BYTES * items;
    random.pick(&[due + 1, due + PIECE_BYTES, 6 * items, 60, 70, due.saturating_sub(1), 0])
}

/// A call that is refused for the length of a buffer.
pub fn refused_call(report: &mut Report, random: &mut Random, sheet: &[u8], items: usize, note: &[u8]) {
    let mut note = note.to_vec();
    let mut steps = vec![random.byte(); 4];
    let mut plan = vec![random.byte(); PIECE_BYTES * items];
    let spoilt = random.between(1, 7);
    if spoilt & 1 != 0 {
        note.resize(random.pick(&[274, 276, 273, 0, 3, 270]), 0);
    }
    if spoilt & 2 != 0 {
        steps.resize(random.pick(&[0, 1, 3, 5, 8]), 77);
    }
    if spoilt & 4 != 0 {
        plan.resize(wrong_plan_length(random, items), 88);
    }
    let allowance = random.pick(&[0, 1, 7, u32::MAX]);
    if note.len() != NOTE_BYTES || steps.len() != 4 || plan.len() != PIECE_BYTES * items {
        search(report, "calls refused for a length", sheet, &note, allowance, &steps, &plan);
    }
}

/// Checkpoints that no list of calls leaves: off the run, damaged, from another sheet.
pub fn checkpoints(report: &mut Report, random: &mut Random, sheet: &[u8], instance: &Instance, run: &Run) {
    let items = instance.items.len();
    let on_run = run.notes[random.below(run.notes.len())].clone();
    let off_run = note_off_run(random, instance);
    let budgets: &[u32] = if items > 6 { &[0, 1, 2, 3] } else { &[0, 1, 2, 5, 25] };
    let mut candidates: Vec<(&'static str, Vec<u8>)> = Vec::new();
    for note in [&on_run, &off_run] {
        let length = note[1] as usize + 256 * note[2] as usize;
        let mut damaged = note.clone();
        let place = if random.one_in(3) { random.below(NOTE_BYTES) } else { random.below((length + 5).min(NOTE_BYTES)) };
        damaged[place] = match random.below(4) {
            0 => random.byte(),
            1 => damaged[place] ^ 1,
            2 => damaged[place].wrapping_add(1),
            _ => damaged[place].wrapping_sub(1),
        };
        candidates.push(("notes with one byte changed", damaged));
        let mut state = note.clone();
        state[0] = random.pick(&[0, 1, 2, 3]);
        candidates.push(("notes with another state", state));
        let mut longer = note.clone();
        let new = random.pick(&[length + 1, length + 2, length.saturating_sub(1), 270, 271, 512, 65535]);
        longer[1..3].copy_from_slice(&(new as u16).to_le_bytes());
        candidates.push(("notes with another length", longer));
    }
    candidates.extend(other_choices(random, instance, &[&on_run, &off_run]));
    candidates.push(("notes off the run", off_run));
    let another = random::instance(random, items);
    candidates.push(("notes from another sheet", note_off_run(random, &another)));
    let other_pieces = Instance { may_turn: (0..items).map(|_| random.one_in(2)).collect(), ..instance.clone() };
    candidates.push(("notes from the sheet with other pieces that may turn", note_off_run(random, &other_pieces)));
    if instance.walkway > 0 {
        candidates.push(("notes from the sheet without its walkway", note_off_run(random, &Instance { walkway: 0, ..instance.clone() })));
    }
    for (kind, note) in candidates {
        let budget = random.pick(budgets);
        let steps = [random.byte(); 4];
        let plan = vec![random.byte(); PIECE_BYTES * items];
        let returned = search(report, kind, sheet, &note, budget, &steps, &plan);
        if returned == 110 {
            report.count("notes refused by 10");
            // "8 before 10"
            refused_call(report, random, sheet, items, &note);
        } else {
            report.count("notes followed");
        }
    }
}

fn with_choice(note: &[u8], choice: u32) -> Vec<u8> {
    let mut other = note.to_vec();
    other[CHOICE_AT..].copy_from_slice(&(choice as u16).to_le_bytes());
    other
}

/// Notes with another choice: any up to the last, about the last, with bits of the high byte; and none notes, open ones and placed ones with an empty
/// row, of such a choice.
fn other_choices(random: &mut Random, instance: &Instance, notes: &[&Vec<u8>]) -> Vec<(&'static str, Vec<u8>)> {
    let last = last_choice(instance);
    let mut candidates = Vec::new();
    for note in notes {
        let any = random.below(last as usize + 1) as u32;
        let bit = 1 << random.below(16);
        let own = u32::from(note[CHOICE_AT]) + 256 * u32::from(note[CHOICE_AT + 1]);
        let other = random.pick(&[any, any, last, 0, own ^ 1, own.wrapping_sub(1) & 0xFFFF, own + 1]);
        let beyond = random.pick(&[last + 1, last + 2, 2 * last + 1, 65535, last | 256, last | 512, last + 1024, own | bit]);
        for choice in [other, beyond] {
            candidates.push((if choice > last { "notes with a choice beyond the last" } else { "notes with another choice" }, with_choice(note, choice)));
        }
        let mut finished = vec![0; NOTE_BYTES];
        finished[0] = random.pick(&[1, 1, 1, 0, 2]);
        let choice = random.pick(&[last, last, 0, any, last.saturating_sub(1), last + 1, own ^ bit, 65535]);
        let kind = match (finished[0], choice == last) {
            (1, true) => "none notes with the last choice",
            (1, false) => "none notes with another choice than the last",
            _ => "notes with an empty row and any choice",
        };
        candidates.push((kind, with_choice(&finished, choice)));
    }
    candidates
}

/// A note of any choice whose shorter beginnings are forks, by chance.
fn note_off_run(random: &mut Random, instance: &Instance) -> Vec<u8> {
    let choice = random.below(last_choice(instance) as usize + 1) as u32;
    let mut search = Search::resume(instance, &Checkpoint { choice, ..opening() }).expect("an empty row follows every choice");
    let most = random.below(30);
    while let Look::Fork { .. } = search.look() {
        if search.checkpoint.path.len() >= most {
            break;
        }
        search.append(random.pick(&[Branch::First, Branch::Second, Branch::Second]));
    }
    if search.look() == Look::Packed && random.one_in(2) {
        search.checkpoint.status = Status::Packed;
    }
    note_bytes(&search.checkpoint)
}

/// A packed plan with the successor of an order set one shift before its lag is over, just then, and one later.
fn about_a_lag(random: &mut Random, instance: &Instance, packed: &[u8]) -> Vec<Vec<u8>> {
    if instance.precedences.is_empty() {
        return Vec::new();
    }
    let at = random.below(instance.precedences.len());
    let ((u, v), lag) = (instance.precedences[at], instance.lags[at]);
    let mut positions = bytes::positions_of(packed);
    let over = positions[u][packing::TIME] + instance.items[u][packing::TIME] + lag;
    let mut with = |start: u32| {
        positions[v][packing::TIME] = start;
        plan_bytes(&positions, &bytes::marks_of(packed))
    };
    vec![with(over - 1), with(over), with(over + 1)]
}

/// Marks that may stand, by chance.
pub fn some_marks(random: &mut Random, may_turn: &[bool]) -> Vec<u8> {
    may_turn.iter().map(|&may_turn| u8::from(may_turn && random.one_in(2))).collect()
}

/// Plans near a packed one, and by chance; with other marks.
pub fn plans(report: &mut Report, random: &mut Random, sheet: &[u8], instance: &Instance, run: &Run) {
    let items = instance.items.len();
    let mut candidates: Vec<Vec<u8>> = Vec::new();
    if let Some((Status::Packed, packed)) = &run.end {
        candidates.push(packed.clone());
        for _ in 0..3.min(items) {
            let mut moved = packed.clone();
            let place = PIECE_BYTES * random.below(items) + 2 * random.below(3);
            let start = u16::from_le_bytes([moved[place], moved[place + 1]]);
            let start = if random.one_in(2) { start.wrapping_add(1) } else { start.wrapping_sub(1) };
            moved[place..place + 2].copy_from_slice(&start.to_le_bytes());
            candidates.push(moved);
        }
    }
    if let Some((Status::Packed, packed)) = &run.end {
        // The last first: as good but for the orders.
        let mut reversed = bytes::positions_of(packed);
        for (position, size) in reversed.iter_mut().zip(&instance.items) {
            position[packing::TIME] = instance.container[packing::TIME] - position[packing::TIME] - size[packing::TIME];
        }
        candidates.push(plan_bytes(&reversed, &bytes::marks_of(packed)));
    }
    if let Some((Status::Packed, packed)) = &run.end {
        candidates.extend(about_a_lag(random, instance, packed));
    }
    let mut positions = vec![[0u32; 3]; items];
    let marks = some_marks(random, &instance.may_turn);
    let sizes = turned(instance, &marks).items;
    for (item, position) in positions.iter_mut().enumerate() {
        for axis in 0..3 {
            let room = instance.container[axis].saturating_sub(sizes[item][axis]);
            position[axis] = random.below(room as usize + 1) as u32;
        }
    }
    candidates.push(plan_bytes(&positions, &marks));
    candidates.push(plan_bytes(&vec![[65535; 3]; items], &marks));
    candidates.push(vec![255; PIECE_BYTES * items]);
    for plan in candidates.clone() {
        check(report, sheet, &plan);
    }
    // The same with another mark: turned or not, where it may turn and where it may not; 2, 255, any.
    for mut plan in candidates {
        if items > 0 {
            let (piece, any) = (random.below(items), random.byte());
            let mark = &mut plan[PIECE_BYTES * piece + 6];
            *mark = random.pick(&[*mark ^ 1, *mark ^ 1, 1, 2, 255, any]);
            check(report, sheet, &plan);
        }
    }
    let wrong = wrong_plan_length(random, items);
    check(report, sheet, &vec![random.pick(&[0, 0, 2]); wrong]);
}

/// The bytes of a sheet damaged, cut and extended.
pub fn damaged_sheets(report: &mut Report, random: &mut Random, sheet: &[u8], damages: usize) {
    for len in 0..sheet.len() {
        reading(report, "sheets cut short", &sheet[..len]);
    }
    for more in 1..3 {
        let mut longer = sheet.to_vec();
        longer.extend((0..more).map(|_| random.byte()));
        reading(report, "sheets extended", &longer);
    }
    for _ in 0..damages {
        let mut damaged = sheet.to_vec();
        let place = if random.one_in(4) { 0 } else { random.below(sheet.len()) };
        damaged[place] = match random.below(6) {
            0 => random.byte(),
            1 => damaged[place] ^ (1 << random.below(8)),
            2 => damaged[place].wrapping_add(1),
            3 => damaged[place].wrapping_sub(1),
            4 => 0,
            _ => random.pick(&[1, 2, 7, 8, 9, 10, 11, 15, 16, 24, 90, 91, 255]),
        };
        reading(report, "sheets with one byte changed", &damaged);
        if random.one_in(4) {
            records(report, &damaged);
            rewriting(report, random, &damaged);
        }
        // Twice damaged and cut: which fault is first.
        let place = random.below(sheet.len());
        damaged[place] = random.pick(&[0, 1, 2, 8, 64, 91, 255]);
        damaged.truncate(random.between(1, sheet.len()));
        reading(report, "sheets damaged twice and cut", &damaged);
    }
}

/// Lag fields on a sheet that has none: left out, cut, of zeros, with one lag, with bytes after them; and with a walkway after them.
pub fn lag_fields(report: &mut Report, random: &mut Random, instance: &Instance) {
    let orders = instance.precedences.len();
    let without = sheet::encode(&Instance { lags: vec![0; orders], walkway: 0, ..instance.clone() });
    let mut one = vec![0; orders];
    if orders > 0 {
        let at = random.below(orders);
        one[random.pick(&[0, at, orders - 1])] = random.pick(&[1, 127, 128, 255]);
    }
    let zeros = vec![0; orders];
    let any: Vec<u8> = (0..orders).map(|_| random.byte()).collect();
    let after: Vec<u8> = (0..random.between(1, 3)).map(|_| random.pick(&[0, 1, 255])).collect();
    for (kind, field) in [("lag fields of zeros", &zeros), ("lag fields with one lag", &one), ("lag fields with any lags", &any)] {
        let mut whole = without.clone();
        whole[0] |= 64;
        whole.extend(field);
        reading(report, kind, &whole);
        rewriting(report, random, &whole);
        reading(report, "lag fields cut short", &whole[..without.len() + random.below(orders + 1)]);
        let mut longer = whole.clone();
        longer.extend(&after);
        reading(report, "lag fields with bytes after them", &longer);
        records(report, &longer);
        longer[0] ^= 64;
        reading(report, "lag fields without their bit", &longer);
        whole[0] |= 128;
        reading(report, "lag fields and a walkway that is missing", &whole);
        whole.push(random.pick(&[0, 1, 1, 255]));
        reading(report, "lag fields and a walkway", &whole);
        rewriting(report, random, &whole);
        whole.push(random.pick(&[0, 1]));
        reading(report, "lag fields, a walkway and a byte", &whole);
    }
}

/// Walkways on a sheet without one: 0, 1, any and 255; missing, with bytes after them, without their bit; before the lags and before the yard
/// number, which is read as something else.
pub fn walkway_fields(report: &mut Report, random: &mut Random, instance: &Instance) {
    let without = sheet::encode(&Instance { walkway: 0, ..instance.clone() });
    let mut cut = without.clone();
    cut[0] |= 128;
    reading(report, "walkways that are missing", &cut);
    let lags = if without[0] & 64 == 0 { 0 } else { instance.lags.len() };
    let yard = if without[0] & 32 == 0 { 0 } else { 2 };
    for width in [0, 1, random.byte(), 255] {
        let mut whole = cut.clone();
        whole.push(width);
        reading(report, if width == 0 { "walkways of 0" } else { "walkways above 0" }, &whole);
        rewriting(report, random, &whole);
        if random.one_in(4) {
            records(report, &whole);
        }
        let mut longer = whole.clone();
        longer.extend((0..random.between(1, 2)).map(|_| random.pick(&[0, 1, width, 255])));
        reading(report, "walkways with bytes after them", &longer);
        longer[0] ^= 128;
        reading(report, "walkways without their bit", &longer);
        for before in [lags, lags + yard] {
            let mut moved = cut.clone();
            moved.insert(cut.len() - before, width);
            reading(report, "walkways at another place", &moved);
        }
    }
}

/// Two items, one just the walkway after the other on x or y, a module less, one more, or touching; closer, as close or farther on the other
/// axis; in the same shifts or after one another.
pub fn near_a_walkway(report: &mut Report, random: &mut Random, instance: &Instance) {
    if instance.items.is_empty() {
        return;
    }
    let (u, v) = (random.below(instance.items.len()), random.below(instance.items.len()));
    let items = vec![instance.items[u], instance.items[v]];
    let may_turn = vec![random.one_in(2), random.one_in(2)];
    let marks = some_marks(random, &may_turn);
    let byte = random.byte() as u32;
    let walkway = random.pick(&[instance.walkway, instance.walkway, 1, 2, 255, byte]);
    let (first, second) = random.pick(&[(0, 1), (1, 0)]);
    let mut positions = [[0; 3]; 2];
    let mut container = [1; 3];
    let axis = random.below(2);
    for on in 0..3 {
        let (start, length) = (random.below(3) as u32, items[first][on]);
        let gap = |random: &mut Random, walkway: u32| random.pick(&[0, walkway.saturating_sub(1), walkway.saturating_sub(1), walkway, walkway + 1]);
        positions[first][on] = start;
        positions[second][on] = match on {
            _ if on == axis => start + length + gap(random, walkway),
            packing::TIME if random.one_in(8) => start + length,
            packing::TIME => start + random.below(length as usize) as u32,
            _ if random.one_in(3) => start + length + gap(random, walkway),
            _ => start + random.below(length as usize) as u32,
        };
        let end = (0..2).map(|item| positions[item][on] + items[item][on]).max().expect("two items");
        container[on] = end + random.below(2) as u32;
    }
    if random.one_in(12) {
        container[axis] -= 1;
    }
    if container.iter().all(|&measure| (1..=sheet::GREATEST_MEASURE).contains(&measure)) {
        // The measures above are those of the plan: an item that it turns stands on the sheet the other way round.
        let as_turned = Instance { container, items, may_turn, precedences: vec![], lags: vec![], yard_number: 0, walkway };
        let sheet = sheet::encode(&turned(&as_turned, &marks));
        let plan = plan_bytes(&positions, &marks);
        report.count(if bytes::check(&sheet, &plan) == 1 { "checks near a walkway: yes" } else { "checks near a walkway: no" });
        check(report, &sheet, &plan);
    }
}

/// Sheets with one or two measures about the greatest: whole, cut anywhere, with a byte changed, and written again.
pub fn greatest_measures(report: &mut Report, random: &mut Random, instance: &Instance) {
    let sheet = sheet::encode(&random::with_greatest(random, instance));
    reading(report, if sheet::read(&sheet).is_ok() { "measures about 4,095, read" } else { "measures about 4,095, refused" }, &sheet);
    rewriting(report, random, &sheet);
    records(report, &sheet);
    for _ in 0..6 {
        reading(report, "measures about 4,095, cut short", &sheet[..random.below(sheet.len())]);
        let mut damaged = sheet.clone();
        let place = random.below(sheet.len());
        damaged[place] = random.pick(&[0, 1, 2, 8, 0x0F, 0x10, 64, 91, 255]);
        reading(report, "measures about 4,095, with one byte changed", &damaged);
    }
}

/// Everything about one instance.
pub fn everything(report: &mut Report, random: &mut Random, instance: &Instance, most_steps: usize) {
    let sheet = sheet::encode(instance);
    let items = instance.items.len();
    reading(report, "sheets read", &sheet);
    damaged_sheets(report, random, &sheet, 6);
    rewriting(report, random, &sheet);
    records(report, &sheet);
    lag_fields(report, random, instance);
    walkway_fields(report, random, instance);
    greatest_measures(report, random, instance);
    for _ in 0..4 {
        near_a_walkway(report, random, instance);
    }
    report.count(if instance.walkway > 0 { "instances with a walkway" } else { "instances without a walkway" });
    report.count(match instance.may_turn.iter().filter(|&&may_turn| may_turn).count() {
        0 => "instances without pieces that may turn",
        1..=8 => "instances with pieces that may turn, up to eight",
        _ => "instances with nine or ten pieces that may turn",
    });
    report.count(match instance.lags.iter().max() {
        None => "instances without orders",
        Some(0) => "instances with orders, without lags",
        Some(_) => "instances with lags",
    });
    let run = Run::new(instance, most_steps);
    report.add("steps of runs", run.steps());
    report.count(match &run.end {
        Some((Status::Packed, _)) => "runs placed",
        Some(_) => "runs none",
        None => "runs not taken to their end",
    });
    report.count(match run.choice() {
        0 => "runs that stay in choice 0",
        1..=255 => "runs that cross choices",
        _ => "runs that come to choices above 255",
    });
    for _ in 0..2 {
        list_of_calls(report, random, &sheet, items, &run, false);
    }
    if run.steps() < 60 && random.one_in(if run.choice() > 0 { 2 } else { 8 }) {
        list_of_calls(report, random, &sheet, items, &run, true);
    }
    if run.choice() > 0 && random.one_in(4) {
        split_lists(report, random, &sheet, items, &run, if items > 6 { 8 } else { 60 });
    }
    checkpoints(report, random, &sheet, instance, &run);
    plans(report, random, &sheet, instance, &run);
    values::values(report, random, instance, &run);
    if random.one_in(3) {
        finishes::finishes(report, random, instance, most_steps as u64 / 2);
    }
}
