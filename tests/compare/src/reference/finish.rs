//! Request #103, "Earliest finish": the lengths one after another, each searched from the opening note; in values and on bytes.

use super::bytes::{plan_bytes, PIECE_BYTES};
use super::packing::{Position, TIME};
use super::search::{opening, Search, Status};
use super::sheet::{read, refuse, Instance, Refusal};

pub const LENGTH_BYTES: usize = 2;

/// Open stands for spent. `positions` and `marks` have one for each item where it is packed, else none.
#[derive(Clone, PartialEq, Eq, Debug)]
pub struct Finish {
    pub status: Status,
    pub length: u32,
    pub steps: u32,
    pub positions: Vec<Position>,
    pub marks: Vec<u8>,
}

/// "with the other measures unchanged"
pub fn with_shifts(instance: &Instance, length: u32) -> Instance {
    let mut shortened = instance.clone();
    shortened.container[TIME] = length;
    shortened
}

/// "for lengths 1, 2 and so on up to the sheet's shifts, search with the other measures unchanged, under one total allowance"
pub fn finish(instance: &Instance, allowance: u32) -> Finish {
    let (mut steps, mut shown) = (0, 0);
    for length in 1..=instance.container[TIME] {
        let mut search = Search::resume(&with_shifts(instance, length), &opening()).expect("the opening follows every instance");
        let left = allowance - steps;
        let taken = search.call(left);
        steps += taken;
        match search.checkpoint.status {
            // "The answer is the first length with a placement, with its plan"
            Status::Packed => return Finish { status: Status::Packed, length, steps, positions: search.starts(), marks: search.marks() },
            // "or spent, with the greatest length already shown impossible (0 if there is none)"
            Status::Open => return Finish { status: Status::Open, length: shown, steps, positions: Vec::new(), marks: Vec::new() },
            Status::Infeasible => shown = length,
        }
    }
    Finish { status: Status::Infeasible, length: 0, steps, positions: Vec::new(), marks: Vec::new() }
}

/// 0 spent, 1 placed, 2 none, or a refusal as search returns it; length and steps are written unless it is refused, the plan only when
/// placed.
pub fn on_bytes(sheet: &[u8], allowance: u32, length: &mut [u8], steps: &mut [u8], plan: &mut [u8]) -> u32 {
    finish_or_refuse(sheet, allowance, length, steps, plan).unwrap_or_else(|refusal| 100 + refusal.number)
}

fn finish_or_refuse(sheet: &[u8], allowance: u32, length: &mut [u8], steps: &mut [u8], plan: &mut [u8]) -> Result<u32, Refusal> {
    let instance = read(sheet)?;
    if length.len() != LENGTH_BYTES || steps.len() != 4 || plan.len() != PIECE_BYTES * instance.items.len() {
        return refuse(8, 0);
    }
    let answer = finish(&instance, allowance);
    length.copy_from_slice(&(answer.length as u16).to_le_bytes());
    steps.copy_from_slice(&answer.steps.to_le_bytes());
    Ok(match answer.status {
        Status::Open => 0,
        Status::Packed => {
            plan.copy_from_slice(&plan_bytes(&answer.positions, &answer.marks));
            1
        }
        Status::Infeasible => 2,
    })
}
