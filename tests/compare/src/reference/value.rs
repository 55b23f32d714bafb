//! Sheets as values: number 9, and check, writing and clearance by whoever takes a value.

use super::packing::{self, Position};
use super::sheet::{self, names_items, refuse, Instance, Refusal, GREATEST_MEASURE, MOST_ITEMS, MOST_PRECEDENCES};
use super::turning::judge_marks;

/// "Entries of a sheet past its counts are no part of it". The counts may be any number.
#[derive(Clone, Debug)]
pub struct Value {
    /// Width, depth, shifts.
    pub container: [u32; 3],
    pub item_count: u64,
    pub items: [[u32; 3]; MOST_ITEMS],
    pub may_turn: [bool; MOST_ITEMS],
    pub precedence_count: u64,
    pub precedences: [(usize, usize); MOST_PRECEDENCES],
    /// "Lags past the count of orders are no part of a sheet value."
    pub lags: [u32; MOST_PRECEDENCES],
    pub yard_number: u32,
    pub walkway: u32,
}

/// 9: "a sheet value with over 10 pieces, over 90 orders, a measure 0, or an order that would get 5 or 6"; a measure above 4,095: "9 covers
/// such values too"
pub fn instance_of(value: &Value) -> Result<Instance, Refusal> {
    if value.item_count > MOST_ITEMS as u64 || value.precedence_count > MOST_PRECEDENCES as u64 {
        return refuse(9, 0);
    }
    let items = value.items[..value.item_count as usize].to_vec();
    let may_turn = value.may_turn[..items.len()].to_vec();
    let precedences = value.precedences[..value.precedence_count as usize].to_vec();
    let lags = value.lags[..precedences.len()].to_vec();
    if value.container.contains(&0) || items.iter().any(|size| size.contains(&0)) {
        return refuse(9, 0);
    }
    let too_large = |size: &[u32; 3]| size.iter().any(|&measure| measure > GREATEST_MEASURE);
    if too_large(&value.container) || items.iter().any(too_large) {
        return refuse(9, 0);
    }
    for (at, &order) in precedences.iter().enumerate() {
        if !names_items(items.len(), order) || at > 0 && order <= precedences[at - 1] {
            return refuse(9, 0);
        }
    }
    Ok(Instance { container: value.container, items, may_turn, precedences, lags, yard_number: value.yard_number, walkway: value.walkway })
}

/// "Check returns 0 no, 1 yes, 100 plus the number for a refusal"; "Ten positions are held; those past the sheet's count are ignored"; "one mark
/// a piece, ten in all, ignored or 0 wherever a position is".
pub fn check(value: &Value, positions: &[Position], marks: &[u8]) -> u32 {
    match check_or_refuse(value, positions, marks) {
        Ok(yes) => yes as u32,
        Err(refusal) => 100 + refusal.number,
    }
}

fn check_or_refuse(value: &Value, positions: &[Position], marks: &[u8]) -> Result<bool, Refusal> {
    let instance = instance_of(value)?;
    judge_marks(&instance, marks)?;
    Ok(packing::is_feasible(&instance, positions, marks))
}

/// "9 is tested before 5, 8 and 10 by whoever takes a sheet value"
pub fn write(value: &Value, room: &mut [u8]) -> Result<usize, Refusal> {
    let instance = instance_of(value)?;
    sheet::write(&instance, room)
}

pub fn clearance(value: &Value, positions: &[Position], marks: &[u8], u: usize, v: usize, axis: usize) -> Result<i64, Refusal> {
    let instance = instance_of(value)?;
    packing::clearance(&instance, positions, marks, u, v, axis)
}
