//! "Fit": what a feasible packing is, and the clearance of two items.

use super::sheet::{refuse, Instance, Refusal};
use super::turning::{judge_marks, turned};

/// x, y, t.
pub type Position = [u32; 3];

pub const TIME: usize = 2;

fn end(instance: &Instance, positions: &[Position], item: usize, axis: usize) -> u32 {
    positions[item][axis] + instance.items[item][axis]
}

/// "one ends at or before the other's start"; request #105: "Apart on x or y then means that one ends at least the walkway before the other's
/// start"
fn ends_before(instance: &Instance, positions: &[Position], u: usize, v: usize, axis: usize) -> bool {
    let passage = if axis == TIME { 0 } else { instance.walkway };
    end(instance, positions, u, axis) + passage <= positions[v][axis]
}

/// Of a plan whose marks are judged.
pub fn is_feasible(instance: &Instance, positions: &[Position], marks: &[u8]) -> bool {
    let instance = &turned(instance, marks);
    let n = instance.items.len();
    let inside = (0..n).all(|u| (0..3).all(|axis| end(instance, positions, u, axis) <= instance.container[axis]));
    let apart = |u, v| {
        (0..3).any(|axis| {
            ends_before(instance, positions, u, v, axis) || ends_before(instance, positions, v, u, axis)
        })
    };
    let all_apart = (0..n).all(|v| (0..v).all(|u| apart(u, v)));
    // "u's end plus the lag is at most v's start"
    let ordered = instance.precedences.iter().zip(&instance.lags).all(|(&(u, v), &lag)| {
        end(instance, positions, u, TIME) + lag <= positions[v][TIME]
    });
    inside && all_apart && ordered
}

/// "the greater of (v's start − u's end) and (u's start − v's end)"; "clearance then tests 5 and then 8"; 13 is "met by check and clearance after 8"
pub fn clearance(instance: &Instance, positions: &[Position], marks: &[u8], u: usize, v: usize, axis: usize) -> Result<i64, Refusal> {
    if u >= instance.items.len() || v >= instance.items.len() {
        return refuse(5, 0);
    }
    if axis > 2 {
        return refuse(8, 0);
    }
    judge_marks(instance, marks)?;
    let instance = &turned(instance, marks);
    let after = |u: usize, v: usize| positions[v][axis] as i64 - end(instance, positions, u, axis) as i64;
    Ok(after(u, v).max(after(v, u)))
}
