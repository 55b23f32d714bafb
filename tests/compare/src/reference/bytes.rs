//! Check, pieces and search on bytes, as the planning screen calls them, with request #106's marks and choices.

use super::packing::{is_feasible, Position};
use super::search::{Branch, Checkpoint, Search, Status};
use super::sheet::{read, refuse, Refusal};
use super::turning::judge_marks;

/// "275 in all"
pub const NOTE_BYTES: usize = 275;
/// "8 asks for 7 plan bytes a piece"
pub const PIECE_BYTES: usize = 7;
pub const MOST_BRANCHES: usize = 270;
/// Where the choice stands in a note.
pub const CHOICE_AT: usize = 273;

fn low_first(bytes: &[u8]) -> u32 {
    bytes.iter().rev().fold(0, |high, &byte| high * 256 + byte as u32)
}

/// "Its plan bytes are x, y, t for each piece, 2 bytes each", with a mark as "a seventh byte".
pub fn plan_bytes(positions: &[Position], marks: &[u8]) -> Vec<u8> {
    let mut plan = Vec::new();
    for (position, &mark) in positions.iter().zip(marks) {
        plan.extend(position.iter().flat_map(|&start| (start as u16).to_le_bytes()));
        plan.push(mark);
    }
    plan
}

pub fn positions_of(plan: &[u8]) -> Vec<Position> {
    plan.chunks(PIECE_BYTES).map(|item| [low_first(&item[..2]), low_first(&item[2..4]), low_first(&item[4..6])]).collect()
}

pub fn marks_of(plan: &[u8]) -> Vec<u8> {
    plan.chunks(PIECE_BYTES).map(|item| item[6]).collect()
}

/// "state (0 open, 1 none, 2 placed), the row's length in 2 bytes, then 270 turns (0 first, 1 second, 0 past the length)", and "the choice, as 2
/// bytes more at its end"
pub fn note_bytes(checkpoint: &Checkpoint) -> Vec<u8> {
    let state = match checkpoint.status {
        Status::Open => 0,
        Status::Infeasible => 1,
        Status::Packed => 2,
    };
    let mut note = vec![state];
    note.extend((checkpoint.path.len() as u16).to_le_bytes());
    note.extend(checkpoint.path.iter().map(|branch| match branch {
        Branch::First => 0,
        Branch::Second => 1,
    }));
    note.resize(CHOICE_AT, 0);
    note.extend((checkpoint.choice as u16).to_le_bytes());
    note
}

/// "other contents get 10"
fn checkpoint_of(note: &[u8]) -> Result<Checkpoint, Refusal> {
    let status = match note[0] {
        0 => Status::Open,
        1 => Status::Infeasible,
        2 => Status::Packed,
        _ => return refuse(10, 0),
    };
    let length = low_first(&note[1..3]) as usize;
    if length > MOST_BRANCHES {
        return refuse(10, 0);
    }
    let (branches, past) = note[3..CHOICE_AT].split_at(length);
    if past.iter().any(|&byte| byte != 0) {
        return refuse(10, 0);
    }
    let mut path = Vec::new();
    for &byte in branches {
        match byte {
            0 => path.push(Branch::First),
            1 => path.push(Branch::Second),
            _ => return refuse(10, 0),
        }
    }
    Ok(Checkpoint { status, path, choice: low_first(&note[CHOICE_AT..]) })
}

/// "Check returns 0 no, 1 yes, 100 plus the number for a refusal; the sheet's refusals come first."
pub fn check(sheet: &[u8], plan: &[u8]) -> u32 {
    check_or_refuse(sheet, plan).map_or_else(|refusal| 100 + refusal.number, |yes| yes as u32)
}

fn check_or_refuse(sheet: &[u8], plan: &[u8]) -> Result<bool, Refusal> {
    let instance = read(sheet)?;
    if plan.len() != PIECE_BYTES * instance.items.len() {
        return refuse(8, 0);
    }
    // "met by check .. after 8"
    judge_marks(&instance, &marks_of(plan))?;
    Ok(is_feasible(&instance, &positions_of(plan), &marks_of(plan)))
}

/// How many pieces the sheet has, or a refusal as check returns it.
pub fn pieces(sheet: &[u8]) -> u32 {
    read(sheet).map_or_else(|refusal| 100 + refusal.number, |instance| instance.items.len() as u32)
}

/// "It returns 0 spent, 1 placed, 2 none, or a refusal as check does, 8 before 10."
pub fn search(sheet: &[u8], note: &mut [u8], allowance: u32, steps: &mut [u8], plan: &mut [u8]) -> u32 {
    search_or_refuse(sheet, note, allowance, steps, plan).unwrap_or_else(|refusal| 100 + refusal.number)
}

fn search_or_refuse(sheet: &[u8], note: &mut [u8], allowance: u32, steps: &mut [u8], plan: &mut [u8]) -> Result<u32, Refusal> {
    let instance = read(sheet)?;
    if note.len() != NOTE_BYTES || steps.len() != 4 || plan.len() != PIECE_BYTES * instance.items.len() {
        return refuse(8, 0);
    }
    let mut search = Search::resume(&instance, &checkpoint_of(note)?)?;
    let taken = search.call(allowance);
    // "It rewrites the note and 4 bytes of steps, low byte first, and the plan bytes only when placed."
    note.copy_from_slice(&note_bytes(&search.checkpoint));
    steps.copy_from_slice(&taken.to_le_bytes());
    Ok(match search.checkpoint.status {
        Status::Open => 0,
        Status::Packed => {
            plan.copy_from_slice(&plan_bytes(&search.starts(), &search.marks()));
            1
        }
        Status::Infeasible => 2,
    })
}
