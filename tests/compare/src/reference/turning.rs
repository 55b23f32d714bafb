//! Request #106, "Pieces that may be turned": the choices, the problem that each stands for, and the marks of a plan.

use super::sheet::{refuse, Instance, Refusal};

/// The items that may turn, by rising number: "square pieces count too".
fn turnable(instance: &Instance) -> Vec<usize> {
    (0..instance.items.len()).filter(|&item| instance.may_turn[item]).collect()
}

/// "Choices are counted upward from 0"
pub fn last_choice(instance: &Instance) -> u32 {
    2u32.pow(turnable(instance).len() as u32) - 1
}

/// The marks of a choice: "the lowest-numbered turnable piece being the lowest binary digit, 1 for turned".
pub fn marks_of(instance: &Instance, choice: u32) -> Vec<u8> {
    let mut marks = vec![0; instance.items.len()];
    let mut rest = choice;
    for item in turnable(instance) {
        marks[item] = (rest % 2) as u8;
        rest /= 2;
    }
    marks
}

/// The instance with "width and depth .. exchanged" of the marked items.
pub fn turned(instance: &Instance, marks: &[u8]) -> Instance {
    let mut turned = instance.clone();
    for (size, &mark) in turned.items.iter_mut().zip(marks) {
        if mark == 1 {
            *size = [size[1], size[0], size[2]];
        }
    }
    turned
}

/// 13: "a plan mark above 1, or 1 on a piece that may not turn"; marks are "ignored .. wherever a position is".
pub fn judge_marks(instance: &Instance, marks: &[u8]) -> Result<(), Refusal> {
    for (&mark, &may_turn) in marks.iter().zip(&instance.may_turn) {
        if mark > 1 || mark == 1 && !may_turn {
            return refuse(13, 0);
        }
    }
    Ok(())
}
