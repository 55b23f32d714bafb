//! A sheet's run by the independent implementation, step by step, and what the program has to print; and its earliest finish.

use crate::reference::bytes;
use crate::reference::finish;
use crate::reference::packing::Position;
use crate::reference::search::{opening, Branch, Search, Status};
use crate::reference::sheet;

/// The relations left of each pair, an axis a line: `o` overlap, `<` the first before the second, `>` the second before the first.
fn print_domains(search: &Search) {
    let domains = search.domains();
    for (axis, name) in ["x", "y", "t"].iter().enumerate() {
        let mut line = format!("    {name}");
        for (u, v) in domains.pairs() {
            let left = [(domains.may_overlap(axis, u, v), 'o'), (domains.may_precede(axis, u, v), '<'), (domains.may_precede(axis, v, u), '>')];
            let words: String = left.iter().map(|&(is_left, word)| if is_left { word } else { '.' }).collect();
            line += &format!("  {u},{v} {words}");
        }
        println!("{line}");
    }
}

fn print_step(search: &Search, taken: u32) {
    let row: String = search.checkpoint.path.iter().map(|branch| if *branch == Branch::First { " first" } else { " second" }).collect();
    let state = match search.checkpoint.status {
        Status::Open => "open",
        Status::Infeasible => "none",
        Status::Packed => "placed",
    };
    let choice = search.checkpoint.choice;
    println!("step {taken}: {state}, choice {choice}, row{}", if row.is_empty() { " empty" } else { &row });
    if search.checkpoint.status == Status::Open {
        print_domains(search);
    }
}

/// Runs to the end, or for `most_steps`; with `steps` it tells each of them.
pub fn run(bytes: &[u8], most_steps: u32, steps: bool) {
    let instance = match sheet::read(bytes) {
        Ok(instance) => instance,
        Err(refusal) => return println!("refused {} {}", refusal.number, refusal.place),
    };
    let mut search = Search::resume(&instance, &opening()).expect("the opening follows every instance");
    let mut taken = 0;
    while search.checkpoint.status == Status::Open && taken < most_steps {
        if steps {
            print_step(&search, taken);
        }
        search.step();
        taken += 1;
    }
    if steps {
        print_step(&search, taken);
    }
    match search.checkpoint.status {
        Status::Open => println!("spent {taken}"),
        Status::Infeasible => println!("none {taken}"),
        Status::Packed => {
            println!("placed {taken}");
            print_plan(&search.starts(), &search.marks());
        }
    }
}

fn print_plan(positions: &[Position], marks: &[u8]) {
    for (item, ([x, y, t], mark)) in positions.iter().zip(marks).enumerate() {
        println!("{item} {x} {y} {t} {mark}");
    }
}

/// The earliest finish, as examples/finish.c prints it.
pub fn finish(sheet: &[u8], allowance: u32) {
    let instance = match sheet::read(sheet) {
        Ok(instance) => instance,
        Err(refusal) => return println!("refused {}", refusal.number),
    };
    let answer = finish::finish(&instance, allowance);
    match answer.status {
        Status::Open => println!("spent {} {}", answer.length, answer.steps),
        Status::Infeasible => println!("none {}", answer.steps),
        Status::Packed => {
            println!("placed {} {}", answer.length, answer.steps);
            print_plan(&answer.positions, &answer.marks);
            println!("check {}", bytes::check(sheet, &bytes::plan_bytes(&answer.positions, &answer.marks)));
        }
    }
}
