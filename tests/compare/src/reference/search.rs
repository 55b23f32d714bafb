//! "The search", with request #106's choices: branching, one step, one call.

use super::packing::Position;
use super::relations::Domains;
use super::sheet::{refuse, Instance, Refusal};
use super::turning::{last_choice, marks_of, turned};

#[derive(Clone, Copy, PartialEq, Eq, Debug)]
pub enum Status {
    Open,
    Infeasible,
    Packed,
}

#[derive(Clone, Copy, PartialEq, Eq, Debug)]
pub enum Branch {
    First,
    Second,
}

/// "A note is open, none or placed, with a row of turns, each first or second." "The note holds the choice".
#[derive(Clone, PartialEq, Eq, Debug)]
pub struct Checkpoint {
    pub status: Status,
    pub path: Vec<Branch>,
    pub choice: u32,
}

/// "the opening note holds 0"
pub fn opening() -> Checkpoint {
    Checkpoint { status: Status::Open, path: Vec::new(), choice: 0 }
}

/// What the domains of a path show.
#[derive(Clone, Copy, PartialEq, Eq, Debug)]
pub enum Look {
    Inconsistent,
    Packed,
    Fork { u: usize, v: usize, axis: usize },
}

pub fn look(instance: &Instance, domains: &Domains) -> Look {
    if domains.is_inconsistent(instance) {
        return Look::Inconsistent;
    }
    // "take the first pair in number order that has no known "before", and its first axis of x, y, t with more than one word left"
    let undecided = domains.pairs().find(|&(u, v)| {
        !(0..3).any(|axis| domains.before_fixed(axis, u, v) || domains.before_fixed(axis, v, u))
    });
    match undecided {
        None => Look::Packed,
        Some((u, v)) => {
            let axis = (0..3).find(|&axis| domains.relations_left(axis, u, v) > 1);
            let axis = axis.expect("a pair with overlap on all three axes is inconsistent");
            Look::Fork { u, v, axis }
        }
    }
}

/// "If overlap is left, the first turn strikes overlap and the second strikes both others; otherwise the first strikes "v before
/// u", the second "u before v"."
fn take_branch(domains: &mut Domains, u: usize, v: usize, axis: usize, branch: Branch) {
    match (domains.may_overlap(axis, u, v), branch) {
        (true, Branch::First) => domains.remove_overlap(axis, u, v),
        (true, Branch::Second) => domains.keep_overlap(axis, u, v),
        (false, Branch::First) => domains.remove_before(axis, v, u),
        (false, Branch::Second) => domains.remove_before(axis, u, v),
    };
}

/// "On each axis a piece starts at the total of the greatest chain ending in it, less its own measure."
pub fn starts(instance: &Instance, domains: &Domains) -> Vec<Position> {
    let start = |item: usize, axis: usize| {
        domains.greatest_ending(instance, axis, item, &mut Vec::new()) - instance.items[item][axis]
    };
    (0..instance.items.len()).map(|item| [start(item, 0), start(item, 1), start(item, 2)]).collect()
}

/// A search that stands at a checkpoint. `problem` is the instance turned by its choice; `levels` has the domains of every beginning of the path, the
/// whole path last.
#[derive(Clone)]
pub struct Search {
    pub instance: Instance,
    problem: Instance,
    pub checkpoint: Checkpoint,
    levels: Vec<Domains>,
}

impl Search {
    /// 10: "a note that doesn't follow its sheet"
    pub fn resume(instance: &Instance, checkpoint: &Checkpoint) -> Result<Search, Refusal> {
        // "10 covers a choice beyond the last, or not the last in a none note"
        let last = last_choice(instance);
        if checkpoint.choice > last || checkpoint.status == Status::Infeasible && checkpoint.choice != last {
            return refuse(10, 0);
        }
        let mut search = Search { instance: instance.clone(), problem: instance.clone(), checkpoint: opening(), levels: vec![] };
        search.open(checkpoint.choice);
        // "each shorter beginning of its row is a branching point"
        for &branch in &checkpoint.path {
            match search.look() {
                Look::Fork { .. } => search.append(branch),
                _ => return refuse(10, 0),
            }
        }
        // "a placed note's row is placed; a none note's row is empty"
        match checkpoint.status {
            Status::Packed if search.look() != Look::Packed => return refuse(10, 0),
            Status::Infeasible if !checkpoint.path.is_empty() => return refuse(10, 0),
            status => search.checkpoint.status = status,
        }
        Ok(search)
    }

    /// The choice with an empty row.
    fn open(&mut self, choice: u32) {
        let problem = turned(&self.instance, &marks_of(&self.instance, choice));
        let mut root = Domains::opening(&problem);
        root.propagate(&problem);
        self.checkpoint = Checkpoint { choice, ..opening() };
        self.levels = vec![root];
        self.problem = problem;
    }

    pub fn domains(&self) -> &Domains {
        self.levels.last().expect("the root is always there")
    }

    pub fn look(&self) -> Look {
        look(&self.problem, self.domains())
    }

    pub fn starts(&self) -> Vec<Position> {
        starts(&self.problem, self.domains())
    }

    /// The marks that go with the starts.
    pub fn marks(&self) -> Vec<u8> {
        marks_of(&self.instance, self.checkpoint.choice)
    }

    /// Appends a branch at a fork.
    pub fn append(&mut self, branch: Branch) {
        let Look::Fork { u, v, axis } = self.look() else { panic!("no fork") };
        let mut domains = self.domains().clone();
        take_branch(&mut domains, u, v, axis, branch);
        domains.propagate(&self.problem);
        self.checkpoint.path.push(branch);
        self.levels.push(domains);
    }

    fn drop_last(&mut self) -> Option<Branch> {
        let last = self.checkpoint.path.pop()?;
        self.levels.pop();
        Some(last)
    }

    /// "One step on an open note".
    pub fn step(&mut self) {
        match self.look() {
            // "drop the trailing second turns; if none is left, the note is none with an empty row; else the last first turn
            // becomes second"
            Look::Inconsistent => loop {
                match self.drop_last() {
                    Some(Branch::Second) => continue,
                    Some(Branch::First) => {
                        self.append(Branch::Second);
                        break;
                    }
                    // "the step that would say "none" opens the next choice with an empty row instead, until the last"
                    None if self.checkpoint.choice < last_choice(&self.instance) => {
                        self.open(self.checkpoint.choice + 1);
                        break;
                    }
                    None => {
                        self.checkpoint.status = Status::Infeasible;
                        break;
                    }
                }
            },
            Look::Packed => self.checkpoint.status = Status::Packed,
            Look::Fork { .. } => self.append(Branch::First),
        }
    }

    /// "A call takes steps while its note is open and its allowance lasts": the steps taken.
    pub fn call(&mut self, budget: u32) -> u32 {
        let mut taken = 0;
        while self.checkpoint.status == Status::Open && taken < budget {
            self.step();
            taken += 1;
        }
        taken
    }
}
