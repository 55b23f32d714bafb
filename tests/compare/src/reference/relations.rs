//! "Knowledge and striking": the relations left of every pair and axis, and the five rules.

use super::packing::TIME;
use super::sheet::Instance;

/// What counts between u and v: "On t a chain total adds the lag between neighbours that have an order, and rule 5's sum adds it between
/// u and v." An order that only follows from others is none of the sheet's. "On x and y a chain counts a walkway between neighbours, and rule
/// 5's sum one between u and v."
fn gap(instance: &Instance, axis: usize, u: usize, v: usize) -> u32 {
    if axis == TIME {
        instance.lag(u, v)
    } else {
        instance.walkway
    }
}

/// For each axis, and each u and v, whether a relation is left.
#[derive(Clone, PartialEq, Eq, Debug)]
pub struct Domains {
    n: usize,
    overlap: Vec<Vec<Vec<bool>>>,
    before: Vec<Vec<Vec<bool>>>,
}

impl Domains {
    /// "The opening knowledge strikes all but "u before v" on t for each order."
    pub fn opening(instance: &Instance) -> Domains {
        let n = instance.items.len();
        let all = vec![vec![vec![true; n]; n]; 3];
        let mut domains = Domains { n, overlap: all.clone(), before: all };
        for &(u, v) in &instance.precedences {
            domains.keep_before(TIME, u, v);
        }
        domains
    }

    pub fn may_overlap(&self, axis: usize, u: usize, v: usize) -> bool {
        self.overlap[axis][u][v]
    }

    pub fn may_precede(&self, axis: usize, u: usize, v: usize) -> bool {
        self.before[axis][u][v]
    }

    /// Each of these tells whether something was left to be removed.
    pub fn remove_overlap(&mut self, axis: usize, u: usize, v: usize) -> bool {
        let was = self.overlap[axis][u][v];
        self.overlap[axis][u][v] = false;
        self.overlap[axis][v][u] = false;
        was
    }

    pub fn remove_before(&mut self, axis: usize, u: usize, v: usize) -> bool {
        std::mem::replace(&mut self.before[axis][u][v], false)
    }

    /// "strike all but u before v"
    pub fn keep_before(&mut self, axis: usize, u: usize, v: usize) -> bool {
        self.remove_overlap(axis, u, v) | self.remove_before(axis, v, u)
    }

    /// "strike all but overlap"
    pub fn keep_overlap(&mut self, axis: usize, u: usize, v: usize) -> bool {
        self.remove_before(axis, u, v) | self.remove_before(axis, v, u)
    }

    /// "A word is known when the other two are struck"
    fn overlap_fixed(&self, axis: usize, u: usize, v: usize) -> bool {
        !self.may_precede(axis, u, v) && !self.may_precede(axis, v, u)
    }

    pub fn before_fixed(&self, axis: usize, u: usize, v: usize) -> bool {
        !self.may_overlap(axis, u, v) && !self.may_precede(axis, v, u)
    }

    pub fn relations_left(&self, axis: usize, u: usize, v: usize) -> usize {
        self.may_overlap(axis, u, v) as usize + self.may_precede(axis, u, v) as usize + self.may_precede(axis, v, u) as usize
    }

    /// "A piece above the hall's measure, or a pair and axis with all three struck"
    pub fn is_inconsistent(&self, instance: &Instance) -> bool {
        let too_large = instance.items.iter().any(|size| (0..3).any(|axis| size[axis] > instance.container[axis]));
        let nothing_left = self.pairs().any(|(u, v)| (0..3).any(|axis| self.relations_left(axis, u, v) == 0));
        too_large || nothing_left
    }

    /// "u, v with u < v in the sequence (0,1), (0,2), (1,2), (0,3), up to (8,9)"
    pub fn pairs(&self) -> impl Iterator<Item = (usize, usize)> {
        (0..self.n).flat_map(|v| (0..v).map(move |u| (u, v)))
    }

    /// "Overlap known on two axes of a pair: strike it on the third"
    fn rule_1(&mut self) -> bool {
        let mut changed = false;
        for (u, v) in self.pairs() {
            for third in 0..3 {
                if (0..3).filter(|&axis| axis != third).all(|axis| self.overlap_fixed(axis, u, v)) {
                    changed |= self.remove_overlap(third, u, v);
                }
            }
        }
        changed
    }

    /// "u before v and v before w known: strike all but u before w"
    fn rule_2(&mut self, axis: usize) -> bool {
        let mut changed = false;
        for u in 0..self.n {
            for v in (0..self.n).filter(|&v| v != u) {
                if !self.before_fixed(axis, u, v) {
                    continue;
                }
                for w in (0..self.n).filter(|&w| w != u && w != v) {
                    if self.before_fixed(axis, v, w) {
                        changed |= self.keep_before(axis, u, w);
                    }
                }
            }
        }
        changed
    }

    /// "u before v known and "u before w" struck: strike "v before w". v before w known and "u before w" struck: strike
    /// "u before v""
    fn rule_3(&mut self, axis: usize) -> bool {
        let mut changed = false;
        for u in 0..self.n {
            for w in (0..self.n).filter(|&w| w != u) {
                if self.may_precede(axis, u, w) {
                    continue;
                }
                for v in (0..self.n).filter(|&v| v != u && v != w) {
                    if self.before_fixed(axis, u, v) {
                        changed |= self.remove_before(axis, v, w);
                    }
                    if self.before_fixed(axis, v, w) {
                        changed |= self.remove_before(axis, u, v);
                    }
                }
            }
        }
        changed
    }

    /// "ab, bc, cd, da known to overlap and overlap struck for ac: strike all but overlap for bd"
    fn rule_4(&mut self, axis: usize) -> bool {
        let mut changed = false;
        for a in 0..self.n {
            for c in (0..self.n).filter(|&c| c != a) {
                if self.may_overlap(axis, a, c) {
                    continue;
                }
                for b in (0..self.n).filter(|&b| b != a && b != c) {
                    if !(self.overlap_fixed(axis, a, b) && self.overlap_fixed(axis, b, c)) {
                        continue;
                    }
                    for d in (0..self.n).filter(|&d| d != a && d != b && d != c) {
                        if self.overlap_fixed(axis, c, d) && self.overlap_fixed(axis, d, a) {
                            changed |= self.keep_overlap(axis, b, d);
                        }
                    }
                }
            }
        }
        changed
    }

    /// "If the greatest chain ending in u and the greatest starting in v add up to more than the hall, strike "u before v""
    fn rule_5(&mut self, instance: &Instance, axis: usize) -> bool {
        let mut changed = false;
        let ending: Vec<u32> = (0..self.n).map(|u| self.greatest_ending(instance, axis, u, &mut Vec::new())).collect();
        let starting: Vec<u32> = (0..self.n).map(|v| self.greatest_starting(instance, axis, v, &mut Vec::new())).collect();
        for u in 0..self.n {
            for v in 0..self.n {
                if u != v && ending[u] + gap(instance, axis, u, v) + starting[v] > instance.container[axis] {
                    changed |= self.remove_before(axis, u, v);
                }
            }
        }
        changed
    }

    /// The greatest total of "a row of distinct pieces, each known before the next", that ends in `item`.
    pub fn greatest_ending(&self, instance: &Instance, axis: usize, item: usize, had: &mut Vec<usize>) -> u32 {
        had.push(item);
        let mut greatest = 0;
        for u in 0..self.n {
            if !had.contains(&u) && self.before_fixed(axis, u, item) {
                greatest = greatest.max(self.greatest_ending(instance, axis, u, had) + gap(instance, axis, u, item));
            }
        }
        had.pop();
        greatest + instance.items[item][axis]
    }

    /// The same for chains that start in `item`.
    fn greatest_starting(&self, instance: &Instance, axis: usize, item: usize, had: &mut Vec<usize>) -> u32 {
        had.push(item);
        let mut greatest = 0;
        for v in 0..self.n {
            if !had.contains(&v) && self.before_fixed(axis, item, v) {
                greatest = greatest.max(gap(instance, axis, item, v) + self.greatest_starting(instance, axis, v, had));
            }
        }
        had.pop();
        greatest + instance.items[item][axis]
    }

    /// "These hold .. until nothing more can be struck". What is inconsistent stays so: "struck stays struck".
    pub fn propagate(&mut self, instance: &Instance) {
        loop {
            if self.is_inconsistent(instance) {
                return;
            }
            let mut changed = self.rule_1();
            for axis in 0..3 {
                changed |= self.rule_2(axis);
                changed |= self.rule_3(axis);
                changed |= self.rule_4(axis);
            }
            if changed {
                continue;
            }
            for axis in 0..3 {
                changed |= self.rule_5(instance, axis);
            }
            if !changed {
                return;
            }
        }
    }
}
