//! Numbers from a seed, and instances with small measures.

use crate::reference::sheet::{Instance, GREATEST_MEASURE};

/// SplitMix64.
pub struct Random(u64);

impl Random {
    pub fn new(seed: u64, case: u64) -> Random {
        let mut random = Random(seed ^ case.wrapping_mul(0xD1B5_4A32_D192_ED03));
        random.next();
        random
    }

    pub fn next(&mut self) -> u64 {
        self.0 = self.0.wrapping_add(0x9E37_79B9_7F4A_7C15);
        let mut z = self.0;
        z = (z ^ (z >> 30)).wrapping_mul(0xBF58_476D_1CE4_E5B9);
        z = (z ^ (z >> 27)).wrapping_mul(0x94D0_49BB_1331_11EB);
        z ^ (z >> 31)
    }

    /// 0 to bound - 1.
    pub fn below(&mut self, bound: usize) -> usize {
        (self.next() % bound as u64) as usize
    }

    pub fn between(&mut self, least: usize, most: usize) -> usize {
        least + self.below(most + 1 - least)
    }

    pub fn one_in(&mut self, bound: usize) -> bool {
        self.below(bound) == 0
    }

    pub fn byte(&mut self) -> u8 {
        self.next() as u8
    }

    pub fn pick<T: Copy>(&mut self, from: &[T]) -> T {
        from[self.below(from.len())]
    }
}

/// A measure about the greatest, or above it.
pub fn about_greatest(random: &mut Random) -> u32 {
    let above = random.between(GREATEST_MEASURE as usize + 1, 65535) as u32;
    let near = GREATEST_MEASURE - 1 + random.below(4) as u32;
    random.pick(&[near, near, near, 0x0FFF, 0x1000, 0x8000, 0xFFFF, above])
}

/// The instance with one or two measures about the greatest, or above it.
pub fn with_greatest(random: &mut Random, instance: &Instance) -> Instance {
    let mut large = instance.clone();
    for _ in 0..random.between(1, 2) {
        let mut sizes: Vec<&mut [u32; 3]> = large.items.iter_mut().chain([&mut large.container]).collect();
        let at = random.below(sizes.len());
        sizes[at][random.below(3)] = about_greatest(random);
    }
    large
}

/// An instance whose items take up a good part of the container, so that answers vary.
pub fn instance(random: &mut Random, items: usize) -> Instance {
    let flat = random.below(3);
    let most = random.pick(&[2, 3, 4, 6, 9]);
    let mut sizes: Vec<[u32; 3]> = Vec::new();
    for _ in 0..items {
        let mut size = [1; 3];
        for axis in 0..3 {
            if !(flat == 0 && axis == 1) {
                size[axis] = random.between(1, most) as u32;
            }
        }
        sizes.push(size);
    }
    let mut container = [1; 3];
    for axis in 0..3 {
        container[axis] = sizes.iter().map(|size| size[axis]).max().unwrap_or(1);
    }
    // Grow the container until the items take up no more than a chosen part of its volume.
    let volume = |size: &[u32; 3]| size.iter().map(|&m| m as u64).product::<u64>();
    let taken: u64 = sizes.iter().map(volume).sum();
    let percent = random.pick(&[60, 80, 90, 95, 100, 100, 110]);
    while volume(&container) * percent < taken * 100 {
        let axis = if flat == 0 { random.pick(&[0, 2]) } else { random.below(3) };
        container[axis] += 1;
    }
    if random.one_in(12) {
        let axis = random.below(3);
        container[axis] = random.between(1, 12) as u32;
    }
    let mut precedences = Vec::new();
    if items > 1 && random.one_in(2) {
        let orders = random.between(1, items);
        let circles = random.one_in(6);
        for _ in 0..orders {
            let (u, v) = (random.below(items), random.below(items));
            if u != v {
                precedences.push(if circles { (u, v) } else { (u.min(v), u.max(v)) });
            }
        }
        // Along a hidden sequence that is not that of the numbers.
        let turn = random.below(items);
        for (u, v) in &mut precedences {
            *u = (*u + turn) % items;
            *v = (*v + turn) % items;
        }
    }
    if random.one_in(10) {
        // Many orders, up to all there are.
        let percent = random.pick(&[20, 60, 100]);
        let circles = random.one_in(3);
        for u in 0..items {
            for v in 0..items {
                if (u < v || circles && u != v) && random.below(100) < percent {
                    precedences.push((u, v));
                }
            }
        }
    }
    precedences.sort();
    precedences.dedup();
    let lags = lags(random, &sizes, &mut container, &precedences);
    let mut walkway = walkway(random, &sizes, &mut container, if flat == 0 { 1 } else { 2 });
    let any = random.between(1, 65535) as u32;
    let yard_number = random.pick(&[0, 0, 0, 0, 0, 1, 2, 256, 65535, any]);
    if random.one_in(40) {
        // Large measures: the same problem in other units.
        let factor = GREATEST_MEASURE / sizes.iter().chain([&container]).flatten().max().expect("the container's");
        for size in sizes.iter_mut().chain([&mut container]) {
            for measure in size.iter_mut() {
                *measure *= factor;
            }
        }
        walkway = (walkway * factor).min(255);
    }
    let may_turn = may_turn(random, &mut sizes);
    Instance { container, items: sizes, may_turn, precedences, lags, yard_number, walkway }
}

/// Which items may turn: none in a third of the instances; one, some, all but one, all. Of those that may, some are put the other way round, so that
/// they often fit only turned: any of them, the last ones, so that the choices in which they are turned are late, or none.
fn may_turn(random: &mut Random, sizes: &mut [[u32; 3]]) -> Vec<bool> {
    let items = sizes.len();
    let mut may_turn = vec![false; items];
    if items == 0 || random.one_in(3) {
        return may_turn;
    }
    let one = random.below(items);
    match if items > 8 { random.between(2, 4) } else { random.below(5) } {
        0 => may_turn[one] = true,
        1 | 2 => may_turn.iter_mut().for_each(|may_turn| *may_turn = random.one_in(2)),
        way => {
            may_turn.fill(true);
            may_turn[one] = way == 3;
        }
    }
    let way = if items > 8 { random.below(2) } else { random.below(3) };
    let late = items - random.between(1, items.min(2));
    for item in (0..items).filter(|&item| may_turn[item]) {
        if way == 0 && random.one_in(2) || way == 1 && item >= late {
            sizes[item].swap(0, 1);
        }
    }
    may_turn
}

/// A walkway, 0 in half of the instances: 1, small, about what is left beside two items, any, 255. Where it is not 0, the hall often gets a wider
/// floor, on the first or on both axes of it, so that answers vary.
fn walkway(random: &mut Random, sizes: &[[u32; 3]], container: &mut [u32; 3], axes: usize) -> u32 {
    if random.one_in(2) {
        return 0;
    }
    let axis = random.below(axes);
    let mut measure = || if sizes.is_empty() { 0 } else { sizes[random.below(sizes.len())][axis] as i64 };
    let both = measure() + measure();
    // One less, as much, or one more.
    let left = (container[axis] as i64 - both + random.below(3) as i64 - 1).clamp(1, 255) as u32;
    let byte = random.byte().max(1) as u32;
    let walkway = random.pick(&[1, 1, 1, 2, 3, left, left, byte, 255]);
    for measure in &mut container[..axes] {
        *measure += match random.below(6) {
            0 | 1 => 0,
            2 => walkway,
            3 => 2 * walkway,
            4 => walkway - 1,
            _ => random.below(walkway as usize + 1) as u32,
        };
    }
    walkway
}

/// A lag for each order, all 0 in a third of the instances. Where they are not, the hall often gets more shifts, so that answers vary.
fn lags(random: &mut Random, sizes: &[[u32; 3]], container: &mut [u32; 3], precedences: &[(usize, usize)]) -> Vec<u32> {
    let mut lags = vec![0; precedences.len()];
    if lags.is_empty() || random.one_in(3) {
        return lags;
    }
    let way = random.below(6);
    let one = random.below(lags.len());
    for (at, &(u, v)) in precedences.iter().enumerate() {
        let byte = random.byte() as u32;
        // What is left beside u and v: one less, as much, or one more.
        let left = container[2] as i64 - sizes[u][2] as i64 - sizes[v][2] as i64 + random.below(3) as i64 - 1;
        lags[at] = match way {
            0 => random.below(3) as u32,
            1 if at == one => random.pick(&[1, 2, 3, 128, 255]),
            1 => 0,
            2 => random.pick(&[0, 1, 255, byte]),
            3 => left.clamp(0, 255) as u32,
            4 => random.pick(&[0, 0, 1, left.clamp(0, 255) as u32]),
            _ => random.below(2) as u32,
        };
    }
    let most = lags.iter().copied().max().unwrap_or(0) as usize;
    container[2] += match random.below(4) {
        0 => 0,
        1 => random.below(most + 1) as u32,
        2 => most as u32,
        _ => random.below(2 * most + 2) as u32,
    };
    lags
}
