//! The functions under test, on buffers with guard bytes around them.

macro_rules! declared {
    ($($name:ident($($parameter:ident: $kind:ty),*) -> $result:ty;)*) => {
        extern "C" { $(pub fn $name($($parameter: $kind),*) -> $result;)* }
    };
}

mod linked {
    signatures!(declared);
}

const GUARD: usize = 32;

fn guard_byte(place: usize) -> u8 {
    0xA5 ^ (place * 29) as u8
}

/// A buffer with guard bytes before and after it.
pub struct Lent {
    space: Vec<u8>,
    len: usize,
}

impl Lent {
    pub fn new(content: &[u8]) -> Lent {
        let len = content.len();
        let mut space: Vec<u8> = (0..len + 2 * GUARD).map(guard_byte).collect();
        space[GUARD..GUARD + len].copy_from_slice(content);
        Lent { space, len }
    }

    fn start(&self) -> *const u8 {
        self.space[GUARD..].as_ptr()
    }

    fn start_mut(&mut self) -> *mut u8 {
        self.space[GUARD..].as_mut_ptr()
    }

    /// The content, if the guards are whole.
    pub fn content(&self) -> Result<Vec<u8>, &'static str> {
        let whole = |places: std::ops::Range<usize>| places.into_iter().all(|place| self.space[place] == guard_byte(place));
        if !whole(0..GUARD) || !whole(GUARD + self.len..self.space.len()) {
            return Err("guard bytes overwritten");
        }
        Ok(self.space[GUARD..GUARD + self.len].to_vec())
    }
}

/// What a call returned and left in the buffers.
#[derive(PartialEq, Eq, Debug, Clone)]
pub struct Searched {
    pub returned: u32,
    pub note: Result<Vec<u8>, &'static str>,
    pub steps: Result<Vec<u8>, &'static str>,
    pub plan: Result<Vec<u8>, &'static str>,
}

/// A result, if the lent sheet and plan are as they were.
fn unless_changed<T>(lent: &[(&Lent, &[u8])], result: T) -> Result<T, &'static str> {
    for (buffer, content) in lent {
        if buffer.content()? != *content {
            return Err("a buffer lent to be read was written");
        }
    }
    Ok(result)
}

pub fn check(sheet: &[u8], plan: &[u8]) -> Result<u32, &'static str> {
    let (s, p) = (Lent::new(sheet), Lent::new(plan));
    let returned = unsafe { linked::hallplan_check(s.start(), s.len, p.start(), p.len) };
    unless_changed(&[(&s, sheet), (&p, plan)], returned)
}

pub fn pieces(sheet: &[u8]) -> Result<u32, &'static str> {
    let s = Lent::new(sheet);
    let returned = unsafe { linked::hallplan_pieces(s.start(), s.len) };
    unless_changed(&[(&s, sheet)], returned)
}

pub fn search(sheet: &[u8], note: &[u8], allowance: u32, steps: &[u8], plan: &[u8]) -> Result<Searched, &'static str> {
    let s = Lent::new(sheet);
    let (mut n, mut t, mut p) = (Lent::new(note), Lent::new(steps), Lent::new(plan));
    let returned = unsafe {
        linked::hallplan_search(s.start(), s.len, n.start_mut(), n.len, allowance, t.start_mut(), t.len, p.start_mut(), p.len)
    };
    let searched = Searched { returned, note: n.content(), steps: t.content(), plan: p.content() };
    unless_changed(&[(&s, sheet)], searched)
}

/// What a call for the earliest finish returned and left in the buffers.
#[derive(PartialEq, Eq, Debug, Clone)]
pub struct Finished {
    pub returned: u32,
    pub length: Result<Vec<u8>, &'static str>,
    pub steps: Result<Vec<u8>, &'static str>,
    pub plan: Result<Vec<u8>, &'static str>,
}

pub fn finish(sheet: &[u8], allowance: u32, length: &[u8], steps: &[u8], plan: &[u8]) -> Result<Finished, &'static str> {
    let s = Lent::new(sheet);
    let (mut l, mut t, mut p) = (Lent::new(length), Lent::new(steps), Lent::new(plan));
    let returned = unsafe {
        linked::hallplan_finish(s.start(), s.len, allowance, l.start_mut(), l.len, t.start_mut(), t.len, p.start_mut(), p.len)
    };
    let finished = Finished { returned, length: l.content(), steps: t.content(), plan: p.content() };
    unless_changed(&[(&s, sheet)], finished)
}

/// Number and place; 0 and 0 where the sheet reads.
pub fn read(sheet: &[u8]) -> Result<(u32, usize), &'static str> {
    let s = Lent::new(sheet);
    let code = unsafe { (linked::exports_read_number(s.start(), s.len), linked::exports_read_place(s.start(), s.len)) };
    unless_changed(&[(&s, sheet)], code)
}

/// The length written, 0 where it is refused, and the room.
pub fn rewrite(sheet: &[u8], room: &[u8]) -> Result<(usize, Vec<u8>), &'static str> {
    let s = Lent::new(sheet);
    let mut r = Lent::new(room);
    let written = unsafe { linked::exports_rewrite(s.start(), s.len, r.start_mut(), r.len) };
    let left = r.content()?;
    unless_changed(&[(&s, sheet)], (written, left))
}

/// The record's bytes, and number and place of its refusal.
pub fn item_record(sheet: &[u8], item: usize) -> Result<(Vec<u8>, u32, usize), &'static str> {
    let s = Lent::new(sheet);
    let byte = |i| unsafe { linked::exports_record_byte(s.start(), s.len, item, i) };
    let record = (0..sheet.len()).map(byte).take_while(|&byte| byte < 256).map(|byte| byte as u8).collect();
    let (number, place) =
        unsafe { (linked::exports_record_number(s.start(), s.len, item), linked::exports_record_place(s.start(), s.len, item)) };
    unless_changed(&[(&s, sheet)], (record, number, place))
}

/// The check of a value: as document 01 numbers it.
pub fn check_value(value: &[u8], plan: &[u8]) -> Result<u32, &'static str> {
    let (s, p) = (Lent::new(value), Lent::new(plan));
    let returned = unsafe { linked::exports_check(s.start(), s.len, p.start(), p.len) };
    unless_changed(&[(&s, value), (&p, plan)], returned)
}

/// What writing a value returned and left: the length, 0 where it is refused, number and place of the refusal, and the room.
#[derive(PartialEq, Eq, Debug, Clone)]
pub struct Written {
    pub length: usize,
    pub number: u32,
    pub place: usize,
    pub room: Vec<u8>,
}

pub fn write_value(value: &[u8], room: &[u8]) -> Result<Written, &'static str> {
    let s = Lent::new(value);
    let mut rooms = [Lent::new(room), Lent::new(room), Lent::new(room)];
    let starts = [0, 1, 2].map(|i| rooms[i].start_mut());
    let (length, number, place) = unsafe {
        (
            linked::exports_write(s.start(), s.len, starts[0], room.len()),
            linked::exports_write_number(s.start(), s.len, starts[1], room.len()),
            linked::exports_write_place(s.start(), s.len, starts[2], room.len()),
        )
    };
    let left = rooms[0].content()?;
    if rooms[1].content()? != left || rooms[2].content()? != left {
        return Err("the same writing left two rooms");
    }
    unless_changed(&[(&s, value)], Written { length, number, place, room: left })
}

/// The clearance, 0 where it is refused, and the refusal's number and place.
pub fn clearance(value: &[u8], plan: &[u8], u: usize, v: usize, axis: u8) -> Result<(i64, u32, usize), &'static str> {
    let (s, p) = (Lent::new(value), Lent::new(plan));
    let answer = unsafe {
        (
            linked::exports_clearance(s.start(), s.len, p.start(), p.len, u, v, axis) as i64,
            linked::exports_clearance_number(s.start(), s.len, p.start(), p.len, u, v, axis),
            linked::exports_clearance_place(s.start(), s.len, p.start(), p.len, u, v, axis),
        )
    };
    unless_changed(&[(&s, value), (&p, plan)], answer)
}
