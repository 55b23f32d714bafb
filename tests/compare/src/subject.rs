//! The independent implementation behind the functions that are compared: a planner to put errors into (tests/mutants).

#[allow(dead_code)]
mod layout;
#[allow(dead_code)]
mod reference;
#[macro_use]
mod signatures;

use reference::{bytes, finish, sheet, value};
use std::slice::{from_raw_parts, from_raw_parts_mut};

unsafe fn lent<'a>(start: *const u8, len: usize) -> &'a [u8] {
    from_raw_parts(start, len)
}

unsafe fn lent_mut<'a>(start: *mut u8, len: usize) -> &'a mut [u8] {
    from_raw_parts_mut(start, len)
}

fn number<T>(result: Result<T, sheet::Refusal>) -> u32 {
    result.map_or_else(|refusal| refusal.number, |_| 0)
}

fn place<T>(result: Result<T, sheet::Refusal>) -> usize {
    result.map_or_else(|refusal| refusal.place, |_| 0)
}

fn rewrite(bytes: &[u8], room: &mut [u8]) -> usize {
    sheet::read(bytes).and_then(|instance| sheet::write(&instance, room)).unwrap_or(0)
}

fn write(value: &[u8], room: &mut [u8]) -> Result<usize, sheet::Refusal> {
    value::write(&layout::value_of(value), room)
}

fn clearance(value: &[u8], plan: &[u8], u: usize, v: usize, axis: u8) -> Result<i64, sheet::Refusal> {
    let (positions, marks) = layout::packing_of(plan);
    value::clearance(&layout::value_of(value), &positions, &marks, u, v, axis as usize)
}

fn check(value: &[u8], plan: &[u8]) -> u32 {
    let (positions, marks) = layout::packing_of(plan);
    value::check(&layout::value_of(value), &positions, &marks)
}

/// What each function returns, of its arguments; a pointer and a length stand side by side.
macro_rules! body {
    (hallplan_check $s:ident $sl:ident $p:ident $pl:ident) => { bytes::check(lent($s, $sl), lent($p, $pl)) };
    (hallplan_pieces $s:ident $sl:ident) => { bytes::pieces(lent($s, $sl)) };
    (hallplan_search $s:ident $sl:ident $n:ident $nl:ident $allowance:ident $t:ident $tl:ident $p:ident $pl:ident) => {
        bytes::search(lent($s, $sl), lent_mut($n, $nl), $allowance, lent_mut($t, $tl), lent_mut($p, $pl))
    };
    (hallplan_finish $s:ident $sl:ident $allowance:ident $l:ident $ll:ident $t:ident $tl:ident $p:ident $pl:ident) => {
        finish::on_bytes(lent($s, $sl), $allowance, lent_mut($l, $ll), lent_mut($t, $tl), lent_mut($p, $pl))
    };
    (exports_read_number $s:ident $sl:ident) => { number(sheet::read(lent($s, $sl))) };
    (exports_read_place $s:ident $sl:ident) => { place(sheet::read(lent($s, $sl))) };
    (exports_rewrite $s:ident $sl:ident $r:ident $rl:ident) => { rewrite(lent($s, $sl), lent_mut($r, $rl)) };
    (exports_record_number $s:ident $sl:ident $item:ident) => { number(sheet::item_record(lent($s, $sl), $item)) };
    (exports_record_place $s:ident $sl:ident $item:ident) => { place(sheet::item_record(lent($s, $sl), $item)) };
    (exports_record_byte $s:ident $sl:ident $item:ident $i:ident) => {
        sheet::item_record(lent($s, $sl), $item).unwrap_or(&[]).get($i).map_or(256, |&byte| byte as u32)
    };
    (exports_check $s:ident $sl:ident $p:ident $pl:ident) => { check(lent($s, $sl), lent($p, $pl)) };
    (exports_write $s:ident $sl:ident $r:ident $rl:ident) => { write(lent($s, $sl), lent_mut($r, $rl)).unwrap_or(0) };
    (exports_write_number $s:ident $sl:ident $r:ident $rl:ident) => { number(write(lent($s, $sl), lent_mut($r, $rl))) };
    (exports_write_place $s:ident $sl:ident $r:ident $rl:ident) => { place(write(lent($s, $sl), lent_mut($r, $rl))) };
    (exports_clearance $s:ident $sl:ident $p:ident $pl:ident $u:ident $v:ident $axis:ident) => {
        clearance(lent($s, $sl), lent($p, $pl), $u, $v, $axis).unwrap_or(0) as i32
    };
    (exports_clearance_number $s:ident $sl:ident $p:ident $pl:ident $u:ident $v:ident $axis:ident) => {
        number(clearance(lent($s, $sl), lent($p, $pl), $u, $v, $axis))
    };
    (exports_clearance_place $s:ident $sl:ident $p:ident $pl:ident $u:ident $v:ident $axis:ident) => {
        place(clearance(lent($s, $sl), lent($p, $pl), $u, $v, $axis))
    };
}

macro_rules! exported {
    ($($name:ident($($parameter:ident: $kind:ty),*) -> $result:ty;)*) => {
        $(#[no_mangle]
        pub unsafe extern "C" fn $name($($parameter: $kind),*) -> $result {
            body!($name $($parameter)*)
        })*
    };
}

signatures!(exported);
