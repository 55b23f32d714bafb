//! The functions that are compared, as C sees them: `signatures!(m)` hands them all to the macro `m`.

macro_rules! signatures {
    ($m:ident) => {
        $m! {
            hallplan_check(sheet: *const u8, sheet_len: usize, plan: *const u8, plan_len: usize) -> u32;
            hallplan_pieces(sheet: *const u8, sheet_len: usize) -> u32;
            hallplan_search(
                sheet: *const u8, sheet_len: usize, note: *mut u8, note_len: usize, allowance: u32,
                steps: *mut u8, steps_len: usize, plan: *mut u8, plan_len: usize
            ) -> u32;
            hallplan_finish(
                sheet: *const u8, sheet_len: usize, allowance: u32, length: *mut u8, length_len: usize,
                steps: *mut u8, steps_len: usize, plan: *mut u8, plan_len: usize
            ) -> u32;
            exports_read_number(sheet: *const u8, sheet_len: usize) -> u32;
            exports_read_place(sheet: *const u8, sheet_len: usize) -> usize;
            exports_rewrite(sheet: *const u8, sheet_len: usize, room: *mut u8, room_len: usize) -> usize;
            exports_record_number(sheet: *const u8, sheet_len: usize, item: usize) -> u32;
            exports_record_place(sheet: *const u8, sheet_len: usize, item: usize) -> usize;
            exports_record_byte(sheet: *const u8, sheet_len: usize, item: usize, i: usize) -> u32;
            exports_check(value: *const u8, value_len: usize, plan: *const u8, plan_len: usize) -> u32;
            exports_write(value: *const u8, value_len: usize, room: *mut u8, room_len: usize) -> usize;
            exports_write_number(value: *const u8, value_len: usize, room: *mut u8, room_len: usize) -> u32;
            exports_write_place(value: *const u8, value_len: usize, room: *mut u8, room_len: usize) -> usize;
            exports_clearance(
                value: *const u8, value_len: usize, plan: *const u8, plan_len: usize, u: usize, v: usize, axis: u8
            ) -> i32;
            exports_clearance_number(
                value: *const u8, value_len: usize, plan: *const u8, plan_len: usize, u: usize, v: usize, axis: u8
            ) -> u32;
            exports_clearance_place(
                value: *const u8, value_len: usize, plan: *const u8, plan_len: usize, u: usize, v: usize, axis: u8
            ) -> usize;
        }
    };
}
