//! The functions of the archive as they are. `hosts/include/ink_operators.h` says what each answers and writes, what it asks of its caller,
//! and how values stand in words.

unsafe extern "C" {
    pub fn ink_check(pack: *const u8, pack_len: usize) -> u32;

    pub fn ink_vet(
        pack: *const u8,
        pack_len: usize,
        sheet: usize,
        kinds: *const [u8; 16],
        forecast: *mut u8,
        forecast_len: usize,
        index: *mut u64,
    ) -> u32;

    pub fn ink_run(
        pack: *const u8,
        pack_len: usize,
        sheet: usize,
        slots: *const [u64; 48],
        slot_items: *const u16,
        slot_items_len: usize,
        slot_values: *const i32,
        slot_values_len: usize,
        work_items: *mut u16,
        work_items_len: usize,
        work_values: *mut i32,
        work_values_len: usize,
        result_items: *mut u16,
        result_items_len: usize,
        result_values: *mut i32,
        result_values_len: usize,
        answer: *mut [u64; 3],
    ) -> u32;

    pub fn ink_call(
        pack: *const u8,
        pack_len: usize,
        op: u8,
        count: usize,
        operands: *const [u64; 9],
        items: *const u16,
        items_len: usize,
        values: *const i32,
        values_len: usize,
        result_items: *mut u16,
        result_items_len: usize,
        result_values: *mut i32,
        result_values_len: usize,
        answer: *mut [u64; 3],
    ) -> u32;

    pub fn ink_cast(
        pack: *const u8,
        pack_len: usize,
        code: u8,
        operand: *const [u64; 3],
        items: *const u16,
        items_len: usize,
        values: *const i32,
        values_len: usize,
        result_items: *mut u16,
        result_items_len: usize,
        result_values: *mut i32,
        result_values_len: usize,
        answer: *mut [u64; 3],
    ) -> u32;

    pub fn ink_coerce_to_bool(
        pack: *const u8,
        pack_len: usize,
        operand: *const [u64; 3],
        items: *const u16,
        items_len: usize,
        values: *const i32,
        values_len: usize,
        answer: *mut [u64; 3],
    ) -> u32;

    pub fn ink_coerce_to_int(
        pack: *const u8,
        pack_len: usize,
        operand: *const [u64; 3],
        items: *const u16,
        items_len: usize,
        values: *const i32,
        values_len: usize,
        answer: *mut [u64; 3],
    ) -> u32;

    pub fn ink_coerce_to_float(
        pack: *const u8,
        pack_len: usize,
        operand: *const [u64; 3],
        items: *const u16,
        items_len: usize,
        values: *const i32,
        values_len: usize,
        answer: *mut [u64; 3],
    ) -> u32;

    pub fn ink_definitions(
        pack: *const u8,
        pack_len: usize,
        ends: *mut u16,
        ends_len: usize,
        defined: *mut i32,
        defined_len: usize,
        counts: *mut [u64; 2],
    ) -> u32;

    pub fn ink_run_checked(
        pack: *const u8,
        pack_len: usize,
        ends: *const u16,
        definitions: usize,
        defined: *const i32,
        items: usize,
        sheet: usize,
        slots: *const [u64; 48],
        slot_items: *const u16,
        slot_items_len: usize,
        slot_values: *const i32,
        slot_values_len: usize,
        work_items: *mut u16,
        work_items_len: usize,
        work_values: *mut i32,
        work_values_len: usize,
        result_items: *mut u16,
        result_items_len: usize,
        result_values: *mut i32,
        result_values_len: usize,
        answer: *mut [u64; 3],
    ) -> u32;

    pub fn ink_call_checked(
        ends: *const u16,
        definitions: usize,
        defined: *const i32,
        items: usize,
        op: u8,
        count: usize,
        operands: *const [u64; 9],
        list_items: *const u16,
        list_items_len: usize,
        list_values: *const i32,
        list_values_len: usize,
        result_items: *mut u16,
        result_items_len: usize,
        result_values: *mut i32,
        result_values_len: usize,
        answer: *mut [u64; 3],
    ) -> u32;

    pub fn ink_apply(
        ends: *const u16,
        definitions: usize,
        defined: *const i32,
        items: usize,
        op: u8,
        count: usize,
        operands: *const [u64; 9],
        list_items: *const u16,
        list_items_len: usize,
        list_values: *const i32,
        list_values_len: usize,
        result_items: *mut u16,
        result_items_len: usize,
        result_values: *mut i32,
        result_values_len: usize,
        answer: *mut [u64; 3],
    ) -> u32;
}

/// [`ink_call_checked`] and [`ink_apply`], which take the same.
pub type Call = unsafe extern "C" fn(
    *const u16,
    usize,
    *const i32,
    usize,
    u8,
    usize,
    *const [u64; 9],
    *const u16,
    usize,
    *const i32,
    usize,
    *mut u16,
    usize,
    *mut i32,
    usize,
    *mut [u64; 3],
) -> u32;
