//! The calls of the proved static library, as include/*.h declare them.
pub use crate::instructions::Words;
use wasmi_core_proved::{RawVal, V128};

impl From<RawVal> for Words {
    fn from(value: RawVal) -> Self {
        Self::new(V128::from(value).as_u128())
    }
}

impl From<Words> for RawVal {
    fn from(words: Words) -> Self {
        V128::from(words.bits()).into()
    }
}

#[derive(Debug)]
#[repr(C)]
pub struct Handle {
    pub at: *mut u8,
    pub is_made: bool,
}

#[derive(Debug, Clone, Copy, Default)]
#[repr(C)]
pub struct Limits {
    pub bytes: u64,
    pub elements: u64,
    pub bytes_copied_per_fuel: u32,
    pub fuel_per_bytes_translated: u32,
    pub fuel_per_bytes_validated: u32,
    pub is_metered: u8,
    pub is_unlimited: u8,
}

#[derive(Debug, Clone, Copy, Default)]
#[repr(C)]
pub struct PlainCall {
    pub kind: u16,
    pub op: u16,
    pub lane: u8,
    pub dst: u8,
    pub a: u8,
    pub b: u8,
    pub c: u8,
    pub ty: u8,
    pub is_mutable: u8,
    pub is_64: u8,
    pub has_maximum: u8,
    pub page_size_log2: u8,
    pub reference: u32,
    pub index: usize,
    pub source: usize,
    pub count: u64,
    pub maximum: u64,
    pub ptr: u64,
    pub offset: u64,
    pub to: u64,
    pub from: u64,
    pub value: Words,
    pub lanes: [u8; 16],
}

#[derive(Debug, Clone, Copy, Default, PartialEq, Eq)]
#[repr(C)]
pub struct PlainReply {
    pub value: Words,
    pub number: u64,
    pub reference: u32,
    pub ty: u8,
    pub status: u8,
}

#[derive(Debug, Clone, Copy, Default, PartialEq, Eq)]
#[repr(C)]
pub struct Totals {
    pub bytes: Words,
    pub elements: Words,
    pub status: u8,
}

#[derive(Debug, Clone, Copy, Default, PartialEq, Eq)]
#[repr(C)]
pub struct PlainMemory {
    pub minimum: u64,
    pub maximum: u64,
    pub size: usize,
    pub has_maximum: u8,
    pub is_64: u8,
    pub page_size_log2: u8,
}

#[derive(Debug, Clone, Copy, Default, PartialEq, Eq)]
#[repr(C)]
pub struct PlainTable {
    pub minimum: u64,
    pub maximum: u64,
    pub size: usize,
    pub has_maximum: u8,
    pub is_64: u8,
    pub ty: u8,
}

#[derive(Debug, Clone, Copy, Default, PartialEq, Eq)]
#[repr(C)]
pub struct Meter {
    pub left: u64,
    pub bytes_copied_per_fuel: u32,
    pub fuel_per_bytes_translated: u32,
    pub fuel_per_bytes_validated: u32,
    pub is_on: u8,
}

#[derive(Debug, Clone, Copy, Default, PartialEq, Eq)]
#[repr(C)]
pub struct PlainQuota {
    pub cap_bytes: u64,
    pub cap_elements: u64,
    pub held_bytes: u64,
    pub held_elements: u64,
    pub last: u64,
    pub last_kind: u8,
    pub is_on: u8,
}

#[derive(Debug, Clone, Copy, Default, PartialEq, Eq)]
#[repr(C)]
pub struct Answers {
    pub current: usize,
    pub answer: u8,
    pub notice_answer: u8,
    pub asked: u8,
    pub told: u8,
    pub desired: usize,
}

#[derive(Debug, Clone, Copy, Default, PartialEq, Eq)]
#[repr(C)]
pub struct Range {
    pub to: u64,
    pub from: u64,
    pub count: u64,
}

// A call that takes only references and numbers is safe: the headers ask for nothing but valid pointers that don't overlap.
#[rustfmt::skip]
unsafe extern "C" {
    pub fn wasmi_script_run(script: *const u8, script_len: usize, text: *mut u8, text_len: usize, needed: &mut usize) -> u8;

    pub safe fn wasmi_unary(number: u16, a: Words, value: &mut Words) -> u8;
    pub safe fn wasmi_binary(number: u16, a: Words, b: Words, value: &mut Words) -> u8;
    pub safe fn wasmi_ternary(number: u16, a: Words, b: Words, c: Words, value: &mut Words) -> u8;
    pub safe fn wasmi_extract_lane(number: u16, lane: u8, a: Words, value: &mut Words) -> u8;
    pub safe fn wasmi_replace_lane(number: u16, lane: u8, a: Words, item: Words, value: &mut Words) -> u8;
    pub fn wasmi_load(number: u16, memory: *const u8, memory_len: usize, ptr: u64, offset: u64, value: &mut Words) -> u8;
    pub fn wasmi_store(number: u16, memory: *mut u8, memory_len: usize, ptr: u64, offset: u64, value: Words) -> u8;
    pub fn wasmi_load_lane(number: u16, lane: u8, memory: *const u8, memory_len: usize, ptr: u64, offset: u64, a: Words, value: &mut Words) -> u8;
    pub fn wasmi_store_lane(number: u16, lane: u8, memory: *mut u8, memory_len: usize, ptr: u64, offset: u64, a: Words) -> u8;

    pub fn wasmi_machine_new(machine: &mut Handle, limits: &Limits) -> u8;
    pub fn wasmi_machine_new_with_answers(machine: &mut Handle, limits: &Limits, answers: *const u8, len: usize) -> u8;
    pub fn wasmi_machine_drop(machine: &mut Handle);
    pub fn wasmi_machine_call(machine: &mut Handle, call: &PlainCall) -> PlainReply;
    pub fn wasmi_machine_load(machine: &mut Handle, op: u16, memory: usize, ptr: u64, offset: u64, value: &mut u64) -> u8;
    pub fn wasmi_machine_store(machine: &mut Handle, op: u16, memory: usize, ptr: u64, offset: u64, value: u64) -> u8;
    pub fn wasmi_machine_grow(machine: &mut Handle, memory: usize, pages: u64, number: &mut u64) -> u8;
    pub fn wasmi_machine_fill(machine: &mut Handle, memory: usize, to: u64, value: u8, count: u64, number: &mut u64) -> u8;
    pub fn wasmi_machine_copy(machine: &mut Handle, memory: usize, to: u64, source: usize, from: u64, count: u64, number: &mut u64) -> u8;
    pub fn wasmi_machine_init(machine: &mut Handle, memory: usize, segment: usize, to: u64, from: u32, count: u32, number: &mut u64) -> u8;
    pub fn wasmi_machine_read(machine: &mut Handle, memory: usize, offset: usize, bytes: *mut u8, len: usize) -> PlainReply;
    pub fn wasmi_machine_write(machine: &mut Handle, memory: usize, offset: usize, bytes: *const u8, len: usize) -> PlainReply;
    pub fn wasmi_machine_new_segment(machine: &mut Handle, ty: u8, items: *const u32, len: usize) -> PlainReply;
    pub fn wasmi_machine_new_data(machine: &mut Handle, bytes: *const u8, len: usize) -> PlainReply;
    pub fn wasmi_machine_consume_fuel(machine: &mut Handle, amount: u64) -> PlainReply;
    pub fn wasmi_machine_totals(machine: &mut Handle) -> Totals;

    pub fn wasmi_memory_new(memory: &mut PlainMemory, region: *mut u8, region_len: usize, quota: &mut PlainQuota) -> u8;
    pub fn wasmi_memory_grow(memory: &mut PlainMemory, region: *mut u8, region_len: usize, pages: u64, meter: &mut Meter, quota: &mut PlainQuota, number: &mut u64) -> u8;
    pub fn wasmi_memory_settle(memory: &mut PlainMemory, region: *mut u8, region_len: usize, pages: u64, meter: &mut Meter, answers: &mut Answers, number: &mut u64) -> u8;
    pub fn wasmi_memory_size(memory: &PlainMemory, region: *const u8, region_len: usize, pages: &mut u64) -> u8;
    pub fn wasmi_memory_read(memory: &PlainMemory, region: *const u8, region_len: usize, offset: usize, bytes: *mut u8, len: usize) -> u8;
    pub fn wasmi_memory_write(memory: &PlainMemory, region: *mut u8, region_len: usize, offset: usize, bytes: *const u8, len: usize) -> u8;
    pub safe fn wasmi_fuel_set(meter: &mut Meter, amount: u64) -> u8;
    pub safe fn wasmi_fuel_left(meter: &Meter, left: &mut u64) -> u8;
    pub safe fn wasmi_fuel_consume(meter: &mut Meter, amount: u64, number: &mut u64) -> u8;
    pub safe fn wasmi_fuel_copy_cost(meter: &Meter, bytes: u64) -> u64;

    pub fn wasmi_table_new(table: &mut PlainTable, elements: *mut u32, elements_len: usize, reference: u32, quota: &mut PlainQuota) -> u8;
    pub fn wasmi_table_grow(table: &mut PlainTable, elements: *mut u32, elements_len: usize, delta: u64, reference: u32, meter: &mut Meter, quota: &mut PlainQuota, number: &mut u64) -> u8;
    pub fn wasmi_table_settle(table: &mut PlainTable, elements: *mut u32, elements_len: usize, delta: u64, reference: u32, meter: &mut Meter, answers: &mut Answers, number: &mut u64) -> u8;
    pub fn wasmi_table_get(table: &PlainTable, elements: *const u32, elements_len: usize, index: u64, reference: &mut u32) -> u8;
    pub fn wasmi_table_set(table: &PlainTable, elements: *mut u32, elements_len: usize, index: u64, reference: u32) -> u8;
    pub fn wasmi_table_fill(table: &PlainTable, elements: *mut u32, elements_len: usize, range: &Range, reference: u32, meter: &mut Meter, number: &mut u64) -> u8;
    pub fn wasmi_table_copy_within(table: &PlainTable, elements: *mut u32, elements_len: usize, range: &Range, meter: &mut Meter, number: &mut u64) -> u8;
    pub fn wasmi_table_copy_from(table: &PlainTable, elements: *mut u32, elements_len: usize, source: &PlainTable, source_elements: *const u32, source_len: usize, range: &Range, meter: &mut Meter, number: &mut u64) -> u8;
    pub fn wasmi_table_init(table: &PlainTable, elements: *mut u32, elements_len: usize, items: *const u32, items_len: usize, range: &Range, meter: &mut Meter, number: &mut u64) -> u8;
}

const TEXT_TOO_SHORT: u8 = 5;

/// What the library prints for a script, written over a text, and its status.
pub fn run_script(script: &[u8], text: &mut Vec<u8>) -> u8 {
    text.resize(1 << 12, 0);
    loop {
        let mut needed = 0;
        let (from, to) = (script.as_ptr(), text.as_mut_ptr());
        // SAFETY: pointers and lengths are those of one list each.
        let status = unsafe { wasmi_script_run(from, script.len(), to, text.len(), &mut needed) };
        text.resize(needed, 0);
        if status != TEXT_TOO_SHORT {
            return status;
        }
    }
}
