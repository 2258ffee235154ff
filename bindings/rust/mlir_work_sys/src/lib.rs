//! The calls of `libmlir_work.a`, as in `bindings/c/mlir_work.h`. That header states the rules for the caller.
#![no_std]

use core::ffi::c_void;

/// The version of the calls that are declared here.
pub const VERSION: u32 = 1;

/// A handle of a session. It starts as `CLOSED`.
#[repr(C)]
#[derive(Debug)]
pub struct Handle {
    pub at: *mut c_void,
    pub word: u64,
}

/// A closed handle.
pub const CLOSED: Handle = Handle { at: core::ptr::null_mut(), word: 0 };

/// The answer of a call.
#[repr(C)]
#[derive(Clone, Copy, Debug, Default, PartialEq, Eq)]
pub struct Answer {
    pub outcome: u32,
    pub refusal: u32,
    pub number: u64,
    pub shown: u64,
}

/// In the field `region`: the value is a result.
pub const RESULT: u32 = u32::MAX;
/// The result of a query if there is no such operation.
pub const NONE: u64 = u64::MAX;

/// A value: result number `place` of an operation, or argument number `place` of the block of one of its regions.
#[repr(C)]
#[derive(Clone, Copy, Debug, Default, PartialEq, Eq, Hash)]
pub struct Value {
    pub operation: u32,
    pub region: u32,
    pub place: u32,
}

/// An insertion point: before (0) or after (1) an operation, or at the start (2) or the end (3) of the block of one of
/// its regions.
#[repr(C)]
#[derive(Clone, Copy, Debug, PartialEq, Eq, Hash)]
pub struct Spot {
    pub kind: u32,
    pub operation: u32,
    pub region: u32,
}

/// A use of a value: the operation, and the number of its operand.
#[repr(C)]
#[derive(Clone, Copy, Debug, Default, PartialEq, Eq, Hash)]
pub struct Use {
    pub operation: u32,
    pub operand: u32,
}

/// How many operands, results, properties, discardable attributes and regions an operation has.
#[repr(C)]
#[derive(Clone, Copy, Debug, Default, PartialEq, Eq)]
pub struct Count {
    pub operands: usize,
    pub results: usize,
    pub properties: usize,
    pub attributes: usize,
    pub regions: usize,
}

/// An entry: the number of its key, which is a name, and of its attribute.
#[repr(C)]
#[derive(Clone, Copy, Debug, Default, PartialEq, Eq)]
pub struct Entry {
    pub key: u32,
    pub attribute: u32,
}

/// The number of the name of an operation, or `NONE`, and its counts.
#[repr(C)]
#[derive(Clone, Copy, Debug, Default, PartialEq, Eq)]
pub struct Head {
    pub name: u64,
    pub counts: Count,
}

/// A use of one of several values: the index of the value, the operation, and the number of its operand.
#[repr(C)]
#[derive(Clone, Copy, Debug, Default, PartialEq, Eq, Hash)]
pub struct ValueUse {
    pub value: usize,
    pub operation: u32,
    pub operand: u32,
}

/// An item of a record: an operation with its name, its number of operands and its number of results; an operand, as
/// `Value`; a result with its type and its number of uses; or a use, as `Use`.
pub type Item = [u32; 3];

/// An integer attribute: its value below 2^w, the number of its type, and the width w, or 0 for index.
#[repr(C)]
#[derive(Clone, Copy, Debug, Default, PartialEq, Eq, Hash)]
pub struct Integer {
    pub low: u64,
    pub high: u64,
    pub ty: u32,
    pub width: u32,
}

/// A new operation: where it is inserted, and the number of its name.
#[repr(C)]
#[derive(Clone, Copy, Debug, PartialEq, Eq, Hash)]
pub struct New {
    pub spot: Spot,
    pub name: u32,
}

/// An entry of a new operation; `is_property` is 0 for a discardable attribute. An inherent one becomes a property.
#[repr(C)]
#[derive(Clone, Copy, Debug, Default, PartialEq, Eq, Hash)]
pub struct NewEntry {
    pub key: u32,
    pub attribute: u32,
    pub is_property: u32,
}

/// A cell of a report row; `left` cells of the row follow.
#[repr(C)]
#[derive(Clone, Copy, Debug, Default, PartialEq, Eq, Hash)]
pub struct Cell {
    pub kind: u32,
    pub value: Value,
    pub low: u64,
    pub high: u64,
    pub left: usize,
}

/// The result of a call that fills an array or a buffer, if memory ran out.
pub const NO_MEMORY: u64 = u64::MAX - 1;

/// The signature of the calls that intern a text.
pub type Intern = unsafe extern "C" fn(*mut Handle, *const u8, usize, *mut Answer);

/// The signature of the calls that write the text of an interned number.
pub type Text = unsafe extern "C" fn(*mut Handle, u32, *mut u8, usize) -> u64;

extern "C" {
    pub fn mlir_work_version() -> u32;
    pub fn mlir_work_open(
        session: *mut Handle,
        text: *const u8,
        text_length: usize,
        key: u64,
        limit: u32,
        answer: *mut Answer,
    );
    pub fn mlir_work_open_opaque(
        session: *mut Handle,
        text: *const u8,
        text_length: usize,
        key: u64,
        limit: u32,
        answer: *mut Answer,
    );
    pub fn mlir_work_command(session: *mut Handle, line: *const u8, line_length: usize, answer: *mut Answer);
    pub fn mlir_work_read(session: *mut Handle, from: usize, into: *mut u8, into_length: usize) -> usize;
    pub fn mlir_work_close(session: *mut Handle);
    pub fn mlir_work_set_operand(
        session: *mut Handle,
        operation: u32,
        operand: u32,
        value: *const Value,
        answer: *mut Answer,
    );
    pub fn mlir_work_replace(session: *mut Handle, old: *const Value, new: *const Value, answer: *mut Answer);
    pub fn mlir_work_erase(session: *mut Handle, operation: u32, answer: *mut Answer);
    pub fn mlir_work_begin(session: *mut Handle, answer: *mut Answer);
    pub fn mlir_work_commit(session: *mut Handle, answer: *mut Answer);
    pub fn mlir_work_rollback(session: *mut Handle, answer: *mut Answer);
    pub fn mlir_work_move(session: *mut Handle, operation: u32, spot: *const Spot, answer: *mut Answer);
    pub fn mlir_work_has(session: *mut Handle, operation: u32) -> bool;
    pub fn mlir_work_root(session: *mut Handle) -> u64;
    pub fn mlir_work_parent(session: *mut Handle, operation: u32) -> u64;
    pub fn mlir_work_next(session: *mut Handle, operation: u32) -> u64;
    pub fn mlir_work_previous(session: *mut Handle, operation: u32) -> u64;
    pub fn mlir_work_first(session: *mut Handle, operation: u32, region: u32) -> u64;
    pub fn mlir_work_last(session: *mut Handle, operation: u32, region: u32) -> u64;
    pub fn mlir_work_operand(session: *mut Handle, operation: u32, operand: usize, value: *mut Value) -> bool;
    pub fn mlir_work_first_use(session: *mut Handle, value: *const Value, user: *mut Use) -> bool;
    pub fn mlir_work_operations(session: *mut Handle, operations: *mut u32, capacity: usize) -> u64;
    pub fn mlir_work_uses(session: *mut Handle, value: *const Value, uses: *mut Use, capacity: usize) -> usize;
    pub fn mlir_work_counts(session: *mut Handle, operation: u32, counts: *mut Count) -> bool;
    pub fn mlir_work_argument_count(session: *mut Handle, operation: u32, region: u32) -> u64;
    pub fn mlir_work_region_of(session: *mut Handle, operation: u32) -> u64;
    pub fn mlir_work_name_of(session: *mut Handle, operation: u32) -> u64;
    pub fn mlir_work_value_type(session: *mut Handle, value: *const Value) -> u64;
    pub fn mlir_work_property_at(session: *mut Handle, operation: u32, index: usize, entry: *mut Entry) -> bool;
    pub fn mlir_work_attribute_at(session: *mut Handle, operation: u32, index: usize, entry: *mut Entry) -> bool;
    pub fn mlir_work_property_by_key(session: *mut Handle, operation: u32, key: u32) -> u64;
    pub fn mlir_work_attribute_by_key(session: *mut Handle, operation: u32, key: u32) -> u64;
    pub fn mlir_work_find_name(session: *mut Handle, text: *const u8, text_length: usize) -> u64;
    pub fn mlir_work_name_text(session: *mut Handle, name: u32, into: *mut u8, into_length: usize) -> u64;
    pub fn mlir_work_type_text(session: *mut Handle, ty: u32, into: *mut u8, into_length: usize) -> u64;
    pub fn mlir_work_attribute_text(session: *mut Handle, attribute: u32, into: *mut u8, into_length: usize) -> u64;
    pub fn mlir_work_heads(
        session: *mut Handle,
        operations: *const u32,
        count: usize,
        heads: *mut Head,
        capacity: usize,
    ) -> usize;
    pub fn mlir_work_operands(
        session: *mut Handle,
        operations: *const u32,
        count: usize,
        operands: *mut Value,
        capacity: usize,
    ) -> usize;
    pub fn mlir_work_types(
        session: *mut Handle,
        values: *const Value,
        count: usize,
        types: *mut u64,
        capacity: usize,
    ) -> usize;
    pub fn mlir_work_value_uses(
        session: *mut Handle,
        values: *const Value,
        count: usize,
        uses: *mut ValueUse,
        capacity: usize,
    ) -> usize;
    pub fn mlir_work_records(
        session: *mut Handle,
        operations: *const u32,
        count: usize,
        items: *mut Item,
        capacity: usize,
    ) -> usize;
    pub fn mlir_work_name(session: *mut Handle, text: *const u8, text_length: usize, answer: *mut Answer);
    pub fn mlir_work_type(session: *mut Handle, text: *const u8, text_length: usize, answer: *mut Answer);
    pub fn mlir_work_attribute(session: *mut Handle, text: *const u8, text_length: usize, answer: *mut Answer);
    pub fn mlir_work_integer(session: *mut Handle, attribute: u32, integer: *mut Integer) -> bool;
    pub fn mlir_work_insert(
        session: *mut Handle,
        operation: *const New,
        operands: *const Value,
        operand_count: usize,
        results: *const u32,
        result_count: usize,
        entries: *const NewEntry,
        entry_count: usize,
        answer: *mut Answer,
    );
    pub fn mlir_work_set_attribute(
        session: *mut Handle,
        operation: u32,
        key: u32,
        attribute: u32,
        answer: *mut Answer,
    );
    pub fn mlir_work_drop_attribute(session: *mut Handle, operation: u32, key: u32, answer: *mut Answer);
    pub fn mlir_work_report(
        session: *mut Handle,
        kind: u32,
        cells: *mut Cell,
        capacity: usize,
        answer: *mut Answer,
    );
}
