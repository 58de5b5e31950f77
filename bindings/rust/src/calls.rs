//! The calls of `include/pybuf.h`, and what each status is here.
use crate::error::{Error, Result};

#[repr(C)]
pub struct RawWorld {
    hidden: [u8; 0],
}

#[repr(C)]
pub struct RawFormat {
    hidden: [u8; 0],
}

#[repr(C)]
#[derive(Clone, Copy, Default)]
pub struct Number {
    pub magnitude: u64,
    pub negative: bool,
}

impl Number {
    pub fn of(number: i128) -> Result<Number> {
        let magnitude = u64::try_from(number.unsigned_abs()).map_err(|_| Error::Overflow)?;
        Ok(Number {
            magnitude,
            negative: number < 0,
        })
    }

    pub fn value(self) -> i128 {
        let size = i128::from(self.magnitude);
        if self.negative {
            -size
        } else {
            size
        }
    }
}

#[repr(C)]
#[derive(Clone, Copy, Default)]
pub struct Words {
    pub start: i64,
    pub stop: i64,
    pub step: i64,
    pub has_start: bool,
    pub has_stop: bool,
    pub has_step: bool,
}

pub const NUMBER_VALUE: i32 = 0;
pub const TRUTH_VALUE: i32 = 1;
pub const BYTES_VALUE: i32 = 2;

#[repr(C)]
#[derive(Clone, Copy)]
pub struct RawValue {
    pub kind: i32,
    pub number: Number,
    pub bytes: *const u8,
    pub length: usize,
}

impl Default for RawValue {
    fn default() -> RawValue {
        RawValue {
            kind: NUMBER_VALUE,
            number: Number::default(),
            bytes: std::ptr::null(),
            length: 0,
        }
    }
}

type World = *mut RawWorld;
type Format = *mut RawFormat;

extern "C" {
    pub fn pybuf_version() -> *const std::ffi::c_char;
    pub fn pybuf_world_new(world: *mut World) -> i32;
    pub fn pybuf_world_free(world: World) -> i32;
    pub fn pybuf_world_run(world: World, text: *const u8, length: usize, count: *mut usize, line: *mut u64) -> i32;
    pub fn pybuf_world_reply(world: World, index: usize, room: *mut u8, room_length: usize, length: *mut usize) -> i32;
    pub fn pybuf_new(world: World, kind: i32, bytes: *const u8, length: usize, object: *mut u64) -> i32;
    pub fn pybuf_view(world: World, object: u64, view: *mut u64) -> i32;
    pub fn pybuf_to_readonly(world: World, view: u64, made: *mut u64) -> i32;
    pub fn pybuf_cast(world: World, view: u64, format: *const std::ffi::c_char, shape: *const i64, dimensions: usize, made: *mut u64) -> i32;
    pub fn pybuf_lend(world: World, view: u64, at: *mut *const u8, length: *mut usize) -> i32;
    pub fn pybuf_lend_to_write(world: World, view: u64, at: *mut *mut u8, length: *mut usize) -> i32;
    pub fn pybuf_release(world: World, view: u64) -> i32;
    pub fn pybuf_get(world: World, object: u64, index: i64, item: *mut Number) -> i32;
    pub fn pybuf_get_at(world: World, view: u64, indices: *const i64, count: usize, item: *mut Number) -> i32;
    pub fn pybuf_get_slice(world: World, view: u64, slice: *const Words, made: *mut u64) -> i32;
    pub fn pybuf_get_slice_bytes(world: World, exporter: u64, slice: *const Words, room: *mut u8, room_length: usize, length: *mut usize) -> i32;
    pub fn pybuf_set(world: World, object: u64, index: i64, item: Number) -> i32;
    pub fn pybuf_set_at(world: World, view: u64, indices: *const i64, count: usize, item: Number) -> i32;
    pub fn pybuf_set_slice(world: World, object: u64, slice: *const Words, bytes: *const u8, length: usize) -> i32;
    pub fn pybuf_set_slice_of(world: World, object: u64, slice: *const Words, other: u64) -> i32;
    pub fn pybuf_length(world: World, object: u64, length: *mut usize) -> i32;
    pub fn pybuf_bytes(world: World, object: u64, room: *mut u8, room_length: usize, length: *mut usize) -> i32;
    pub fn pybuf_items(world: World, view: u64, room: *mut Number, room_count: usize, count: *mut usize) -> i32;
    pub fn pybuf_property_number(world: World, object: u64, property: i32, number: *mut Number) -> i32;
    pub fn pybuf_property_numbers(world: World, object: u64, property: i32, room: *mut Number, room_count: usize, count: *mut usize) -> i32;
    pub fn pybuf_property_text(world: World, object: u64, property: i32, room: *mut u8, room_length: usize, length: *mut usize) -> i32;
    pub fn pybuf_compare(world: World, object: u64, op: i32, bytes: *const u8, length: usize, truth: *mut i32) -> i32;
    pub fn pybuf_compare_with(world: World, object: u64, op: i32, other: u64, truth: *mut i32) -> i32;
    pub fn pybuf_contains(world: World, object: u64, bytes: *const u8, length: usize, truth: *mut bool) -> i32;
    pub fn pybuf_shown(world: World, object: u64, room: *mut u8, room_length: usize, length: *mut usize) -> i32;
    pub fn pybuf_append(world: World, array: u64, byte: Number) -> i32;
    pub fn pybuf_extend(world: World, array: u64, bytes: *const u8, length: usize) -> i32;
    pub fn pybuf_insert(world: World, array: u64, index: i64, byte: Number) -> i32;
    pub fn pybuf_pop(world: World, array: u64, index: i64, byte: *mut Number) -> i32;
    pub fn pybuf_pop_last(world: World, array: u64, byte: *mut Number) -> i32;
    pub fn pybuf_remove(world: World, array: u64, byte: Number) -> i32;
    pub fn pybuf_clear(world: World, array: u64) -> i32;
    pub fn pybuf_reverse(world: World, array: u64) -> i32;
    pub fn pybuf_delete_slice(world: World, array: u64, slice: *const Words) -> i32;
    pub fn pybuf_repeat(world: World, array: u64, count: i64) -> i32;
    pub fn pybuf_format_parse(text: *const u8, length: usize, format: *mut Format) -> i32;
    pub fn pybuf_format_free(format: Format) -> i32;
    pub fn pybuf_format_size(format: Format, size: *mut usize) -> i32;
    pub fn pybuf_format_count(format: Format, count: *mut usize) -> i32;
    pub fn pybuf_format_pack(format: Format, values: *const RawValue, count: usize, room: *mut u8, room_length: usize, length: *mut usize) -> i32;
    pub fn pybuf_format_unpack(format: Format, bytes: *const u8, length: usize, room: *mut RawValue, room_count: usize, count: *mut usize) -> i32;
    pub fn pybuf_format_value_bytes(format: Format, index: usize, room: *mut u8, room_length: usize, length: *mut usize) -> i32;
}

const TOO_SMALL: i32 = 3;

/// What a status stands for.
pub fn done(status: i32) -> Result<()> {
    match status {
        0 => Ok(()),
        other => Err(Error::of(other)),
    }
}

/// What a call copies to a room, which is made as long as the call says.
pub fn copied<T: Clone + Default>(call: impl Fn(*mut T, usize, *mut usize) -> i32) -> Result<Vec<T>> {
    let mut length = 64;
    loop {
        let mut room = vec![T::default(); length];
        let status = call(room.as_mut_ptr(), room.len(), &mut length);
        if status == TOO_SMALL {
            continue;
        }
        done(status)?;
        room.truncate(length);
        return Ok(room);
    }
}
