//! The C interface of starload, as `starload.h` has it.
#![no_std]
#![allow(non_camel_case_types)]

/// Bytes that live during the call. The pointer is never null.
#[repr(C)]
#[derive(Clone, Copy, Debug)]
pub struct starload_bytes {
    pub at: *const u8,
    pub length: usize,
}

#[repr(C)]
#[derive(Clone, Copy, Debug)]
pub struct starload_words {
    pub at: *const starload_bytes,
    pub length: usize,
}

#[repr(C)]
#[derive(Clone, Copy, Debug)]
pub struct starload_asked {
    pub bundle: starload_bytes,
    pub roots: starload_words,
    pub prelude: starload_bytes,
    pub steps: u32,
    pub has_prelude: bool,
    pub with_values: bool,
    pub with_loads: bool,
    pub with_steps: bool,
    pub only_roots: bool,
}

#[repr(C)]
#[derive(Clone, Copy, Debug)]
pub struct starload_answer {
    pub status: u32,
    pub refusal: u32,
    pub length: usize,
}

extern "C" {
    /// Writes the report of what is asked for to the front of `out`.
    ///
    /// # Safety
    ///
    /// Each pointer leads to as many bytes or words as its length says, and none is null; `out` has room for `room`
    /// bytes, and nobody else reads or writes it during the call.
    pub fn starload_run(asked: *const starload_asked, out: *mut u8, room: usize) -> starload_answer;
}
