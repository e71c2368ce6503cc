//! The calls of the archive, as functions of slices. All that is unsafe is here.

/// What a call comes to.
#[repr(C)]
#[derive(Debug, Clone, Copy, PartialEq, Eq)]
pub struct Outcome {
    pub code: u32,
    pub detail: u32,
    pub place: usize,
    pub length: usize,
}

pub const OK: u32 = 0;
pub const NOT_WHOLE: u32 = 1;
pub const TOO_SMALL: u32 = 2;
pub const COUNT_TOO_GREAT: u32 = 43;
pub const ABI_VERSION: u32 = 1;

type Rewrite = unsafe extern "C" fn(*const u8, usize, *mut u8, usize) -> Outcome;

unsafe extern "C" {
    safe fn bser_abi_version() -> u32;
    fn bser_message_length(bytes: *const u8, len: usize) -> Outcome;
    fn bser_canonical(bytes: *const u8, len: usize, out: *mut u8, room: usize) -> Outcome;
    fn bser_compact(bytes: *const u8, len: usize, out: *mut u8, room: usize) -> Outcome;
    fn bser_describe(bytes: *const u8, len: usize, out: *mut u8, room: usize) -> Outcome;
    fn bser_tape(bytes: *const u8, len: usize, words: *mut u64, room: usize) -> Outcome;
    fn bser_of_tape(
        words: *const u64,
        count: usize,
        strings: *const u8,
        len: usize,
        out: *mut u8,
        room: usize,
    ) -> Outcome;
}

/// The version of the archive's calls.
pub fn abi_version() -> u32 {
    bser_abi_version()
}

pub fn message_length(bytes: &[u8]) -> Outcome {
    // SAFETY: the pointer and the length are those of a slice.
    unsafe { bser_message_length(bytes.as_ptr(), bytes.len()) }
}

fn rewrite(call: Rewrite, bytes: &[u8], out: &mut [u8]) -> Outcome {
    // SAFETY: the pointers and the lengths are those of two slices, one of which nobody else has.
    unsafe { call(bytes.as_ptr(), bytes.len(), out.as_mut_ptr(), out.len()) }
}

pub fn canonical(bytes: &[u8], out: &mut [u8]) -> Outcome {
    rewrite(bser_canonical, bytes, out)
}

pub fn compact(bytes: &[u8], out: &mut [u8]) -> Outcome {
    rewrite(bser_compact, bytes, out)
}

pub fn describe(bytes: &[u8], out: &mut [u8]) -> Outcome {
    rewrite(bser_describe, bytes, out)
}

pub fn tape(bytes: &[u8], words: &mut [u64]) -> Outcome {
    // SAFETY: the pointers and the lengths are those of two slices, one of which nobody else has.
    unsafe { bser_tape(bytes.as_ptr(), bytes.len(), words.as_mut_ptr(), words.len()) }
}

pub fn of_tape(words: &[u64], strings: &[u8], out: &mut [u8]) -> Outcome {
    // SAFETY: the pointers and the lengths are those of three slices, one of which nobody else has.
    unsafe {
        bser_of_tape(
            words.as_ptr(),
            words.len(),
            strings.as_ptr(),
            strings.len(),
            out.as_mut_ptr(),
            out.len(),
        )
    }
}
