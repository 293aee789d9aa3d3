//! Unpacks zstd (RFC 8878) by libzstd. Debian's Rust crate for it generates its declarations by bindgen, which needs 30
//! more crates, a minute of compiling, and libclang, for five functions whose signatures have not changed since 1.4.

#![allow(unsafe_code)] // libzstd is in C

use std::ffi::{c_int, c_uint, c_void};
use std::io::{ErrorKind, Read};
use std::ptr::NonNull;

/// The largest window of a frame; the decoder allocates it beside the body. Decoders should support up to 8 MiB (RFC
/// 8878, 3.1.1.1.2).
pub const WINDOW_LOG: u32 = 23;
/// `ZSTD_d_windowLogMax` of `ZSTD_dParameter`.
const WINDOW_LOG_MAX: c_int = 100;

#[repr(C)]
struct Context {
    _opaque: [u8; 0],
}

/// `ZSTD_inBuffer`.
#[repr(C)]
struct Input {
    bytes: *const c_void,
    length: usize,
    at: usize,
}

/// `ZSTD_outBuffer`.
#[repr(C)]
struct Output {
    bytes: *mut c_void,
    length: usize,
    at: usize,
}

#[link(name = "zstd")]
extern "C" {
    fn ZSTD_createDCtx() -> *mut Context;
    fn ZSTD_freeDCtx(context: *mut Context) -> usize;
    fn ZSTD_DCtx_setParameter(context: *mut Context, parameter: c_int, value: c_int) -> usize;
    fn ZSTD_decompressStream(context: *mut Context, output: *mut Output, input: *mut Input) -> usize;
    fn ZSTD_isError(code: usize) -> c_uint;
}

/// Unpacks all frames of a body, one after the other.
pub struct Decoder<'a> {
    context: NonNull<Context>,
    packed: &'a [u8],
    at: usize,
    /// A frame has ended and no other has begun.
    is_between: bool,
}

fn checked(code: usize) -> std::io::Result<usize> {
    // SAFETY: the function only looks at a number.
    match unsafe { ZSTD_isError(code) } {
        0 => Ok(code),
        _ => Err(ErrorKind::InvalidData.into()),
    }
}

impl Decoder<'_> {
    /// None if there is no memory.
    pub fn new(packed: &[u8]) -> Option<Decoder<'_>> {
        // SAFETY: the context is new, and owned by the decoder from here on.
        let context = NonNull::new(unsafe { ZSTD_createDCtx() })?;
        let decoder = Decoder { context, packed, at: 0, is_between: false };
        // SAFETY: the context is valid, and nothing is decoded yet. The call fails only for a value out of range.
        let set = unsafe { ZSTD_DCtx_setParameter(context.as_ptr(), WINDOW_LOG_MAX, WINDOW_LOG as c_int) };
        checked(set).ok().map(|_| decoder)
    }
}

/// Whether a frame or a skippable frame begins here (RFC 8878, 3.1.1 and 3.1.2). libzstd may also read older formats,
/// whose windows it does not bound.
fn is_frame(packed: &[u8]) -> bool {
    match packed.first_chunk().map(|magic| u32::from_le_bytes(*magic)) {
        Some(magic) => magic == 0xfd2f_b528 || magic & 0xffff_fff0 == 0x184d_2a50,
        None => false,
    }
}

impl Read for Decoder<'_> {
    fn read(&mut self, room: &mut [u8]) -> std::io::Result<usize> {
        let mut output = Output { bytes: room.as_mut_ptr().cast(), length: room.len(), at: 0 };
        while output.at == 0 && !room.is_empty() {
            if self.is_between && self.at == self.packed.len() {
                return Ok(0);
            }
            if (self.is_between || self.at == 0) && !is_frame(&self.packed[self.at..]) {
                return Err(ErrorKind::InvalidData.into());
            }
            let mut input =
                Input { bytes: self.packed.as_ptr().cast(), length: self.packed.len(), at: self.at };
            // SAFETY: the context belongs to this decoder; both buffers are borrowed, and only for the call.
            let more = unsafe { ZSTD_decompressStream(self.context.as_ptr(), &mut output, &mut input) };
            self.is_between = checked(more)? == 0;
            let has_no_more = input.at == self.packed.len() && output.at == 0;
            if has_no_more && !self.is_between {
                return Err(ErrorKind::UnexpectedEof.into());
            }
            self.at = input.at;
        }
        Ok(output.at)
    }
}

impl Drop for Decoder<'_> {
    fn drop(&mut self) {
        // SAFETY: the decoder owns the context, which nothing uses after this call.
        unsafe { ZSTD_freeDCtx(self.context.as_ptr()) };
    }
}

#[cfg(test)]
pub mod tests {
    use super::*;

    #[link(name = "zstd")]
    extern "C" {
        fn ZSTD_compressBound(length: usize) -> usize;
        fn ZSTD_compress(
            output: *mut c_void,
            room: usize,
            input: *const c_void,
            length: usize,
            level: c_int,
        ) -> usize;
    }

    pub fn packed(plain: &[u8]) -> Vec<u8> {
        // SAFETY: both buffers have the lengths that are passed.
        unsafe {
            let mut packed = vec![0; ZSTD_compressBound(plain.len())];
            let length = ZSTD_compress(
                packed.as_mut_ptr().cast(),
                packed.len(),
                plain.as_ptr().cast(),
                plain.len(),
                3,
            );
            packed.truncate(checked(length).unwrap());
            packed
        }
    }

    /// A frame of one raw block, with a window of this size (RFC 8878, 3.1.1).
    pub fn frame_with_window(log: u8, plain: &[u8]) -> Vec<u8> {
        let block = 1 | (plain.len() as u32) << 3;
        let head =
            [&0xfd2f_b528_u32.to_le_bytes()[..], &[0, (log - 10) << 3], &block.to_le_bytes()[..3]].concat();
        [&head, plain].concat()
    }
}
