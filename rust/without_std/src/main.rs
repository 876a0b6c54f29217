//! A program without std, over the library of C: allocator, panics and `main` are its own. Where anything it is made of
//! had std, there would be two that handle panics, which is an error of rustc.

#![no_std]
#![no_main]

extern crate alloc;

use alloc::format;
use alloc::string::String;
use core::alloc::{GlobalAlloc, Layout};
use core::panic::PanicInfo;
use without_std::{look_up, made, AnyError, BYTES};

#[link(name = "c")]
extern "C" {
    fn aligned_alloc(align: usize, size: usize) -> *mut u8;
    fn free(memory: *mut u8);
    fn write(file: i32, bytes: *const u8, len: usize) -> isize;
    fn abort() -> !;
}

struct OfC;

// SAFETY: memory of the library of C is as large and aligned as asked for, or null.
unsafe impl GlobalAlloc for OfC {
    unsafe fn alloc(&self, layout: Layout) -> *mut u8 {
        // SAFETY: an alignment of Rust is a power of two, and the size a multiple of it, as C11 has it.
        unsafe { aligned_alloc(layout.align(), layout.pad_to_align().size()) }
    }

    unsafe fn dealloc(&self, memory: *mut u8, _: Layout) {
        // SAFETY: `alloc` gave it.
        unsafe { free(memory) }
    }
}

#[global_allocator]
static ALLOCATOR: OfC = OfC;

#[panic_handler]
fn panic(_: &PanicInfo<'_>) -> ! {
    // SAFETY: nothing is required.
    unsafe { abort() }
}

/// The `alloc` that comes with rustc names what std has for unwinding. With `panic = "abort"` nobody calls it.
#[no_mangle]
extern "C" fn rust_eh_personality() {}

/// As above.
#[no_mangle]
extern "C" fn _Unwind_Resume() -> ! {
    // SAFETY: nothing is required.
    unsafe { abort() }
}

fn answers() -> Result<String, AnyError> {
    let at = |key| look_up(&BYTES, key);
    let found = [at(1)?, at(3)?, at(5)?, at(7)?];
    let cut = look_up(&BYTES[..255], 1).map_err(|error| format!("{error}"));
    let (same, grown) = (made(0)?, made(1000)?);
    Ok(format!(
        "in the program: {found:?}\ncut: {cut:?}\nmade: {}\ngrown: {} items, {:?} {:?}\n",
        same.raw_bytes() == BYTES,
        grown.len(),
        grown.get(&3),
        grown.get(&1099),
    ))
}

#[no_mangle]
extern "C" fn main() -> i32 {
    let Ok(text) = answers() else { return 1 };
    // SAFETY: the bytes are those of the text.
    let written = unsafe { write(1, text.as_ptr(), text.len()) };
    i32::from(usize::try_from(written) != Ok(text.len()))
}
