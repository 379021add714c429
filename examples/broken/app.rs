//! Statics whose bytes are no values of their types, to be looked at with rdbg and with another debugger:
//!
//!     rustc -g -C dwarf-version=5 app.rs && gdb -q -batch -x gdb-commands.txt ./app
//!
//! Such bytes come from a wrong cast, memory that was freed, or a C library. No program may go on to use them.
use std::ffi::c_void;

extern "C" {
    fn mmap(at: *mut c_void, len: usize, prot: i32, flags: i32, fd: i32, off: i64) -> *mut c_void;
}

#[derive(Clone, Copy)]
#[repr(u8)]
pub enum Color {
    Red,
    Green,
    Blue,
}

pub static mut READY: bool = false;
pub static mut COLOR: Color = Color::Red;
pub static mut LETTER: char = 'a';
pub static mut CHOICE: Option<bool> = None;
pub static mut LINK: &u32 = &7;
pub static mut CALL: fn() = paused;
pub static mut NAME: &str = "";
pub static mut TITLE: &str = "";
pub static mut LATIN: &str = "";
pub static mut LEVELS: &[u32] = &[];

#[inline(never)]
fn paused() {
    std::hint::black_box((Color::Green, Color::Blue));
}

fn main() {
    unsafe {
        // One page at 0x10000, of which the last three bytes are a text's; nothing is at 0x11000.
        let page = mmap(0x10000 as *mut c_void, 0x1000, 3, 0x32, -1, 0) as *mut u8;
        let text = page.add(0x1000 - 3);
        std::ptr::copy_nonoverlapping(b"hel".as_ptr(), text, 3);
        std::ptr::copy_nonoverlapping(b"caf\xe9".as_ptr(), page, 4);
        *(&raw mut READY as *mut u8) = 2;
        *(&raw mut COLOR as *mut u8) = 7;
        *(&raw mut LETTER as *mut u32) = 0xd800;
        *(&raw mut CHOICE as *mut u8) = 9;
        *(&raw mut LINK as *mut usize) = 0;
        *(&raw mut CALL as *mut usize) = 0;
        *(&raw mut NAME as *mut [usize; 2]) = [text as usize, 5];
        *(&raw mut TITLE as *mut [usize; 2]) = [text as usize, 3];
        *(&raw mut LATIN as *mut [usize; 2]) = [page as usize, 4];
        *(&raw mut LEVELS as *mut [usize; 2]) = [page as usize, 1 << 62];
        std::hint::black_box((&raw const READY, &raw const COLOR, &raw const LETTER, &raw const CHOICE));
        std::hint::black_box((&raw const LINK, &raw const CALL, &raw const NAME, &raw const TITLE));
        std::hint::black_box((&raw const LATIN, &raw const LEVELS));
    }
    paused();
}
