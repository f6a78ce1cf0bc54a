//! Bytes that end at a fence: reading one byte behind them is a crash, not a guess.
//!
//! The guards about the tables show what is written outside them. What is read outside a piece or a source leaves no
//! trace; so these are copied to the end of a stretch of memory behind which nothing may be touched (Linux).

use std::cell::RefCell;

/// Longer bytes than this aren't copied.
const LENGTH: usize = 1 << 17;
const PAGE: usize = 4096;

extern "C" {
    fn mmap(at: *mut u8, length: usize, protection: i32, flags: i32, file: i32, offset: i64) -> *mut u8;
    fn mprotect(at: *mut u8, length: usize, protection: i32) -> i32;
}

const READ_WRITE: i32 = 3;
const NOTHING: i32 = 0;
const PRIVATE_ANONYMOUS: i32 = 0x22;

struct Fence {
    start: *mut u8,
}

impl Fence {
    fn new() -> Fence {
        // SAFETY: a new mapping that nothing else knows; its last page becomes the fence.
        unsafe {
            let start = mmap(std::ptr::null_mut(), LENGTH + PAGE, READ_WRITE, PRIVATE_ANONYMOUS, -1, 0);
            assert!(!start.is_null() && start as isize != -1, "no memory for the fence");
            assert_eq!(mprotect(start.add(LENGTH), PAGE, NOTHING), 0, "no fence");
            Fence { start }
        }
    }
}

thread_local! {
    static FENCE: RefCell<Fence> = RefCell::new(Fence::new());
}

/// Calls with a copy of the bytes that ends at the fence, if they are short enough.
pub fn fenced<T>(bytes: &[u8], call: impl FnOnce(&[u8]) -> T) -> T {
    if bytes.len() > LENGTH {
        return call(bytes);
    }
    FENCE.with(|fence| {
        let fence = fence.borrow_mut();
        // SAFETY: the mapping has LENGTH bytes before the fence, and is borrowed for the whole call.
        let copy = unsafe {
            let at = fence.start.add(LENGTH - bytes.len());
            std::ptr::copy_nonoverlapping(bytes.as_ptr(), at, bytes.len());
            std::slice::from_raw_parts(at, bytes.len())
        };
        call(copy)
    })
}
