//! Stacks as large as a parse may need.
//!
//! The parser calls itself for each level of nesting. A level takes at most 900 bytes of the stack and at least a token
//! of the input, so 1 KB for each token always suffices. So much is reserved, and a call that parses is made on it: a
//! page of it takes memory only once it is written to. A thread keeps a stack for small texts from one to the next.
//!
//! The calls of the library call nothing of this package, so no sink, no panic and no other parse is ever on such a
//! stack.
use std::arch::asm;
use std::cell::Cell;
use std::ffi::{c_int, c_long, c_void};
use std::ptr;

/// What a token takes of the stack at most, in bytes, as `rap_stack` of `include/rap.h` has it.
const OF_A_TOKEN: usize = 1024;

/// What a call takes of the stack beside that, in bytes, with a page that must not be accessed.
const OF_A_CALL: usize = 64 << 10;

/// How many tokens are parsed at most: an input of more is refused before.
pub(super) const MOST_TOKENS: usize = 8_388_607;

/// How many bytes the stack that a thread keeps has.
const KEPT_SIZE: usize = 64 << 20;

const PAGE: usize = 4096;

const PROT_NONE: c_int = 0;
const PROT_READ_WRITE: c_int = 1 | 2;
/// Private, in no file, with no memory set aside, and as a stack.
const MAP_FLAGS: c_int = 0x2 | 0x20 | 0x4000 | 0x20000;
const MADV_NOHUGEPAGE: c_int = 15;

unsafe extern "C" {
    fn mmap(at: *mut c_void, size: usize, protection: c_int, flags: c_int, file: c_int, from: c_long) -> *mut c_void;
    fn mprotect(at: *mut c_void, size: usize, protection: c_int) -> c_int;
    fn madvise(at: *mut c_void, size: usize, advice: c_int) -> c_int;
    fn munmap(at: *mut c_void, size: usize) -> c_int;
}

thread_local! {
    /// The stack that the thread keeps.
    static KEPT: Cell<Option<Stack>> = const { Cell::new(None) };
}

/// A stack, of which the lowest page must not be accessed.
struct Stack {
    lowest: *mut c_void,
    size: usize,
}

impl Stack {
    /// A stack of so many bytes, whole pages, if it can be had.
    fn new(size: usize) -> Option<Stack> {
        // SAFETY: the system chooses where, and nothing else is there.
        let lowest = unsafe { mmap(ptr::null_mut(), size, PROT_READ_WRITE, MAP_FLAGS, -1, 0) };
        if lowest.addr() == usize::MAX {
            return None;
        }
        let stack = Stack { lowest, size };
        // SAFETY: the pages are the stack's alone.
        let is_guarded = unsafe {
            // Of a huge page much more is taken than most texts write to. An old system may not know this advice.
            let _ = madvise(lowest, size, MADV_NOHUGEPAGE);
            mprotect(lowest, PAGE, PROT_NONE) == 0
        };
        is_guarded.then_some(stack)
    }

    /// Makes a call on the stack.
    fn run(&mut self, mut call: &mut dyn FnMut()) {
        /// Makes the call. A panic in it would end the process here.
        extern "C" fn make(call: &mut &mut dyn FnMut()) {
            call();
        }
        let highest = self.lowest.wrapping_byte_add(self.size);
        // SAFETY: the stack is borrowed, so nothing else is on it, and it is of whole pages. `r12` holds the old stack
        // while the call is made, which leaves it as it was by the calling convention. What the call borrows lives in
        // this function.
        unsafe {
            asm!(
                "xchg rsp, r12",
                "call {make}",
                "mov rsp, r12",
                make = in(reg) make as extern "C" fn(&mut &mut dyn FnMut()),
                in("rdi") &raw mut call,
                inout("r12") highest => _,
                clobber_abi("C"),
            );
        }
    }
}

impl Drop for Stack {
    fn drop(&mut self) {
        // SAFETY: nothing is on the stack, and nothing has an address of it.
        unsafe { munmap(self.lowest, self.size) };
    }
}

/// How many bytes a stack for so many tokens has.
pub(super) fn size_for(tokens: usize) -> usize {
    (tokens.min(MOST_TOKENS) * OF_A_TOKEN + OF_A_CALL).next_multiple_of(PAGE)
}

/// Makes a call on a stack for so many tokens. `None` if such a stack cannot be had, and then no call was made.
///
/// The call must not panic: a panic ends the process.
pub(super) fn call_on<T>(tokens: usize, call: impl Fn() -> T) -> Option<T> {
    let size = size_for(tokens);
    let is_kept = size <= KEPT_SIZE;
    // A thread that ends has none.
    let kept = if is_kept { KEPT.try_with(Cell::take).ok().flatten() } else { None };
    let kept = kept.filter(|stack| stack.size >= size);
    let anew = || Stack::new(size.max(KEPT_SIZE)).or_else(|| Stack::new(size));
    let mut stack = kept.or_else(anew)?;
    let mut result = None;
    stack.run(&mut || result = Some(call()));
    if is_kept {
        // A thread that ends keeps none.
        let _ = KEPT.try_with(|kept| kept.set(Some(stack)));
    }
    result
}

/// Frees the stack that the thread keeps.
pub(super) fn release() {
    drop(KEPT.try_with(Cell::take));
}

#[cfg(test)]
mod tests {
    use super::{KEPT, KEPT_SIZE, MOST_TOKENS, OF_A_TOKEN, Stack, call_on, release};
    use std::cell::RefCell;
    use std::hint::black_box;
    use std::thread;

    /// Goes down so many levels, each of which takes some 800 bytes, and returns their number.
    fn levels_of(count: usize) -> usize {
        let taken = [1_u8; 600];
        let below = if count > 1 { levels_of(count - 1) } else { 0 };
        below + black_box(&taken)[count % 600] as usize
    }

    #[test]
    fn has_room_for_a_level_of_each_token() {
        for tokens in [1, 1000, KEPT_SIZE / OF_A_TOKEN - 64, KEPT_SIZE / OF_A_TOKEN, 300_000] {
            assert_eq!(call_on(tokens, || levels_of(tokens)), Some(tokens));
        }
        assert_eq!(call_on(0, || "called"), Some("called"));
        assert_eq!(call_on(usize::MAX, || "called"), Some("called"));
        assert_eq!(call_on(MOST_TOKENS, || levels_of(10)), Some(10));
    }

    #[test]
    fn is_there_in_any_thread() {
        thread_local! {
            static LAST: RefCell<Option<Last>> = const { RefCell::new(None) };
        }
        /// Makes a call when its thread ends.
        struct Last;
        impl Drop for Last {
            fn drop(&mut self) {
                assert_eq!(call_on(10_000, || levels_of(10_000)), Some(10_000));
            }
        }
        let levels = || {
            LAST.with(|last| *last.borrow_mut() = Some(Last));
            call_on(10_000, || levels_of(10_000))
        };
        let start = || thread::Builder::new().stack_size(16 << 10).spawn(levels).expect("it starts");
        let threads: Vec<_> = (0..20).map(|_| start()).collect();
        for thread in threads {
            assert_eq!(thread.join().expect("it ends"), Some(10_000));
        }
    }

    #[test]
    fn is_kept_until_it_is_released() {
        assert_eq!(call_on(10, || levels_of(10)), Some(10));
        let kept = KEPT.take().expect("it is kept");
        assert_eq!(kept.size, KEPT_SIZE);
        KEPT.set(Some(kept));
        release();
        assert!(KEPT.take().is_none());
        assert_eq!(call_on(10, || levels_of(10)), Some(10));
    }

    #[test]
    fn is_refused_where_it_cannot_be_had() {
        assert!(Stack::new(1 << 50).is_none());
    }
}
