//! Rooms that a thread keeps from one text to the next: for the words of a tree, and for a long list of nodes. To get
//! them anew from the system takes a good part of the time of a parse.
use super::Element;
use std::cell::Cell;
use std::ffi::{c_int, c_void};
use std::thread::LocalKey;

/// A room that a thread keeps.
type Kept<T> = LocalKey<Cell<Vec<T>>>;

thread_local! {
    static WORDS: Cell<Vec<u32>> = const { Cell::new(Vec::new()) };
    static ELEMENTS: Cell<Vec<Element>> = const { Cell::new(Vec::new()) };
}

/// How many bytes a room has at most that is kept: the words of a text of some 2.5 MB, or the list of one of 1.1 MB. Of
/// 600 files two of 0.9 MB hold a fifth of the bytes: with 4 MB the package takes 1.07 times as long for all, and a tree
/// 1.16 times.
const MOST_KEPT: usize = 20 << 20;

/// For how many words a kept room may be, however few are asked for: 4 MB. A larger one has at most these times more.
const ALWAYS_KEPT: usize = 1 << 20;
const MOST_SPARE: usize = 16;

/// From how many bytes on a room for a list is long: it is kept, and asked for in huge pages.
const LONG: usize = 8 << 20;

const HUGE_PAGE: usize = 2 << 20;
const MADV_HUGEPAGE: c_int = 14;

unsafe extern "C" {
    fn madvise(at: *mut c_void, size: usize, advice: c_int) -> c_int;
}

/// Room for so many words, if there is memory for them.
pub(super) fn take(words: usize) -> Vec<u32> {
    take_from(&WORDS, words, ALWAYS_KEPT.max(words.saturating_mul(MOST_SPARE))).unwrap_or_else(|| anew(words))
}

/// Keeps a room for the next text, if it is the larger one.
pub(super) fn keep(words: Vec<u32>) {
    keep_in(&WORDS, words);
}

/// Frees the rooms that the thread keeps.
pub(super) fn release() {
    drop(WORDS.try_with(Cell::take));
    drop(ELEMENTS.try_with(Cell::take));
}

/// Room for the elements of a list, if there is memory for them. It may be kept for long, and so is at most twice as
/// large.
pub(super) fn take_elements(count: usize) -> Vec<Element> {
    take_from(&ELEMENTS, count, count.saturating_mul(2)).unwrap_or_else(|| {
        let room = anew(count);
        if is_long(&room) {
            advise_huge_pages(&room);
        }
        room
    })
}

/// Gives back what is not used of a list's room. Of a long one most of that has taken no memory.
pub(super) fn trim_elements(list: &mut Vec<Element>) {
    let most_spare = if is_long(list) { 4 } else { 2 };
    if list.len() < list.capacity() / most_spare {
        list.shrink_to_fit();
    }
}

/// Keeps the room of a long list for the next text, if it is the larger one.
pub(super) fn keep_elements(list: Vec<Element>) {
    if is_long(&list) {
        keep_in(&ELEMENTS, list);
    }
}

/// New room for so many values, if there is memory for them.
pub(super) fn anew<T>(count: usize) -> Vec<T> {
    let mut room = Vec::new();
    // If this much is refused, the first call of the library writes nothing and returns how much is needed.
    let _ = room.try_reserve_exact(count);
    room
}

/// The kept room, if it is for at least so many values and for no more than `most`. Else it is freed.
fn take_from<T>(kept: &'static Kept<T>, count: usize, most: usize) -> Option<Vec<T>> {
    let room = kept.try_with(Cell::take).unwrap_or_default();
    (count <= room.capacity() && room.capacity() <= most).then_some(room)
}

/// Keeps a room, if it is larger than the one that is kept.
fn keep_in<T>(kept: &'static Kept<T>, mut room: Vec<T>) {
    // A thread that ends keeps nothing.
    let _ = kept.try_with(|kept| {
        let other = kept.take();
        room.clear();
        let is_larger = room.capacity() > other.capacity() && room.capacity() <= MOST_KEPT / size_of::<T>();
        kept.set(if is_larger { room } else { other });
    });
}

fn is_long(list: &Vec<Element>) -> bool {
    list.capacity() >= LONG / size_of::<Element>()
}

/// Asks the system for huge pages: to get small ones, one after another, takes a fifth of the time of a parse.
fn advise_huge_pages(room: &Vec<Element>) {
    let (first, size) = (room.as_ptr().cast::<u8>(), room.capacity() * size_of::<Element>());
    let before = first.align_offset(HUGE_PAGE);
    let within = size.saturating_sub(before) / HUGE_PAGE * HUGE_PAGE;
    // SAFETY: the pages are whole ones of the room, and are read and written as before.
    let _ = unsafe { madvise(first.wrapping_add(before).cast_mut().cast(), within, MADV_HUGEPAGE) };
}

#[cfg(test)]
mod tests {
    use super::{ELEMENTS, LONG, MOST_KEPT, WORDS, anew, keep, keep_elements, release, take_elements, trim_elements};
    use crate::SyntaxKind;
    use crate::sys::{Element, NO_PARENT};

    const LONG_COUNT: usize = LONG / size_of::<Element>() + 1;

    #[test]
    fn of_a_long_list_is_kept_for_one_as_long() {
        let first = take_elements(LONG_COUNT);
        let at = first.as_ptr();
        keep_elements(first);
        let second = take_elements(LONG_COUNT * 2 / 3);
        assert_eq!((second.as_ptr(), second.capacity()), (at, LONG_COUNT));
        keep_elements(second);
        assert_eq!(take_elements(LONG_COUNT / 3).capacity(), LONG_COUNT / 3);
        assert_eq!(ELEMENTS.take().capacity(), 0);
    }

    #[test]
    fn of_a_short_list_or_of_too_long_a_one_is_not_kept() {
        for count in [LONG_COUNT / 2, MOST_KEPT / size_of::<Element>() + 1] {
            keep_elements(anew(count));
            assert_eq!(ELEMENTS.take().capacity(), 0);
        }
    }

    #[test]
    fn is_released() {
        keep(anew(1000));
        keep_elements(anew(LONG_COUNT));
        release();
        assert_eq!((WORDS.take().capacity(), ELEMENTS.take().capacity()), (0, 0));
    }

    #[test]
    fn is_given_back_where_most_of_it_is_not_used() {
        let left = |room, used| {
            let mut list = anew(room);
            list.resize(used, Element::new(SyntaxKind::SOURCE_FILE, 0, 0, 1, NO_PARENT));
            trim_elements(&mut list);
            (list.len(), list.capacity())
        };
        assert_eq!([left(100, 49), left(100, 50)], [(49, 49), (50, 100)]);
        let fourth = LONG_COUNT / 4;
        let want = [(fourth - 1, fourth - 1), (fourth, LONG_COUNT)];
        assert_eq!([left(LONG_COUNT, fourth - 1), left(LONG_COUNT, fourth)], want);
    }
}
