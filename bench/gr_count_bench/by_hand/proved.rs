//! The calls of the proved side.

use crate::counter::MAX_OPTIONS;

mod library {
    unsafe extern "C" {
        pub fn proved_add(texts: *const u8, length: usize, options: usize) -> u32;
        pub fn proved_count(
            texts: *const u8,
            length: usize,
            options: usize,
            developers: u32,
            times: u32,
            members: *mut u8,
            room: usize,
        ) -> u32;
    }
}

/// Reads ballots and adds them; how many prefer the first option to the default one.
pub fn add(texts: &[u8], options: usize) -> u32 {
    // Safety: the library reads a slice, which is handed to it as its start and its length.
    unsafe { library::proved_add(texts.as_ptr(), texts.len(), options) }
}

/// Reads and adds ballots, and counts them so many times; how many rounds there were in all, and
/// the outcome set.
pub fn add_and_count(texts: &[u8], options: usize, developers: u32, times: u32) -> (u32, u64) {
    let (length, mut members) = (texts.len(), [0; MAX_OPTIONS]);
    let (start, set) = (texts.as_ptr(), members.as_mut_ptr());
    // Safety: the library reads one slice and writes the other; both are handed as the first one.
    let rounds = unsafe {
        library::proved_count(start, length, options, developers, times, set, MAX_OPTIONS)
    };
    let is_member = |option: &usize| members[*option] == 1;
    (
        rounds,
        (0..options)
            .filter(is_member)
            .fold(0, |set, option| set | 1 << option),
    )
}
