//! The counter that is written by hand. Options are numbers from 0, the default one last, and each
//! ratio is 1.

/// How many options a vote has at most.
pub const MAX_OPTIONS: usize = 35;

/// How many voters prefer the first option to the second.
pub type Above = [[u32; MAX_OPTIONS]; MAX_OPTIONS];

/// For each option a word, in which each other option has a bit.
type Rows = [u64; MAX_OPTIONS];

/// The mark of an option without a rank, after all ranks.
const UNRANKED: u8 = u8::MAX;

/// What a count comes to.
struct Count {
    /// The outcome set.
    members: u64,

    /// How many rounds dropped defeats.
    rounds: u32,
}

/// Reads ballots, each of which has a character for each option, and adds them. `None` where one is
/// none.
#[inline(never)]
pub fn add(texts: &[u8], options: usize) -> Option<Above> {
    let mut above = [[0; MAX_OPTIONS]; MAX_OPTIONS];
    for text in texts.chunks_exact(options) {
        let mut marks = [UNRANKED; MAX_OPTIONS];
        for (mark, character) in marks.iter_mut().zip(text) {
            *mark = read(*character)?;
        }
        let marks = &marks[..options];
        for (row, mark) in above.iter_mut().zip(marks) {
            for (number, other) in row.iter_mut().zip(marks) {
                *number += u32::from(mark < other);
            }
        }
    }
    Some(above)
}

fn read(character: u8) -> Option<u8> {
    match character {
        b'1'..=b'9' => Some(character - b'0'),
        b'a'..=b'z' => Some(character - b'a' + 10),
        b'-' => Some(UNRANKED),
        _ => None,
    }
}

/// Reads and adds ballots, and counts them so many times, once at least, in turn with one developer
/// fewer, as the proved side does. How many rounds there were in all, and the last outcome set.
pub fn add_and_count(
    texts: &[u8],
    options: usize,
    developers: u32,
    times: u32,
) -> Option<(u32, u64)> {
    let above = add(texts, options)?;
    let mut counted = count(&above, options, developers);
    let mut rounds = counted.rounds;
    for time in 1..times {
        counted = count(&above, options, developers.saturating_sub(time % 2));
        rounds += counted.rounds;
    }
    Some((rounds, counted.members))
}

/// Counts a vote.
#[inline(never)]
fn count(above: &Above, options: usize, developers: u32) -> Count {
    let kept = kept(above, options, developers);
    let mut defeats = defeats(above, options, kept);
    let mut rounds = 0;
    loop {
        let members = schwartz_set(options, kept, &with_their_defeats(options, defeats));
        let Some(weakest) = weakest(above, options, &defeats, members) else {
            return Count { members, rounds };
        };
        for (row, weak) in defeats.iter_mut().zip(&weakest) {
            *row &= !weak;
        }
        rounds += 1;
    }
}

fn has(set: u64, option: usize) -> bool {
    set >> option & 1 == 1
}

/// The options with the quorum and the majority, and the default one.
fn kept(above: &Above, options: usize, developers: u32) -> u64 {
    let default = options - 1;
    let mut kept = 1 << default;
    for option in 0..default {
        let (votes, against) = (above[option][default], above[default][option]);
        if 4 * votes * votes >= 9 * developers && votes > against {
            kept |= 1 << option;
        }
    }
    kept
}

/// The defeats between kept options.
fn defeats(above: &Above, options: usize, kept: u64) -> Rows {
    let mut defeats = [0; MAX_OPTIONS];
    for first in (0..options).filter(|&option| has(kept, option)) {
        for second in (0..options).filter(|&option| has(kept, option)) {
            if above[first][second] > above[second][first] {
                defeats[first] |= 1 << second;
            }
        }
    }
    defeats
}

/// The transitive defeats, by Warshall's algorithm.
fn with_their_defeats(options: usize, defeats: Rows) -> Rows {
    let mut reached = defeats;
    for middle in 0..options {
        let row = reached[middle];
        for other in &mut reached[..options] {
            if has(*other, middle) {
                *other |= row;
            }
        }
    }
    reached
}

/// The kept options that defeat transitively each kept one by which they are so defeated.
fn schwartz_set(options: usize, kept: u64, reached: &Rows) -> u64 {
    let mut members = 0;
    for option in (0..options).filter(|&option| has(kept, option)) {
        let mut others = (0..options).filter(|&other| has(kept, other));
        if others.all(|other| !has(reached[other], option) || has(reached[option], other)) {
            members |= 1 << option;
        }
    }
    members
}

/// The weakest defeats between members; `None` where there are none.
fn weakest(above: &Above, options: usize, defeats: &Rows, members: u64) -> Option<Rows> {
    let mut least = None;
    let mut weakest = [0; MAX_OPTIONS];
    for first in (0..options).filter(|&option| has(members, option)) {
        let mut row = defeats[first] & members;
        while row != 0 {
            let second = row.trailing_zeros() as usize;
            row &= row - 1;
            let strength = (above[first][second], u32::MAX - above[second][first]);
            if least.is_none_or(|least| strength < least) {
                least = Some(strength);
                weakest = [0; MAX_OPTIONS];
            }
            if least == Some(strength) {
                weakest[first] |= 1 << second;
            }
        }
    }
    least.map(|_| weakest)
}
