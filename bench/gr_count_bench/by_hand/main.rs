//! Times of reading, adding and counting ballots by the proved crate beside those by a counter that
//! is written by hand.

mod ballots;
mod counter;
mod proved;

use counter::MAX_OPTIONS;
use std::fmt::Debug;
use std::hint::black_box;
use std::time::Instant;

const BALLOTS: usize = 2_000;
const DEVELOPERS: u32 = 2_000;

/// How often each is timed.
const TURNS: usize = 301;

/// How many counts more are timed in a turn, so that what else it does hardly shows in one of them.
const MORE: u32 = 10;

/// How many nanoseconds each side took.
struct Times {
    proved: u64,
    by_hand: u64,
}

impl Times {
    /// One of the counts by which this turn had more than the other.
    fn one_more_than(&self, other: &Times) -> Times {
        let one = |more: u64, fewer: u64| more.saturating_sub(fewer) / u64::from(MORE);
        Times {
            proved: one(self.proved, other.proved),
            by_hand: one(self.by_hand, other.by_hand),
        }
    }
}

/// The times of the turns with so many options.
#[derive(Default)]
struct Turns {
    rounds: u32,
    add: Vec<Times>,
    all: Vec<Times>,
    count: Vec<Times>,
}

fn main() {
    println!("medians in microseconds\n");
    print_head();
    print_line("9 options, 2,000 ballots", &timed(9).all, "1.20");
    let turns = timed(MAX_OPTIONS);
    print_line("35 options, 2,000 ballots", &turns.all, "1.20");
    print_line("  reading and adding them", &turns.add, "");
    let counting = format!("  counting them, {} rounds", turns.rounds);
    print_line(&counting, &turns.count, "1.30");
}

/// Times both sides in turn, so that what else the machine does slows both.
fn timed(options: usize) -> Turns {
    let texts = ballots::texts(options, BALLOTS);
    let count = |times| {
        let by_hand = || counter::add_and_count(&texts, options, DEVELOPERS, times);
        let proved = || Some(proved::add_and_count(&texts, options, DEVELOPERS, times));
        time_both(proved, by_hand)
    };
    let mut turns = Turns::default();
    for _ in 0..TURNS {
        let by_hand = || counter::add(&texts, options).map(|above| above[0][options - 1]);
        let (_, add) = time_both(|| Some(proved::add(&texts, options)), by_hand);
        let (counted, all) = count(1);
        let (_, all_and_more) = count(1 + MORE);
        turns.rounds = counted.map_or(0, |(rounds, _)| rounds);
        turns.count.push(all_and_more.one_more_than(&all));
        turns.add.push(add);
        turns.all.push(all);
    }
    turns
}

/// What both sides come to, which must be the same, and how long each took.
fn time_both<T: Debug + PartialEq>(
    proved: impl FnOnce() -> T,
    by_hand: impl FnOnce() -> T,
) -> (T, Times) {
    let (told, proved) = time(proved);
    let (expected, by_hand) = time(by_hand);
    assert_eq!(told, expected);
    (told, Times { proved, by_hand })
}

/// What the work comes to, and how many nanoseconds it took.
fn time<T>(work: impl FnOnce() -> T) -> (T, u64) {
    let start = Instant::now();
    let done = black_box(work());
    (done, start.elapsed().as_nanos() as u64)
}

fn print_head() {
    println!(
        "{:32}{:>6}{:>14}{:>14}{:>8}{:>8}",
        "", "turns", "proved", "by hand", "ratio", "limit"
    );
}

/// Prints the medians of the times of the turns, and that of their ratios.
fn print_line(name: &str, turns: &[Times], limit: &str) {
    let count = turns.len();
    let proved = hundredths(median(turns, |times| times.proved) / 10);
    let by_hand = hundredths(median(turns, |times| times.by_hand) / 10);
    let ratio = |times: &Times| 100 * times.proved / times.by_hand.max(1);
    let ratio = hundredths(median(turns, ratio));
    println!("{name:32}{count:>6}{proved:>14}{by_hand:>14}{ratio:>8}{limit:>8}");
}

fn median(turns: &[Times], number: impl Fn(&Times) -> u64) -> u64 {
    let mut numbers: Vec<u64> = turns.iter().map(number).collect();
    numbers.sort_unstable();
    numbers[numbers.len() / 2]
}

/// A number of hundredths, as 1.04.
fn hundredths(number: u64) -> String {
    format!("{}.{:02}", number / 100, number % 100)
}
