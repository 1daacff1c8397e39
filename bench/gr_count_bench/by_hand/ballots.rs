//! The ballots: those of tests/program/large_vote.py, where there are as many options.

/// With this seed there are 94 rounds with 35 options, and 4 with 9.
const SEED: u64 = 199;

/// The ranks, from the best one to the last.
const RANKS: &[u8; 35] = b"123456789abcdefghijklmnopqrstuvwxyz";

/// A linear congruential generator.
struct Draw {
    state: u64,
}

impl Draw {
    fn below(&mut self, limit: usize) -> usize {
        let product = self.state.wrapping_mul(6_364_136_223_846_793_005);
        self.state = product.wrapping_add(1_442_695_040_888_963_407);
        (self.state >> 33) as usize % limit
    }

    /// Any of so many ranks in so many of eight cases, and else none.
    fn mark(&mut self, ranks: usize, eighths: usize) -> u8 {
        let rank = RANKS[self.below(ranks)];
        if self.below(8) < eighths { rank } else { b'-' }
    }
}

/// So many ballots one after the other, with as many ranks as options. A choice has a rank on seven
/// of eight ballots, the default option on one of eight.
pub fn texts(options: usize, ballots: usize) -> Vec<u8> {
    let mut draw = Draw { state: SEED };
    let mut texts = Vec::with_capacity(options * ballots);
    for _ in 0..ballots {
        for option in 1..=options {
            texts.push(draw.mark(options, if option == options { 1 } else { 7 }));
        }
    }
    texts
}
