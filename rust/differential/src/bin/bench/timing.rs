//! Timing two sides in turns, in rounds over all that is timed, and judging a figure by a bar.

use std::fmt::Write;
use std::ptr;
use std::time::{Duration, Instant};

/// The rounds, how many of them count, the turns that each side has in one, and how long a turn lasts
/// at least.
pub const ROUNDS: usize = 21;
pub const COUNTED: usize = 7;
pub const TURNS: usize = 20;
pub const TURN: Duration = Duration::from_millis(1);

/// A side makes so many calls and tells how many were refused, so that no answer goes unused.
pub type Side<'a> = &'a mut dyn FnMut(u64) -> u64;

/// What the rounds tell of some sides: the time of a call on each, in nanoseconds.
pub struct Times<const SIDES: usize>([f64; SIDES]);

impl<const SIDES: usize> Times<SIDES> {
    /// The first side's time by the second's.
    pub fn ratio(&self) -> f64 {
        ratio(&self.0)
    }
}

/// What the rounds have timed. Every round times the same in the same order.
#[derive(Default)]
pub struct Sheet {
    /// In that order, the best times of the sides in each round so far, the fastest rounds first; and
    /// where this round is.
    timed: Vec<Vec<Vec<f64>>>,
    next: usize,
    /// The tables and the bars, as this round has them.
    tables: String,
    pub bars: Vec<Bar>,
}

impl Sheet {
    /// Before a round.
    pub fn begin(&mut self) {
        self.next = 0;
        self.tables.clear();
        self.bars.clear();
    }

    /// Times the sides in turns, of which the first two go first by turns. It tells the round with the
    /// median ratio among the fastest so far: a machine that others slow down slows the sides unevenly.
    pub fn times<const SIDES: usize>(&mut self, mut sides: [Side; SIDES]) -> Times<SIDES> {
        if self.next == self.timed.len() {
            self.timed.push(Vec::new());
        }
        let rounds = &mut self.timed[self.next];
        self.next += 1;
        rounds.push(best_times(&mut sides));
        // By both sides alike: which of them is the slower one does not matter.
        rounds.sort_by(|one, other| (one[0] * one[1]).total_cmp(&(other[0] * other[1])));
        let mut fastest: Vec<&Vec<f64>> = rounds.iter().take(COUNTED).collect();
        fastest.sort_by(|one, other| ratio(one).total_cmp(&ratio(other)));
        let mut times = [0.0; SIDES];
        times.copy_from_slice(fastest[fastest.len() / 2]);
        Times(times)
    }

    /// The columns of a table: what is called, on what, its size, the sides' times, and the ratio of
    /// the first two.
    pub fn heading<const SIDES: usize>(&mut self, size: &str, sides: [&str; SIDES]) {
        let (call, case) = ("call", "case");
        let sides = sides.map(|side| format!("{side:>9}")).join(" ");
        self.line(format!("\n{call:6}  {case:38} {size:>6} {sides}  ratio"));
    }

    /// A row of a table; the ratio.
    pub fn row<const SIDES: usize>(
        &mut self,
        call: &str,
        case: &str,
        size: usize,
        times: Times<SIDES>,
    ) -> f64 {
        let ratio = times.ratio();
        let times = times.0.map(|time| format!("{time:9.1}")).join(" ");
        self.line(format!("{call:6}  {case:38} {size:6} {times} {ratio:6.3}"));
        ratio
    }

    fn line(&mut self, line: String) {
        writeln!(self.tables, "{line}").expect("a string takes it");
    }

    /// Prints the tables and the bars; how many bars are met, and how many missed.
    pub fn print(&self) -> (usize, usize) {
        println!("{}", self.tables);
        let met = self.bars.iter().filter(|bar| is_met(bar)).count();
        (met, self.bars.len() - met)
    }
}

/// The best turn of each side.
fn best_times<const SIDES: usize>(sides: &mut [Side; SIDES]) -> Vec<f64> {
    let mut calls = [0; SIDES];
    for (calls, side) in calls.iter_mut().zip(sides.iter_mut()) {
        *calls = turn_length(side);
    }
    let mut order = [0; SIDES];
    for (place, side) in order.iter_mut().enumerate() {
        *side = place;
    }
    let mut best = vec![f64::INFINITY; SIDES];
    for _ in 0..TURNS {
        for side in order {
            best[side] = best[side].min(turn(sides[side], calls[side]));
        }
        order.swap(0, 1);
    }
    best
}

fn ratio(times: &[f64]) -> f64 {
    times[0] / times[1]
}

/// So many calls, and how many were refused.
pub fn repeat(calls: u64, mut is_refused: impl FnMut() -> bool) -> u64 {
    (0..calls).map(|_| u64::from(is_refused())).sum()
}

/// How many calls last a turn.
fn turn_length(side: Side) -> u64 {
    let mut calls = 16;
    while turn(side, calls) * calls as f64 <= TURN.as_nanos() as f64 {
        calls *= 2;
    }
    calls
}

/// The nanoseconds of one call, over so many.
fn turn(side: Side, calls: u64) -> f64 {
    let began = Instant::now();
    let refused = side(calls);
    let taken = began.elapsed().as_nanos() as f64;
    opaque(&refused);
    taken / calls as f64
}

/// The same reference, which the compiler can't know: `std::hint::black_box` came with Rust 1.66.
pub fn opaque<T: ?Sized>(value: &T) -> &T {
    let address: *const T = value;
    // SAFETY: it is read from a place that holds it, and points to what `value` borrows.
    unsafe { &*ptr::read_volatile(&address) }
}

/// A figure, what it is a part of, and the most that it may be.
pub struct Bar {
    pub what: String,
    pub figure: f64,
    pub of: String,
    pub most: f64,
}

/// Prints the bar, and whether it is met.
fn is_met(bar: &Bar) -> bool {
    let Bar {
        what,
        figure,
        of,
        most,
    } = bar;
    let met = figure <= most;
    let word = if met { "met" } else { "missed" };
    println!("{what}: {figure:.3} of {of}, bar {most:.2}: {word}");
    met
}
