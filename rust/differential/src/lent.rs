//! Lists that are lent, filled with a pattern, and looked at afterwards.

/// Places on both sides of what is lent that nobody may touch.
const BESIDE: usize = 4;
/// Places that are set aside, so that code with a fault does its damage here and is found out.
const ASIDE: usize = 1 << 14;

/// What a place holds before it is lent: something else at each place and in each turn.
pub trait Place: Copy + PartialEq {
    fn pattern(turn: u64, place: usize) -> Self;
}

impl Place for u64 {
    fn pattern(turn: u64, place: usize) -> u64 {
        turn.wrapping_mul(0x9E37_79B9_7F4A_7C15)
            .wrapping_add(place as u64)
    }
}

impl Place for u8 {
    fn pattern(turn: u64, place: usize) -> u8 {
        (turn as u8).wrapping_mul(29).wrapping_add(place as u8)
    }
}

/// A list, lent anew in each turn, with its neighbours.
pub struct Lent<T> {
    all: Vec<T>,
    turn: u64,
}

impl<T: Place> Lent<T> {
    pub fn new() -> Self {
        Lent {
            all: Vec::with_capacity(ASIDE),
            turn: 0,
        }
    }

    /// So many places, filled with the turn's pattern.
    pub fn lend(&mut self, count: usize, turn: u64) -> &mut [T] {
        self.turn = turn;
        self.all.clear();
        let places = 0..count + 2 * BESIDE;
        self.all.extend(places.map(|at| T::pattern(turn, at)));
        &mut self.all[BESIDE..BESIDE + count]
    }

    /// What was lent, as it is now.
    pub fn list(&self) -> &[T] {
        &self.all[BESIDE..self.all.len() - BESIDE]
    }

    /// The first place that is not as it must be: `front`, then the pattern, on both sides too.
    /// Counted from the start of what was lent, so that a place before it is below 0.
    pub fn wrong(&self, front: &[T]) -> Option<isize> {
        let stays = |at: usize, held: &T| *held == T::pattern(self.turn, at);
        let (before, rest) = self.all.split_at(BESIDE);
        let (filled, after) = rest.split_at(front.len().min(rest.len()));
        let from = BESIDE + filled.len();
        let good = before.iter().enumerate().all(|(at, held)| stays(at, held))
            && filled == front
            && after
                .iter()
                .enumerate()
                .all(|(at, held)| stays(from + at, held));
        if good {
            return None;
        }
        let wanted = |at: usize| match at.checked_sub(BESIDE).and_then(|at| front.get(at)) {
            Some(&written) => written,
            None => T::pattern(self.turn, at),
        };
        let wrong = (0..self.all.len()).find(|&at| self.all[at] != wanted(at));
        Some(wrong.map_or(self.all.len() as isize, |at| at as isize - BESIDE as isize))
    }
}

impl<T: Place> Default for Lent<T> {
    fn default() -> Self {
        Lent::new()
    }
}
