//! The border of the surface: every slice that is lent stands against a page that nobody may touch, before it or behind it, in hundreds of
//! thousands of calls with good and damaged input; and how much stack the calls take. Prints both.
//!
//! Each call is made twice, with its slices at the front of their pages and at the end of them. A read or a write beyond a slice ends the
//! program. Afterwards every place must be as it was before, but those that the answer says were filled, and both calls must have
//! answered the same; a check must answer so without guard pages too. Only the refusals 1 to 6 and 19 have a place, and it is within the
//! input.

use inputs::{Form, Random, LONGEST_INPUT};
use krubbadin::surface::{self, Answer, COUNT, FAMILY, FIRST, NOWHERE, OPERATORS, PACKET, WORDS};
use krubbadin::surface::{DISTINGUISHED, DISTINGUISHER, PLAIN, STANDARD, WITH_DISTINGUISHER};

/// Turns; each makes two calls of each function that takes slices.
const TURNS: usize = 40_000;

fn main() {
    // The test harness's words, such as --quiet, are not looked at.
    let calls = at_guard_pages();
    println!(
        "{} calls against guard pages, {} accepted: nothing beyond what was lent was touched, nothing that must stay was changed",
        calls.made, calls.accepted
    );
    let taken = stack_taken().map(|(name, octets)| format!("{name} {octets}"));
    println!("octets of stack: {}", taken.join(", "));
}

/// Pages that are asked of the system, the first and the last of them shut.
mod pages {
    use libc::{mmap, mprotect, sysconf, MAP_ANONYMOUS, MAP_FAILED, MAP_PRIVATE};
    use libc::{PROT_NONE, PROT_READ, PROT_WRITE};

    /// Room for so many elements or somewhat more, between two shut pages.
    pub fn between_shut<T: Copy>(count: usize) -> &'static mut [T] {
        // SAFETY: the system's calls are used as they are described; what is given out is mapped, aligned to a page, zero, and given to
        // nobody else. Numbers of any bits are what this is used for.
        unsafe {
            let page = sysconf(libc::_SC_PAGESIZE) as usize;
            let inner = (count * std::mem::size_of::<T>() + page - 1) / page * page;
            let all = mmap(
                std::ptr::null_mut(),
                inner + 2 * page,
                PROT_READ | PROT_WRITE,
                MAP_PRIVATE | MAP_ANONYMOUS,
                -1,
                0,
            );
            assert_ne!(all, MAP_FAILED, "no pages");
            let last = all.cast::<u8>().add(page + inner).cast();
            assert_eq!(
                (
                    mprotect(all, page, PROT_NONE),
                    mprotect(last, page, PROT_NONE)
                ),
                (0, 0),
                "no guard pages"
            );
            let first = all.cast::<u8>().add(page).cast();
            std::slice::from_raw_parts_mut(first, inner / std::mem::size_of::<T>())
        }
    }
}

/// On which side of a slice the shut page is.
#[derive(Debug, Clone, Copy)]
enum Side {
    Before,
    Behind,
}

/// Pages that slices are lent from, with a copy of what they held.
struct Lent<T: 'static> {
    all: &'static mut [T],
    before: Vec<T>,
    from: usize,
    count: usize,
}

impl<T: Copy + PartialEq + std::fmt::Debug> Lent<T> {
    fn new(most: usize, pattern: impl Fn(usize) -> T) -> Self {
        let all = pages::between_shut(most);
        all.iter_mut()
            .enumerate()
            .for_each(|(at, place)| *place = pattern(at));
        let before = all.to_vec();
        Lent {
            all,
            before,
            from: 0,
            count: 0,
        }
    }

    /// So many places, against the shut page, holding what they held.
    fn lend(&mut self, count: usize, side: Side) {
        self.count = count;
        self.from = match side {
            Side::Before => 0,
            Side::Behind => self.all.len() - count,
        };
    }

    /// These elements, against the shut page.
    fn put(&mut self, list: &[T], side: Side) {
        self.lend(list.len(), side);
        let places = self.from..self.from + self.count;
        self.all[places.clone()].copy_from_slice(list);
        self.before[places].copy_from_slice(list);
    }

    fn list(&self) -> &[T] {
        &self.all[self.from..self.from + self.count]
    }

    fn list_mut(&mut self) -> &mut [T] {
        &mut self.all[self.from..self.from + self.count]
    }

    /// What was filled at the front, after it was seen that all else is as it was.
    fn filled(&mut self, filled: usize, name: &str) -> Vec<T> {
        let (from, to) = (self.from, self.from + filled);
        assert!(
            filled <= self.count,
            "{name}: {filled} filled of {}",
            self.count
        );
        assert!(
            self.all[..from] == self.before[..from],
            "{name}: changed before what was lent"
        );
        assert!(
            self.all[to..] == self.before[to..],
            "{name}: changed past what was filled"
        );
        let filled = self.all[from..to].to_vec();
        self.all[from..to].copy_from_slice(&self.before[from..to]);
        filled
    }

    fn unchanged(&mut self, name: &str) {
        self.filled(0, name);
    }
}

/// Everything that a call may be lent.
struct Border {
    input: Lent<u8>,
    words: Lent<u64>,
    values: Lent<u64>,
    octets: Lent<u8>,
    words2: Lent<u64>,
    values2: Lent<u64>,
    octets2: Lent<u8>,
    packet: Lent<u64>,
    out: Lent<u8>,
}

/// How many calls were made, and how many of them were accepted.
#[derive(Default)]
struct Calls {
    made: usize,
    accepted: usize,
}

impl Calls {
    fn of(made: usize, status: u64) -> Self {
        let accepted = if status == 0 { made } else { 0 };
        Calls { made, accepted }
    }

    fn add(&mut self, more: Calls) {
        self.made += more.made;
        self.accepted += more.accepted;
    }
}

/// Rules and operators, good or damaged.
#[derive(Default, Clone)]
struct Table {
    words: Vec<u64>,
    values: Vec<u64>,
    octets: Vec<u8>,
}

/// The most rules in a table here: more than the surface takes.
const RULES: usize = 66;

fn at_guard_pages() -> Calls {
    let mut random = Random::new(5);
    let mut border = Border::new();
    let mut calls = Calls::default();
    calls.add(border.too_wide());
    calls.add(border.short_distinguishers());
    for _ in 0..TURNS {
        calls.add(border.read(&mut random));
        calls.add(border.check(&mut random));
        calls.add(border.write(&mut random));
        calls.add(border.match_one(&mut random));
        calls.add(border.rank(&mut random));
        calls.add(border.choose(&mut random));
        calls.add(operators(&mut random));
    }
    calls
}

impl Border {
    fn new() -> Self {
        let words = |at| (at as u64).wrapping_mul(0x9E37_79B9_7F4A_7C15);
        let octets = |at| (at as u8).wrapping_mul(29).wrapping_add(7);
        Border {
            input: Lent::new(2 * LONGEST_INPUT, octets),
            words: Lent::new(RULES * WORDS + 8, words),
            values: Lent::new(3 * OPERATORS, words),
            octets: Lent::new(3 * OPERATORS, octets),
            words2: Lent::new(2 * WORDS, words),
            values2: Lent::new(3 * OPERATORS, words),
            octets2: Lent::new(3 * OPERATORS, octets),
            packet: Lent::new(2 * PACKET, words),
            out: Lent::new(2 * LONGEST_INPUT, octets),
        }
    }

    fn read(&mut self, random: &mut Random) -> Calls {
        let (standard, family) = reading(random);
        let mut input = Vec::new();
        inputs::random(form(standard, family), random, &mut input);
        input.truncate(2 * LONGEST_INPUT);
        let words = random.pick(&[0, 1, 63, 64, 64, 64, 65, 128]);
        let places = |random: &mut Random| match random.below(4) {
            0 => random.below(8),
            1 => random.below(60),
            _ => OPERATORS,
        };
        let (values, octets) = (places(random), places(random));
        twice(|side| {
            self.input.put(&input, side);
            self.words.lend(words, side);
            self.values.lend(values, side);
            self.octets.lend(octets, side);
            let answer = surface::read(
                standard,
                family,
                self.input.list(),
                self.words.list_mut(),
                self.values.list_mut(),
                self.octets.list_mut(),
            );
            let (words, operators) = match answer.status {
                0 => (WORDS, answer.second as usize),
                _ => (0, 0),
            };
            placed_within(answer, input.len());
            self.input.unchanged("read, input");
            let words = self.words.filled(words, "read, words");
            let values = self.values.filled(operators, "read, values");
            let octets = self.octets.filled(operators, "read, octets");
            (answer, (words, values, octets))
        })
    }

    fn check(&mut self, random: &mut Random) -> Calls {
        let (standard, family) = reading(random);
        let mut input = Vec::new();
        inputs::random(form(standard, family), random, &mut input);
        input.truncate(2 * LONGEST_INPUT);
        let unguarded = surface::check(standard, family, &input);
        twice(|side| {
            self.input.put(&input, side);
            let answer = surface::check(standard, family, self.input.list());
            assert_eq!(answer, unguarded);
            placed_within(answer, input.len());
            self.input.unchanged("check, input");
            (answer, ())
        })
    }

    /// An input that ends with the operator octet of a value that is too wide: nothing is looked for behind it.
    fn too_wide(&mut self) -> Calls {
        let mut calls = Calls::default();
        let wider = |(kind, most): (u8, u8)| (most + 1..4).map(move |code| (kind, code));
        for (kind, code) in [(9, 1), (11, 0), (12, 0)].into_iter().flat_map(wider) {
            for before in [&[kind][..], &[kind, 0x01, 0x05]] {
                let input = inputs::framed(&[before, &[0x81 | code << 4]].concat());
                let wanted = Answer {
                    status: 6,
                    first: u64::from(code),
                    second: 0,
                    place: input.len() as u64 - 1,
                };
                for family in [4, 6] {
                    calls.add(twice(|side| {
                        self.input.put(&input, side);
                        let input = self.input.list();
                        let read = surface::read(1, family, input, &mut [], &mut [], &mut []);
                        assert_eq!((surface::check(1, family, input), read), (wanted, wanted));
                        self.input.unchanged("too wide, input");
                        (read, ())
                    }));
                }
            }
        }
        calls
    }

    /// An input that ends before a distinguisher, in it, with it and behind it, under every stated length: nothing is looked for past its end.
    fn short_distinguishers(&mut self) -> Calls {
        const BODY: [u8; 11] = [
            0x01, 0x23, 0x45, 0x67, 0x89, 0xAB, 0xCD, 0xEF, 0x03, 0x81, 0x06,
        ];
        let mut calls = Calls::default();
        for (there, stated) in
            (0..=11).flat_map(|there| (0..=11).map(move |stated| (there, stated)))
        {
            let operators = usize::from(stated == 11);
            let (status, place) = match stated {
                _ if stated > there => (1, 1 + there as u64),
                0..=7 => (19, 1 + stated as u64),
                8 | 11 => (0, NOWHERE),
                _ => (1, 1 + stated as u64),
            };
            let input = [&[stated as u8], &BODY[..there]].concat();
            for family in [4, 6] {
                calls.add(twice(|side| {
                    self.input.put(&input, side);
                    self.words.lend(WORDS, side);
                    self.values.lend(operators, side);
                    self.octets.lend(operators, side);
                    let checked = surface::check(WITH_DISTINGUISHER, family, self.input.list());
                    let answer = surface::read(
                        WITH_DISTINGUISHER,
                        family,
                        self.input.list(),
                        self.words.list_mut(),
                        self.values.list_mut(),
                        self.octets.list_mut(),
                    );
                    assert_eq!((answer, answer.status), (checked, status), "{input:02X?}");
                    assert_eq!(answer.place, place, "{input:02X?}");
                    let (words, operators) = match status {
                        0 => (WORDS, operators),
                        _ => (0, 0),
                    };
                    self.input.unchanged("short distinguisher, input");
                    let words = self.words.filled(words, "short distinguisher, words");
                    self.values.filled(operators, "short distinguisher, values");
                    self.octets.filled(operators, "short distinguisher, octets");
                    if status == 0 {
                        let bits = 0x0123_4567_89AB_CDEF;
                        assert_eq!(words[DISTINGUISHED..=DISTINGUISHER], [1, bits]);
                    }
                    (answer, words)
                }));
            }
        }
        calls
    }

    fn write(&mut self, random: &mut Random) -> Calls {
        let (standard, family) = reading(random);
        let table = Table::damaged(random, 1);
        let needed = table.octets_written(standard, family);
        let room = match random.below(3) {
            0 => needed,
            1 => needed.saturating_sub(1),
            _ => random.pick(&[0, 1, 8, 40, 300, 4096, 4097, 5000]),
        };
        twice(|side| {
            self.put_one(&table, side);
            self.out.lend(room, side);
            let answer = surface::write(
                standard,
                family,
                self.words.list(),
                self.values.list(),
                self.octets.list(),
                self.out.list_mut(),
            );
            self.one_unchanged();
            let written = if answer.status == 0 { needed } else { 0 };
            assert_eq!(answer.status == 0, needed > 0 && room >= needed);
            (answer, self.out.filled(written, "write, out"))
        })
    }

    fn match_one(&mut self, random: &mut Random) -> Calls {
        let table = Table::damaged(random, 1);
        let packet = packet(random);
        twice(|side| {
            self.put_one(&table, side);
            self.packet.put(&packet, side);
            let (values, octets) = (self.values.list(), self.octets.list());
            let answer = surface::matches(self.words.list(), values, octets, self.packet.list());
            self.one_unchanged();
            self.packet.unchanged("match, packet");
            (answer, ())
        })
    }

    fn rank(&mut self, random: &mut Random) -> Calls {
        let one = Table::damaged(random, 1);
        let mut two = match random.below(3) {
            0 => one.clone(),
            _ => Table::damaged(random, 1),
        };
        if let (Some(rule), true) = (one.words.get(..WORDS), random.once_in(2)) {
            two.set_distinguisher(rule[DISTINGUISHED], rule[DISTINGUISHER]);
        }
        twice(|side| {
            self.put_one(&one, side);
            self.words2.put(&two.words, side);
            self.values2.put(&two.values, side);
            self.octets2.put(&two.octets, side);
            let answer = surface::rank(
                (self.words.list(), self.values.list(), self.octets.list()),
                (self.words2.list(), self.values2.list(), self.octets2.list()),
            );
            self.one_unchanged();
            self.words2.unchanged("rank, words");
            self.values2.unchanged("rank, values");
            self.octets2.unchanged("rank, octets");
            (answer, ())
        })
    }

    fn choose(&mut self, random: &mut Random) -> Calls {
        let rules = match random.below(20) {
            0 => random.below(RULES + 1),
            _ => random.below(5),
        };
        let table = Table::damaged(random, rules);
        let packet = packet(random);
        twice(|side| {
            self.put_one(&table, side);
            self.packet.put(&packet, side);
            let (values, octets) = (self.values.list(), self.octets.list());
            let answer = surface::choose(self.words.list(), values, octets, self.packet.list());
            self.one_unchanged();
            self.packet.unchanged("choose, packet");
            (answer, ())
        })
    }

    fn put_one(&mut self, table: &Table, side: Side) {
        self.words.put(&table.words, side);
        self.values.put(&table.values, side);
        self.octets.put(&table.octets, side);
    }

    fn one_unchanged(&mut self) {
        self.words.unchanged("words");
        self.values.unchanged("values");
        self.octets.unchanged("octets");
    }
}

/// Makes a call with its slices on either side of their pages.
fn twice<T: PartialEq + std::fmt::Debug>(mut call: impl FnMut(Side) -> (Answer, T)) -> Calls {
    let said = call(Side::Before);
    assert_eq!(said, call(Side::Behind));
    Calls::of(2, said.0.status)
}

/// The place is one of so many octets or their end where a reading refuses an octet, and else there is none.
fn placed_within(answer: Answer, octets: usize) {
    let within = match answer.status {
        1..=6 | 19 => answer.place <= octets as u64,
        _ => answer.place == NOWHERE,
    };
    assert!(within, "{answer:?} of {octets} octets");
}

fn reading(random: &mut Random) -> (u8, u8) {
    let standard = random.pick(&[0, 0, 1, 1, 1, 2, 2, 2, 3, 255]);
    (standard, random.pick(&[4, 4, 4, 6, 6, 6, 0, 5, 255]))
}

fn form(standard: u8, family: u8) -> Form {
    let family = if family == 6 { 6 } else { 4 };
    match standard {
        PLAIN => Form::Plain,
        WITH_DISTINGUISHER => Form::WithDistinguisher(family),
        _ => Form::Standard(family),
    }
}

impl Table {
    /// So many rules that were read, now and then damaged.
    fn damaged(random: &mut Random, rules: usize) -> Self {
        let mut table = Table::default();
        let family = random.pick(&[0, 4, 4, 4, 6, 6, 6]);
        let standard = match family {
            0 => PLAIN,
            _ => random.pick(&[STANDARD, WITH_DISTINGUISHER]),
        };
        let most = OPERATORS / rules.max(1);
        for _ in 0..rules {
            table.add(random, standard, family, most);
        }
        // Of many distinguishers no rule is chosen.
        if standard == WITH_DISTINGUISHER && !random.once_in(4) {
            table.set_distinguisher(1, random.number());
        }
        if random.once_in(2) {
            for _ in 0..=random.below(3) {
                table.damage(random);
            }
        }
        table
    }

    /// Adds a rule of not too many operators, an empty one where none was hit upon.
    fn add(&mut self, random: &mut Random, standard: u8, family: u8, most: usize) {
        let (mut words, mut values, mut octets) = ([0; WORDS], [0; OPERATORS], [0; OPERATORS]);
        words[FAMILY] = u64::from(family);
        let mut input = Vec::new();
        let mut count = 0;
        for _ in 0..4 {
            inputs::random(form(standard, family), random, &mut input);
            let answer = surface::read(
                standard,
                family,
                &input,
                &mut words,
                &mut values[..most],
                &mut octets,
            );
            if answer.status == 0 {
                count = answer.second as usize;
                break;
            }
        }
        words[FIRST] = self.values.len() as u64;
        self.words.extend(words);
        self.values.extend(&values[..count]);
        self.octets.extend(&octets[..count]);
    }

    /// Gives all rules these words of a distinguisher.
    fn set_distinguisher(&mut self, presence: u64, bits: u64) {
        for rule in self.words.chunks_exact_mut(WORDS) {
            (rule[DISTINGUISHED], rule[DISTINGUISHER]) = (presence, bits);
        }
    }

    /// How many octets a writing gives, 0 where it refuses.
    fn octets_written(&self, standard: u8, family: u8) -> usize {
        let mut out = [0; LONGEST_INPUT];
        let (values, octets) = (&self.values, &self.octets);
        let answer = surface::write(standard, family, &self.words, values, octets, &mut out);
        answer.accepted().map_or(0, |(written, _)| written)
    }

    fn damage(&mut self, random: &mut Random) {
        let telling = [
            0,
            1,
            2,
            13,
            14,
            15,
            33,
            64,
            128,
            2047,
            2048,
            u64::MAX - 1,
            u64::MAX,
            1 << 32,
        ];
        let number = if random.once_in(3) {
            random.value()
        } else {
            random.pick(&telling)
        };
        match random.below(8) {
            0 | 1 if !self.words.is_empty() => {
                let at = random.below(self.words.len());
                self.words[at] = number;
            }
            2 if self.words.len() >= WORDS => {
                let rule = WORDS * random.below(self.words.len() / WORDS);
                let words = [COUNT, FAMILY, FIRST, DISTINGUISHED, DISTINGUISHER];
                let at = random.pick(&[&words[..], &[0, 1, 2, 3, 4, 5, 6, 57, 63]].concat());
                self.words[rule + at] = number;
            }
            3 if !self.values.is_empty() => {
                let at = random.below(self.values.len());
                self.values[at] = number;
            }
            4 if !self.octets.is_empty() => {
                let at = random.below(self.octets.len());
                self.octets[at] = random.octet();
            }
            5 => self.values.truncate(random.below(self.values.len() + 1)),
            6 => self.octets.truncate(random.below(self.octets.len() + 1)),
            _ if random.once_in(2) => self.words.truncate(random.below(self.words.len() + 1)),
            _ => self.words.extend((0..=random.below(3)).map(|_| number)),
        }
    }
}

/// The words of a packet, now and then damaged or too few or too many.
fn packet(random: &mut Random) -> Vec<u64> {
    let family = random.pick(&[4, 6]);
    let mut address = || match family {
        4 => [0, random.value() & 0xFFFF_FFFF],
        _ => [random.number(), random.number()],
    };
    let (destination, source) = (address(), address());
    let mut words = vec![family, destination[0], destination[1], source[0], source[1]];
    for most in [
        256,
        65_576,
        64,
        16,
        2,
        65_536,
        65_536,
        2,
        256,
        256,
        2,
        4096,
        2,
        1 << 20,
    ] {
        words.push(random.below(most) as u64);
    }
    words.push(0);
    if family == 4 {
        words[17] = 0;
    }
    match random.below(4) {
        0 => {
            let at = random.below(PACKET);
            words[at] = random.value();
        }
        1 if random.once_in(4) => words.resize(random.below(2 * PACKET), 1),
        _ => {}
    }
    words
}

/// The calls that are lent nothing: they return, and an octet that is read is written again.
fn operators(random: &mut Random) -> Calls {
    let (bitmask, octet, value) = (random.octet() % 3, random.octet(), random.value());
    let read = surface::operator_read(bitmask, octet, value);
    let accepted = [
        read.end_of_list,
        read.and_with_next,
        read.value_length,
        read.flags,
    ];
    match read.status {
        0 => {
            let [end, and, width, flags] = accepted.map(|number| number as u8);
            let back = surface::operator_write(bitmask, end, and, width, flags);
            let octet = Answer {
                status: 0,
                first: u64::from(octet),
                second: 0,
                place: NOWHERE,
            };
            assert_eq!((back, read.value), (octet, value));
        }
        _ => assert_eq!(
            (read.status, read.carried, accepted),
            (5, u64::from(octet), [0; 4])
        ),
    }
    let mut any = || random.octet();
    let written = surface::operator_write(any(), any() % 3, any() % 3, any() % 10, any() % 10);
    assert!(matches!(written.status, 0 | 10));
    let made = surface::operator_make(any() % 6, value);
    assert!(matches!(made.status, 0 | 10));
    let mut calls = Calls::of(1, read.status);
    calls.add(Calls::of(1, written.status));
    calls.add(Calls::of(1, made.status));
    calls
}

/// A thread on a stack that was painted, and how far down the paint was touched.
mod painted {
    use super::pages;
    use libc::{c_int, c_void, pthread_attr_destroy, pthread_attr_init, pthread_attr_t};
    use libc::{pthread_create, pthread_join};
    use std::mem::MaybeUninit;

    /// Far more than the calls take, and than a thread's own beginning takes.
    const WORDS: usize = 1 << 16;
    const PAINT: u64 = 0xC3A5_7E19_D42B_8F60;

    extern "C" {
        // Debian 12's libc crate does not have this one.
        fn pthread_attr_setstack(
            attributes: *mut pthread_attr_t,
            from: *mut c_void,
            length: usize,
        ) -> c_int;
    }

    struct Job<'a> {
        call: &'a mut dyn FnMut(),
        paint: *const u64,
        top: usize,
        lowest: usize,
    }

    extern "C" fn run(given: *mut c_void) -> *mut c_void {
        // SAFETY: it is the job that `taken` hands over, and waits for; the paint is the stack below, which is looked at as numbers.
        unsafe {
            let job = &mut *given.cast::<Job>();
            job.top = &job as *const _ as usize;
            (job.call)();
            let mut at = job.paint;
            while at.read_volatile() == PAINT {
                at = at.add(1);
            }
            job.lowest = at as usize;
        }
        given
    }

    /// The octets from the thread's own frame down to the lowest place that the call touched.
    pub fn taken(call: &mut dyn FnMut()) -> usize {
        let stack = pages::between_shut::<u64>(WORDS);
        stack.fill(PAINT);
        let mut job = Job {
            call,
            paint: stack.as_ptr(),
            top: 0,
            lowest: 0,
        };
        let mut attributes = MaybeUninit::<pthread_attr_t>::uninit();
        let (mut thread, mut given_back) = (0, std::ptr::null_mut());
        // SAFETY: the system's calls are used as they are described; the stack and the job outlive the thread.
        let done = unsafe {
            let attributes = attributes.as_mut_ptr();
            let stack = (stack.as_mut_ptr().cast(), std::mem::size_of_val(stack));
            let job: *mut Job = &mut job;
            [
                pthread_attr_init(attributes),
                pthread_attr_setstack(attributes, stack.0, stack.1),
                pthread_create(&mut thread, attributes, run, job.cast()),
                pthread_join(thread, &mut given_back),
                pthread_attr_destroy(attributes),
            ]
        };
        assert_eq!(done, [0; 5], "no thread");
        job.top - job.lowest
    }
}

/// The most stack that each call takes, over many inputs.
fn stack_taken() -> [(&'static str, usize); 8] {
    let mut random = Random::new(9);
    let tables: Vec<Table> = (0..400).map(|_| Table::damaged(&mut random, 1)).collect();
    let many: Vec<Table> = (0..200)
        .map(|turn| Table::damaged(&mut random, turn % RULES))
        .collect();
    let packets: Vec<Vec<u64>> = (0..200).map(|_| packet(&mut random)).collect();
    let mut inputs = vec![Vec::new(); 2000];
    for (turn, input) in inputs.iter_mut().enumerate() {
        let (standard, family) = [(0, 0), (1, 4), (1, 6), (2, 4), (2, 6)][turn % 5];
        inputs::random(form(standard, family), &mut random, input);
    }
    let readings = [(0, 0), (1, 4), (1, 6), (1, 5), (2, 4), (2, 6)];
    let (mut words, mut values, mut octets) = ([0; WORDS], [0; OPERATORS], [0; OPERATORS]);
    let mut out = [0; LONGEST_INPUT];
    let empty = painted::taken(&mut || ());
    let mut read = || {
        for input in &inputs {
            for (standard, family) in readings {
                surface::read(
                    standard,
                    family,
                    input,
                    &mut words,
                    &mut values,
                    &mut octets,
                );
            }
        }
    };
    let mut check = || {
        for input in &inputs {
            for (standard, family) in readings {
                surface::check(standard, family, input);
            }
        }
    };
    let mut write = || {
        for table in &tables {
            for (standard, family) in readings {
                surface::write(
                    standard,
                    family,
                    &table.words,
                    &table.values,
                    &table.octets,
                    &mut out,
                );
            }
        }
    };
    let mut match_one = || {
        for (table, packet) in tables.iter().zip(packets.iter().cycle()) {
            surface::matches(&table.words, &table.values, &table.octets, packet);
        }
    };
    let mut rank = || {
        for (one, two) in tables.iter().zip(tables.iter().rev().chain(&tables)) {
            surface::rank(
                (&one.words, &one.values, &one.octets),
                (&two.words, &two.values, &two.octets),
            );
            surface::rank(
                (&one.words, &one.values, &one.octets),
                (&one.words, &one.values, &one.octets),
            );
        }
    };
    let mut choose = || {
        for (table, packet) in many.iter().zip(&packets) {
            surface::choose(&table.words, &table.values, &table.octets, packet);
        }
    };
    let mut operators = || {
        for octet in 0..=255 {
            surface::operator_read(octet % 2, octet, 1);
            surface::operator_write(octet % 2, 1, 1, 8, octet % 8);
            surface::operator_make(octet % 5, u64::from(octet) << 32);
        }
    };
    [
        ("no call", empty),
        ("krubbadin_read", painted::taken(&mut read)),
        ("krubbadin_check", painted::taken(&mut check)),
        ("krubbadin_write", painted::taken(&mut write)),
        ("krubbadin_match", painted::taken(&mut match_one)),
        ("krubbadin_rank", painted::taken(&mut rank)),
        ("krubbadin_choose", painted::taken(&mut choose)),
        ("the operator calls", painted::taken(&mut operators)),
    ]
}
