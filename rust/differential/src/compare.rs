//! One input after another put to the proved code and to its peer, and every answer compared: what
//! is told, what is filled, and that everything else stays as it was.

use crate::archive::{self, Asked};
use crate::lent::{Lent, Place};
use crate::requests::hex;
use crate::stored::{Stored, COUNT, WORDS};
use crate::{peers, refusal, Answer, Form, LONGEST_INPUT};
use standard::DISTINGUISHER_OCTETS;
use std::collections::BTreeMap;
use std::process;

/// After so many differences a run ends.
const ENOUGH: u64 = 20;

pub struct Comparison {
    /// Inputs compared, those of them that were checked besides being read, and differences.
    pub compared: u64,
    pub checked: u64,
    pub differ: u64,
    /// Calls of the proved code: an input is tried with several amounts of room.
    pub calls: u64,
    /// Inputs by the status of their answer, room aside, and by what is told where it is 0.
    answers: BTreeMap<(u64, &'static str), u64>,
    words: Lent<u64>,
    values: Lent<u64>,
    octets: Lent<u8>,
    output: Lent<u8>,
    stored: Stored,
    written: Vec<u8>,
    /// Lent to what is timed beside the proved code.
    timed: Stored,
    timed_output: Vec<u8>,
}

impl Comparison {
    pub fn new() -> Self {
        Comparison {
            compared: 0,
            checked: 0,
            differ: 0,
            calls: 0,
            answers: BTreeMap::new(),
            words: Lent::new(),
            values: Lent::new(),
            octets: Lent::new(),
            output: Lent::new(),
            stored: Stored::new(0),
            written: Vec::new(),
            timed: Stored::new(0),
            timed_output: Vec::new(),
        }
    }

    /// How many inputs had each answer since this was last asked.
    pub fn answers(&mut self) -> String {
        let answers = std::mem::take(&mut self.answers);
        let told = answers.iter().map(|((status, told), times)| match status {
            0 => format!("{told} {times}"),
            _ => format!("refusal {status} {times}"),
        });
        told.collect::<Vec<_>>().join(", ")
    }

    /// Counts an input with its answer, in these words where it is no refusal.
    pub(crate) fn count(&mut self, answer: Answer, told: &'static str) {
        self.compared += 1;
        let told = if answer.is_accepted() { told } else { "" };
        *self.answers.entry((answer.status, told)).or_insert(0) += 1;
    }

    pub fn last_line(&self) -> String {
        let compared = self.compared + self.checked;
        format!("{compared} compared, {} differ", self.differ)
    }

    /// Compares a reading: with room to spare, with just enough and with too little. Where the input
    /// is refused, room does not matter. The same input is checked.
    pub fn reading(&mut self, form: Form, input: &[u8]) {
        let turn = self.compared as usize;
        let mut answer = peers::read(form, input, &mut self.stored);
        if form == Form::Plain {
            answer.place = self.plain_place(input, answer);
        }
        self.count(answer, "accepted");
        self.checking(form, input, answer);
        if !answer.is_accepted() {
            let lent = [
                room(64, 0, 0),
                room(67, 3, 3),
                room(63, 0, 9),
                room(0, 40, 2),
            ][turn % 4];
            self.same_reading(form, input, answer, lent);
            return;
        }
        self.timed_reading(form, input, answer);
        let needed = self.stored.values.len();
        let less = needed.saturating_sub(1);
        let lent = [
            room(67, needed + 3, needed + 3),
            room(64, needed, needed),
            [room(64, needed + 2, needed), room(67, needed, needed + 2)][turn % 2],
            [
                room(64, less, needed + 1),
                room(64, needed + 1, less),
                room(67, less, less),
                room(63, needed, needed),
                room(64, 0, needed),
                room(67, needed, 0),
                room(64, 0, 0),
                room(0, 0, 0),
            ][turn % 8],
        ];
        for lent in lent {
            if !self.same_reading(form, input, answer, lent) {
                return;
            }
        }
    }

    /// The place of a plain reading's refusal. The original tells none; `standard` does, and in all
    /// else must answer as the original.
    fn plain_place(&mut self, input: &[u8], original: Answer) -> Option<u64> {
        let answer = peers::plain_used(input);
        let same = match original.status {
            0 => answer.is_accepted() && answer.first == original.first,
            _ => answer.without_place() == original,
        };
        if !same {
            self.difference(&[
                format!("differ: plain reading of {} by Rust", hex(input)),
                format!("  original: {}", check_text(original)),
                format!("  standard: {}", check_text(answer)),
            ]);
        }
        answer.place
    }

    /// Whether the proved reading, lent so much, answers so, but for NoRoom, and leaves the lists so.
    fn same_reading(&mut self, form: Form, input: &[u8], answer: Answer, room: Room) -> bool {
        self.calls += 1;
        let turn = self.calls;
        let found = Answer::from(archive::read(
            Asked::reading(form, turn),
            input,
            self.words.lend(room.words, turn),
            self.values.lend(room.values, turn),
            self.octets.lend(room.octets, turn),
        ));
        let wanted = match answer.status {
            0 => room.answer(answer),
            _ => answer,
        };
        let stored = &self.stored;
        let (front, values, octets) = match wanted.status {
            0 => (&stored.words[..], &stored.values[..], &stored.octets[..]),
            _ => (&[][..], &[][..], &[][..]),
        };
        let wrong = [
            self.words.wrong(front),
            self.values.wrong(values),
            self.octets.wrong(octets),
        ];
        if found == wanted && wrong == [None; 3] {
            return true;
        }
        let Room {
            words,
            values,
            octets,
        } = room;
        let found_lists = (self.words.list(), self.values.list(), self.octets.list());
        let wanted_lists = lists(stored);
        let mut lines = vec![
            format!("differ: {form} reading of {}", hex(input)),
            format!("  lent: {words} words, {values} values, {octets} octets"),
            format!("  proved: {}", reading_text(found, found_lists)),
            format!("  wanted: {}", reading_text(wanted, wanted_lists)),
        ];
        for (list, place) in ["words", "values", "octets"].iter().zip(wrong) {
            lines.extend(place.map(|place| wrong_text(list, place)));
        }
        self.difference(&lines);
        false
    }

    /// Whether the reading that is timed accepts what is accepted, with the same rule, and refuses
    /// to read it where a place is too few.
    fn timed_reading(&mut self, form: Form, input: &[u8], answer: Answer) {
        let needed = self.stored.values.len();
        let lent = [needed.checked_sub(1), Some(needed)];
        for places in lent.into_iter().flatten() {
            self.timed.clear(0);
            self.timed.values.resize(places, 0);
            self.timed.octets.resize(places, 0);
            let found = match peers::timed_read(form, input, &mut self.timed) {
                None => return,
                Some(found) => found,
            };
            let wanted = room(WORDS, places, places).answer(answer);
            if found == wanted && (!wanted.is_accepted() || self.timed == self.stored) {
                continue;
            }
            self.difference(&[
                format!("differ: {form} reading of {} by Rust", hex(input)),
                format!("  timed: {}", reading_text(found, lists(&self.timed))),
                format!("  wanted: {}", reading_text(wanted, lists(&self.stored))),
            ]);
        }
    }

    /// Compares a check with what must come of a reading that has room. The validator that is timed
    /// beside it is held to the same answer.
    fn checking(&mut self, form: Form, input: &[u8], wanted: Answer) {
        self.calls += 1;
        self.checked += 1;
        let found = Answer::from(archive::check(Asked::reading(form, self.calls), input));
        let timed = peers::timed_check(form, input);
        if found == wanted && timed == wanted {
            return;
        }
        self.difference(&[
            format!("differ: {form} check of {}", hex(input)),
            format!("  proved: {}", check_text(found)),
            format!("  wanted: {}", check_text(wanted)),
            format!("  timed: {}", check_text(timed)),
        ]);
    }

    /// Compares every truncation of an accepted input with what must come of it, whatever the peers
    /// say. Octets that are cut off are missing at the truncation's length. Where the length field
    /// is cut back, the rule ends with a component or octets are missing at the stated end, of a
    /// distinguisher before all else; the plain reading goes on to octets behind that.
    pub fn truncations(&mut self, form: Form, input: &[u8]) {
        let answer = peers::read(form, input, &mut self.stored);
        if !answer.is_accepted() {
            return;
        }
        let used = answer.first as usize;
        for left in 0..used {
            self.truncation(form, &input[..left], left, &[Told::Missing]);
        }
        let start = if input[0] < 240 { 1 } else { 2 };
        let either = [Told::Missing, Told::Ended];
        let mut cut = input.to_vec();
        for end in start..used {
            let length = end - start;
            let (behind, gone) = match form {
                Form::Plain => (&either[1..], &either[..]),
                Form::WithDistinguisher(_) if length < DISTINGUISHER_OCTETS => {
                    (&[Told::Short][..], &[Told::Short][..])
                }
                Form::Standard(_) | Form::WithDistinguisher(_) => (&either[..], &either[..]),
            };
            cut[start - 1] = length as u8;
            if start == 2 {
                cut[0] = 0xF0 | (length >> 8) as u8;
            }
            self.truncation(form, &cut, end, behind);
            self.truncation(form, &cut[..end], end, gone);
        }
    }

    /// Whether reading and checking what was cut off at this end tell one thing of these. What was
    /// cut is the rule that is stored.
    fn truncation(&mut self, form: Form, cut: &[u8], end: usize, wanted: &[Told]) {
        self.calls += 2;
        let (turn, places) = (self.calls, self.stored.values.len());
        let asked = Asked::reading(form, turn);
        let found = Answer::from(archive::check(asked, cut));
        let read = Answer::from(archive::read(
            asked,
            cut,
            self.words.lend(WORDS, turn),
            self.values.lend(places, turn),
            self.octets.lend(places, turn),
        ));
        self.count(found, "ends with a component");
        let refused = |status| Answer::refused(status, 0, 0).at(Some(end));
        let is_so = |told: &Told| match told {
            Told::Missing => found == refused(refusal::INSUFFICIENT_DATA),
            Told::Short => found == refused(refusal::SHORT_DISTINGUISHER),
            Told::Ended => found.is_accepted() && found.first == end as u64,
        };
        if read == found && wanted.iter().any(is_so) {
            return;
        }
        self.difference(&[
            format!("differ: {form} truncation {}", hex(cut)),
            format!("  read: {}", check_text(read)),
            format!("  checked: {}", check_text(found)),
            format!("  wanted: {wanted:?} at {end}"),
        ]);
    }

    /// Compares a writing, with room as in `reading`.
    pub fn writing(&mut self, form: Form, record: &Stored) {
        let turn = self.compared as usize;
        let answer = peers::write(form, record, &mut self.written);
        self.count(answer, "accepted");
        self.timed_writing(form, record, answer);
        if !answer.is_accepted() {
            let room = [0, 3, LONGEST_INPUT + 8, 64][turn % 4];
            self.same_writing(form, record, answer, room);
            return;
        }
        let needed = self.written.len();
        let enough = [needed + 5, needed];
        let same = |room| self.same_writing(form, record, answer, room);
        if !enough.into_iter().all(same) {
            return;
        }
        let short = [needed - 1, [0, needed / 2, 1][turn % 3].min(needed - 1)];
        let answer = Answer::refused(refusal::NO_ROOM, needed as u64, 0);
        let same = |room| self.same_writing(form, record, answer, room);
        short.into_iter().all(same);
    }

    /// Whether the writing that is timed answers so, with just enough room and with too little, and
    /// writes the same.
    fn timed_writing(&mut self, form: Form, record: &Stored, answer: Answer) {
        let needed = self.written.len();
        let lent = [needed.checked_sub(1), Some(needed)];
        for room in lent.into_iter().flatten() {
            self.timed_output.clear();
            self.timed_output.resize(room, 0);
            let found = match peers::timed_write(form, record, &mut self.timed_output) {
                None => return,
                Some(found) => found,
            };
            let wanted = match room < needed {
                true => Answer::refused(refusal::NO_ROOM, needed as u64, 0),
                false => answer,
            };
            if found == wanted && (room < needed || self.timed_output == self.written) {
                continue;
            }
            let asked = record_text(&record.words, &record.values, &record.octets);
            self.difference(&[
                format!("differ: {form} writing of {asked} by Rust"),
                format!("  timed: {}", writing_text(found, &self.timed_output)),
                format!("  wanted: {}", writing_text(wanted, &self.written)),
            ]);
        }
    }

    /// Whether the proved writing, lent so many octets, answers so and leaves them so.
    fn same_writing(&mut self, form: Form, record: &Stored, wanted: Answer, room: usize) -> bool {
        self.calls += 1;
        let turn = self.calls;
        let own = record.words.len();
        // Behind the rule's own words may stand another's.
        let behind = [0, 3][turn as usize % 2].min(own / WORDS * 3);
        let words = self.words.lend(own + behind, turn);
        words[..own].copy_from_slice(&record.words);
        let output = self.output.lend(room, turn);
        let found = Answer::from(archive::write(
            Asked::writing(form, turn),
            words,
            &record.values,
            &record.octets,
            output,
        ));
        let octets = match wanted.status {
            0 => &self.written[..],
            _ => &[],
        };
        let wrong = self.output.wrong(octets);
        if found == wanted && wrong.is_none() {
            return true;
        }
        let asked = record_text(&record.words, &record.values, &record.octets);
        let mut lines = vec![
            format!("differ: {form} writing of {asked}"),
            format!("  lent: {room} octets"),
            format!("  proved: {}", writing_text(found, self.output.list())),
            format!("  wanted: {}", writing_text(wanted, &self.written)),
        ];
        lines.extend(wrong.map(|place| wrong_text("output", place)));
        self.difference(&lines);
        false
    }

    pub(crate) fn difference(&mut self, lines: &[String]) {
        println!("{}", lines.join("\n"));
        self.differ += 1;
        if self.differ == ENOUGH {
            println!("{ENOUGH} are enough");
            println!("{}", self.last_line());
            process::exit(1);
        }
    }
}

/// What may come of a truncation.
#[derive(Debug)]
enum Told {
    Missing,
    Short,
    Ended,
}

/// What a reading is lent.
#[derive(Clone, Copy)]
struct Room {
    words: usize,
    values: usize,
    octets: usize,
}

fn room(words: usize, values: usize, octets: usize) -> Room {
    Room {
        words,
        values,
        octets,
    }
}

impl Room {
    /// An acceptance, or NoRoom with the first thing that is short: a place for a rule, which is
    /// 64 words, or places for its operators.
    fn answer(self, accepted: Answer) -> Answer {
        let operators = self.values.min(self.octets) as u64;
        if self.words < WORDS {
            Answer::refused(refusal::NO_ROOM, 1, 0)
        } else if operators < accepted.second {
            Answer::refused(refusal::NO_ROOM, accepted.second, 0)
        } else {
            accepted
        }
    }
}

impl Default for Comparison {
    fn default() -> Self {
        Comparison::new()
    }
}

fn lists(stored: &Stored) -> (&[u64], &[u64], &[u8]) {
    (&stored.words, &stored.values, &stored.octets)
}

fn reading_text(answer: Answer, lists: (&[u64], &[u64], &[u8])) -> String {
    if !answer.is_accepted() {
        return refusal_text(answer);
    }
    let (words, values, octets) = lists;
    let told = check_text(answer);
    let operators = front(values, answer.second);
    let record = record_text(
        front(words, WORDS as u64),
        operators,
        front(octets, answer.second),
    );
    format!("{told}, {record}")
}

fn check_text(answer: Answer) -> String {
    if !answer.is_accepted() {
        return refusal_text(answer);
    }
    let (used, operators) = (answer.first, answer.second);
    let place = place_text(answer);
    format!("accepted, used {used}, operators {operators}{place}")
}

fn writing_text(answer: Answer, output: &[u8]) -> String {
    if !answer.is_accepted() {
        return refusal_text(answer);
    }
    let octets = hex(front(output, answer.first));
    format!("accepted {}, {octets}", numbers_text(answer))
}

pub(crate) fn refusal_text(answer: Answer) -> String {
    format!("refusal {} {}", answer.status, numbers_text(answer))
}

pub(crate) fn numbers_text(answer: Answer) -> String {
    let place = place_text(answer);
    format!("({}, {}){place}", answer.first, answer.second)
}

/// The place, where there is one.
fn place_text(answer: Answer) -> String {
    let place = answer.place.map(|place| format!(" at {place}"));
    place.unwrap_or_default()
}

/// The words in groups of four, those of nothing but 0 left out, then the two lists.
pub(crate) fn record_text(words: &[u64], values: &[u64], octets: &[u8]) -> String {
    let group = |(place, group): (usize, &[u64])| {
        let shown = 4 * place == COUNT || group.iter().any(|&word| word != 0);
        let numbers: Vec<String> = group.iter().map(|word| format!("{word:X}")).collect();
        shown.then(|| format!("{place}:[{}]", numbers.join(" ")))
    };
    let groups: Vec<String> = words.chunks(4).enumerate().filter_map(group).collect();
    let values: Vec<String> = values.iter().map(|value| format!("{value:X}")).collect();
    let (groups, values) = (groups.join(" "), values.join(" "));
    format!("words {groups} values [{values}] octets {}", hex(octets))
}

fn wrong_text(list: &str, place: isize) -> String {
    format!("  {list}: place {place} is not as it must be")
}

/// At most so many of the list.
fn front<T: Place>(list: &[T], count: u64) -> &[T] {
    &list[..list.len().min(count as usize)]
}
