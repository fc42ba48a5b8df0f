//! Compares the proved code with Rust; `tools/differential` builds and runs this and says how.

use differential::compare::Comparison;
use differential::decisions::{self, Ways};
use differential::stored::Stored;
use differential::{edges, orders, pairs, records, Form};
use inputs::Random;
use std::process::ExitCode;
use std::time::Instant;

const USAGE: &str =
    "usage: tools/differential [--cases N] [--seed S] [--part plain|standard|choosing|all]";

/// A writing is as likely wrong as a reading, but has fewer turns to take.
const READINGS_TO_A_WRITING: u64 = 5;
/// A choice is among many rules.
const MATCHES_TO_A_CHOICE: u64 = 5;
/// A set of rules has ten pairs.
const MATCHES_TO_A_SET: u64 = 2;

struct Wanted {
    cases: u64,
    seed: u64,
    plain: bool,
    standard: bool,
    choosing: bool,
}

fn main() -> ExitCode {
    // An argument that is no text is none that is known.
    let known = |one: std::ffi::OsString| one.to_string_lossy().into_owned();
    let arguments: Vec<String> = std::env::args_os().skip(1).map(known).collect();
    let wanted = match wanted(&arguments) {
        Some(wanted) => wanted,
        None => {
            eprintln!("{USAGE}");
            return ExitCode::from(2);
        }
    };
    let mut comparison = Comparison::new();
    if wanted.plain {
        part(&mut comparison, "plain", &[Form::Plain], &wanted);
    }
    if wanted.standard {
        let forms = [Form::Standard(4), Form::Standard(6)];
        part(&mut comparison, "standard", &forms, &wanted);
        let forms = [Form::WithDistinguisher(4), Form::WithDistinguisher(6)];
        part(&mut comparison, "distinguished", &forms, &wanted);
        other_families(&mut comparison);
    }
    if wanted.choosing {
        choosing(&mut comparison, &wanted);
    }
    println!("the proved code was called {} times", comparison.calls);
    println!("{}", comparison.last_line());
    ExitCode::from(u8::from(comparison.differ != 0))
}

fn wanted(arguments: &[String]) -> Option<Wanted> {
    let mut wanted = Wanted {
        cases: 200_000,
        seed: 1,
        plain: true,
        standard: true,
        choosing: true,
    };
    for pair in arguments.chunks(2) {
        match [pair.first()?.as_str(), pair.get(1)?.as_str()] {
            ["--cases", number] => wanted.cases = number.parse().ok()?,
            ["--seed", number] => wanted.seed = number.parse().ok()?,
            ["--part", part @ ("plain" | "standard" | "choosing" | "all")] => {
                let is = |name| [name, "all"].contains(&part);
                wanted.plain = is("plain");
                wanted.standard = is("standard");
                wanted.choosing = is("choosing");
            }
            _ => return None,
        }
    }
    Some(wanted)
}

/// Readings and writings of these forms: those made by rule, then so many random ones in turn; between
/// them the truncations of good inputs.
fn part(comparison: &mut Comparison, name: &str, forms: &[Form], wanted: &Wanted) {
    let mut random = Random::new(wanted.seed);
    let mut section = Section::new(comparison, name, "readings");
    for &form in forms {
        inputs::by_rule(form, &mut |input| read(section.comparison, form, input));
    }
    section.said("made by rule");
    let mut input = Vec::new();
    for (_, &form) in (0..wanted.cases).zip(forms.iter().cycle()) {
        inputs::random(form, &mut random, &mut input);
        read(section.comparison, form, &input);
    }
    section.said("random");

    let mut section = Section::new(comparison, name, "truncations");
    for &form in forms {
        for input in inputs::good_inputs(form) {
            section.comparison.truncations(form, &input);
        }
    }
    section.said("of good ones");

    let mut section = Section::new(comparison, name, "writings");
    for &form in forms {
        records::by_rule(form, &mut |record| section.comparison.writing(form, record));
    }
    section.said("made by rule");
    let mut record = Stored::new(0);
    for (_, &form) in (0..wanted.cases / READINGS_TO_A_WRITING).zip(forms.iter().cycle()) {
        records::random(form, &mut random, &mut record);
        section.comparison.writing(form, &record);
    }
    section.said("random");
}

/// A reading; of what has a distinguisher, all three.
fn read(comparison: &mut Comparison, form: Form, input: &[u8]) {
    if let Form::WithDistinguisher(family) = form {
        comparison.reading(Form::Plain, input);
        comparison.reading(Form::Standard(family), input);
    }
    comparison.reading(form, input);
}

/// Families that there are not: refused whatever comes with them.
fn other_families(comparison: &mut Comparison) {
    let mut random = Random::new(0xF13);
    let (mut input, mut record) = (Vec::new(), Stored::new(0));
    let mut section = Section::new(comparison, "standard", "readings and writings");
    for family in (0..=255).filter(|family| ![4, 6].contains(family)) {
        for like in [
            Form::Plain,
            Form::Standard(4),
            Form::Standard(6),
            Form::WithDistinguisher(4),
            Form::WithDistinguisher(6),
        ] {
            inputs::random(like, &mut random, &mut input);
            section.comparison.reading(Form::Standard(family), &input);
            section
                .comparison
                .reading(Form::WithDistinguisher(family), &input);
            records::random(like, &mut random, &mut record);
            section.comparison.writing(Form::Standard(family), &record);
        }
    }
    section.said("of other families");
}

/// Matches, rankings, choices and pairs in both families: those made by rule, then so many random
/// ones.
fn choosing(comparison: &mut Comparison, wanted: &Wanted) {
    let mut random = Random::new(wanted.seed);
    let mut section = Section::new(comparison, "choosing", "matches");
    edges::matches(&mut |rule, packet| section.comparison.matching(rule, packet));
    section.said("made by rule");
    section.random(wanted.cases, &mut random, decisions::random_match);

    let mut section = Section::new(comparison, "choosing", "rankings");
    edges::rankings(&mut |one, other| section.comparison.ranking(one, other));
    section.said("made by rule");
    section.random(wanted.cases, &mut random, decisions::random_ranking);

    let mut section = Section::new(comparison, "choosing", "choices");
    edges::choices(&mut |table, packet| section.comparison.choosing(table, packet));
    section.said("made by rule");
    let choices = wanted.cases / MATCHES_TO_A_CHOICE;
    section.random(choices, &mut random, decisions::random_choice);

    let mut section = Section::new(comparison, "choosing", "pairs");
    pairs::by_rule(&mut |rules| section.comparison.among(rules));
    section.said("made by rule");
    let sets = wanted.cases / MATCHES_TO_A_SET;
    section.random(sets, &mut random, orders::random_set);
}

/// A part of the run that is told of in lines of its own.
struct Section<'a> {
    comparison: &'a mut Comparison,
    part: String,
    what: String,
    compared: u64,
    checked: u64,
    began: Instant,
}

impl<'a> Section<'a> {
    fn new(comparison: &'a mut Comparison, part: &str, what: &str) -> Self {
        Section {
            part: part.to_string(),
            what: what.to_string(),
            compared: comparison.compared,
            checked: comparison.checked,
            began: Instant::now(),
            comparison,
        }
    }

    /// So many random cases, and how they were made.
    fn random(
        &mut self,
        cases: u64,
        random: &mut Random,
        compare: impl Fn(&mut Random, &mut Comparison, &mut Ways),
    ) {
        let mut ways = Ways::new();
        for _ in 0..cases {
            compare(random, self.comparison, &mut ways);
        }
        self.said("random");
        let ways: Vec<String> = ways
            .iter()
            .map(|(way, times)| format!("{way} {times}"))
            .collect();
        println!("    of these: {}", ways.join(", "));
    }

    /// Prints what was compared since the last time. Checks are of what was read, in the same time.
    fn said(&mut self, which: &str) {
        let compared = self.comparison.compared - self.compared;
        let checked = self.comparison.checked - self.checked;
        let seconds = self.began.elapsed().as_secs_f64();
        let answers = self.comparison.answers();
        let Section { part, what, .. } = self;
        println!("{part} {what} {which}: {compared} in {seconds:.1} s ({answers})");
        if checked != 0 {
            println!("{part} checks {which}: {checked}, each of an input that was read");
        }
        self.compared = self.comparison.compared;
        self.checked = self.comparison.checked;
        self.began = Instant::now();
    }
}
