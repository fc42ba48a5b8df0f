//! Times the proved code beside Rust; `tools/bench` builds and runs this and says how.
//!
//! Both sides get the same octets and the same rules in one process, in turns. All is timed in rounds,
//! of which the fastest count. The proved code fills lists that are lent once. The original allocates
//! what it answers, and giving that back is in its time, as it is for its callers.

mod changing;
mod checking;
mod coding;
mod deciding;
mod distinguished;
mod owned;
mod timing;

use differential::stored::WORDS;
use differential::{LONGEST_INPUT, MOST_OPERATORS};
use std::process::ExitCode;
use timing::{opaque, Sheet, COUNTED, ROUNDS, TURN, TURNS};

fn main() -> ExitCode {
    if std::env::args().len() > 1 {
        eprintln!("usage: tools/bench");
        return ExitCode::from(2);
    }
    let parts = [
        coding::bench,
        checking::bench,
        deciding::bench,
        changing::bench,
        owned::bench,
        distinguished::bench,
    ];
    let mut sheet = Sheet::default();
    for round in 1..=ROUNDS {
        eprintln!("round {round} of {ROUNDS}");
        sheet.begin();
        let mut all = || parts.into_iter().all(|bench| bench(&mut sheet));
        if !further_down(round, &mut all) {
            println!("nothing is timed where the answers differ");
            return ExitCode::from(1);
        }
    }
    let turn = TURN.as_millis();
    println!(
        "ns a call. Each round over all rows takes the best of {TURNS} turns of at least {turn} ms, the sides in turns; a row\n\
         shows the round with the median ratio among its {COUNTED} fastest of {ROUNDS}.\n\
         Lent to the proved code, the same in each reading and writing: {WORDS} words, {MOST_OPERATORS} values,\n\
         {MOST_OPERATORS} operator octets, {LONGEST_INPUT} octets of output. The original allocates what it\n\
         answers and frees it within the time."
    );
    let (met, missed) = sheet.print();
    println!("{met} bars met, {missed} missed");
    ExitCode::from(u8::from(missed != 0))
}

/// Runs it with the stack so many frames further down. A call's time hangs on where its slices and its
/// answer lie: with one place for all rounds, a figure would be that place's.
#[inline(never)]
fn further_down(frames: usize, run: &mut dyn FnMut() -> bool) -> bool {
    let frame = [0_u8; 24];
    let done = if frames == 0 {
        run()
    } else {
        further_down(frames - 1, run)
    };
    opaque(&frame);
    done
}
