//! The tests can fail: each slip of 01, planted in the vector procedures, is found by the judges that are named here.

use crate::case::{Bench, Case, Judge};
use crate::coverage::Coverage;
use crate::cutting::cut;
use crate::desk_text::{output, spell};
use crate::judges::answers;
use crate::making::script_of_case;
use crate::random::Random;
use crate::vector_store::{Procedures, Slip};

/// How many scripts are tried for a slip.
const MOST_SCRIPTS: u64 = 400;

/// Which judges find a slip. An answer "behind" in place of "full" serves nobody wrongly, so no guarantee is broken by it.
pub fn finders(slip: Slip) -> &'static [Judge] {
    match slip {
        Slip::BehindForAFullLog => &[Judge::Book, Judge::Desk],
        _ => &Judge::ALL,
    }
}

/// A small script by which the judge finds the planted slip, and what it says; None if it finds nothing.
pub fn found(slip: Slip, judge: Judge, right: &Bench, seed: u64) -> Option<(Case, String)> {
    let planted = Bench { procedures: Procedures { slip: Some(slip) }, program: right.program.clone() };
    let script = |number| spell(&script_of_case(&mut Random::of_case(seed, number), number));
    let shows = |text: &[u8]| match judge {
        // The program would be run thousands of times; where the procedures differ it has to side with one of them.
        Judge::Desk => printed(&planted, text) != printed(right, text),
        _ => says(judge, &planted, text).is_some(),
    };
    let failing = (0..MOST_SCRIPTS).filter_map(script).find(|text| shows(text))?;
    let small = cut(&failing, shows);
    // What is found must be the slip: without it the judge says nothing of the same script.
    match (says(judge, &planted, &small), says(judge, right, &small)) {
        (Some(said), None) => Some((Case::Text(small), said)),
        _ => None,
    }
}

fn says(judge: Judge, bench: &Bench, text: &[u8]) -> Option<String> {
    Case::Text(text.to_vec()).judged_by(judge, bench, &mut Coverage::default()).err()
}

fn printed(bench: &Bench, text: &[u8]) -> Vec<u8> {
    output(text, |script| answers(bench.procedures, script))
}
