//! What the writer of a recording was advised against.

use crate::advice::{advice_of, Advice, ADVICE};
use crate::ending::Ending;
use crate::index::end_refused;
use crate::input::Input;
use crate::output::Output;
use crate::trouble::{say, Trouble};
use embulgri::checking::{Check, Finding};

/// What waits to be written at most.
const ROOM: usize = 131_072;

/// Checks an input: prints its findings and that it is accepted; or the refusal alone. Where it is
/// asked to, it explains each kind that was found.
pub fn check(input: &mut Input, explain: bool) -> Result<Ending, Trouble> {
    input.read_whole()?;
    let n = input.bytes().len();
    let mut check = Check::of(n)
        .ok_or_else(|| Trouble::new(format!("no memory to check an input of {n} bytes")))?;
    let mut output = Output::with_room(ROOM);
    if let Err(why) = check.run(input.bytes()) {
        return end_refused(input, why, output);
    }
    for finding in findings(&check) {
        let word = foreseen(&finding)?.word;
        let page = finding.page;
        output.put_text(format_args!("{word} page {page}\n"))?;
    }
    output.put_text(format_args!("accepted\n"))?;
    output.write()?;
    if explain {
        tell(input, &check);
    }
    match check.count() {
        0 => Ok(Ending::Done),
        _ => Ok(Ending::Advised),
    }
}

/// All findings, in their order.
fn findings(check: &Check) -> impl Iterator<Item = Finding> + '_ {
    (0..check.count()).map(|i| check.finding(i))
}

/// What is advised of a finding. The library promises to give no kind but these.
fn foreseen(finding: &Finding) -> Result<&'static Advice, Trouble> {
    let kind = finding.kind;
    advice_of(kind).ok_or_else(|| Trouble::unforeseen(format_args!("it finds the kind {kind}")))
}

/// Says one sentence for each kind that was found.
fn tell(input: &Input, check: &Check) {
    let name = input.name();
    for advice in &ADVICE {
        if findings(check).any(|finding| finding.kind == advice.kind) {
            let Advice { word, sentence, .. } = advice;
            say(format_args!("{name}: {word}: {sentence}"));
        }
    }
}
