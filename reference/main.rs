//! The second program: written from the papers alone, to be compared with.
//! README.md tells the commands and formats.

mod apply;
mod ask;
mod bundlecases;
mod bundlechecks;
mod bundles;
mod bundlesmet;
mod calls;
mod cases;
mod catalogues;
mod census;
mod censuscases;
mod censuschecks;
mod censuslines;
mod checks;
mod columncases;
mod columnchecks;
mod columns;
mod compact;
mod coverage;
mod donorcases;
mod donorchecks;
mod faults;
mod join;
mod limits;
mod linear;
mod linecalls;
mod linecases;
mod linechecks;
mod lines;
mod listing;
mod merge;
mod mergecases;
mod mergechecks;
mod merges;
mod mergesmet;
mod numbers;
mod numbersmet;
mod only;
mod onlychecks;
mod onlymet;
mod orders;
mod pairs;
mod period;
mod periodcases;
mod periodchecks;
mod periods;
mod periodsmet;
mod printed;
mod random;
mod refusals;
mod residue;
mod scenarios;
mod script;
mod selftest;
mod sequences;
mod servings;
mod sheets;
mod starts;
mod steps;
mod typed;
mod working;

use std::io::{Read, Write};
use std::process::ExitCode;

const USAGE: &str = "usage: reference COMMAND
  listing                 slips on standard input to the listing
  working                 slips on standard input to the listing with each sheet
  ask                     typed lines on standard input to the listing
  working lines           typed lines on standard input to the listing with each sheet
  census                  lines with a modulus and a count to the tallies
  replay                  a script on standard input to the expected text
  slips SEED COUNT        random slips
  calls SEED COUNT        a script of random lists of calls on a reading
  candidates SEED COUNT   a script of random testings and runnings
  catalogues SEED COUNT   a script of random servings and makings
  typed SEED COUNT        random typed lines
  linecalls SEED COUNT    a script of readings of typed lines
  merges SEED COUNT       a script of merges of two slips
  periods SEED COUNT      a script of lengths of periods
  numbers SEED COUNT      a script of sequences by their numbers and of tallies
  bundles SEED COUNT      a script of bundles of slips, served
  pairs SEED COUNT        random lines with a modulus and a count
  selftest                checks this program against itself and the papers
";

fn main() -> ExitCode {
    let arguments: Vec<String> = std::env::args().skip(1).collect();
    let words: Vec<&str> = arguments.iter().map(String::as_str).collect();
    match words[..] {
        ["listing"] => with_input(|input| (listing::listing(input).into_bytes(), true)),
        ["working"] => with_input(|input| (working::working(input).into_bytes(), true)),
        ["ask"] => with_input(|input| (ask::ask(input).into_bytes(), true)),
        ["working", "lines"] => {
            with_input(|input| (working::working_lines(input).into_bytes(), true))
        }
        ["census"] => with_input(|input| (printed::census(input).into_bytes(), true)),
        ["replay"] => with_input(|input| {
            let (text, whole) = script::replay(input);
            (text.into_bytes(), whole)
        }),
        ["slips", seed, count] => generated(seed, count, sequences::slips),
        ["calls", seed, count] => generated(seed, count, scenarios::calls),
        ["candidates", seed, count] => generated(seed, count, scenarios::candidates),
        ["catalogues", seed, count] => generated(seed, count, catalogues::catalogues),
        ["typed", seed, count] => generated(seed, count, typed::typed),
        ["linecalls", seed, count] => generated(seed, count, linecalls::linecalls),
        ["merges", seed, count] => generated(seed, count, merges::merges),
        ["periods", seed, count] => generated(seed, count, periods::periods),
        ["numbers", seed, count] => generated(seed, count, numbers::numbers),
        ["bundles", seed, count] => generated(seed, count, bundles::bundles),
        ["pairs", seed, count] => generated(seed, count, pairs::pairs),
        ["selftest"] => ExitCode::from(u8::from(!selftest::selftest())),
        _ => usage(),
    }
}

fn usage() -> ExitCode {
    eprint!("{USAGE}");
    ExitCode::from(2)
}

/// Reads all of standard input and writes what it leads to; 1 if it was not whole
/// or could not be read or written.
fn with_input(work: impl Fn(&[u8]) -> (Vec<u8>, bool)) -> ExitCode {
    let mut input = Vec::new();
    let read = std::io::stdin().read_to_end(&mut input).is_ok();
    let (output, whole) = work(&input);
    let wrote = write(&output);
    ExitCode::from(u8::from(!(read && whole && wrote)))
}

fn generated(seed: &str, count: &str, make: fn(u64, u64) -> Vec<u8>) -> ExitCode {
    match (seed.parse(), count.parse()) {
        (Ok(seed), Ok(count)) => ExitCode::from(u8::from(!write(&make(seed, count)))),
        _ => usage(),
    }
}

fn write(bytes: &[u8]) -> bool {
    let mut output = std::io::stdout().lock();
    output.write_all(bytes).and_then(|()| output.flush()).is_ok()
}
