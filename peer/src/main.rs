//! Compares the proved calls with the separate implementation, measures the one against the other, works out the paper's tables,
//! counts the routes over each link and from each port, fills halls rack by rack, traces a night sheet with the separate implementation
//! alone, and draws the example sheet.

#![deny(unsafe_code)]

mod compare;
mod example;
#[allow(unsafe_code)]
mod rattle;

use std::env;
use std::io::{self, Read, Write};
use std::process::ExitCode;
use std::time::{SystemTime, UNIX_EPOCH};

use compare::failures::{self, Side, Tables};
use compare::{bench, bench::Extent, filling, load, ratios::Form, table1, tally::Effort};
use peer::report;
use peer::sheet::SHEET_ROOM;

/// How the program is called.
const USAGE: &str = "\
usage: peer compare [--seed S] [--long]   compare every call on random inputs
       peer bench [--seed S] [--markdown] [--halves]
                                          measure every call against the peer, and steps and journeys in halls of which half is
                                          fitted against those in full ones (--halves: these alone)
       peer table1 [--seed S]             work out the paper's Table 1 with the proved route
       peer load [--markdown]             count the routes over each link and from each port with the proved route
                                          (--markdown: print the proved figures of every hall instead)
       peer filling [--markdown]          fill halls rack by rack with the proved calls
                                          (--markdown: print how packets fare in halls that are not full instead)
       peer failures [--seed S] [--peer] [--strands]
                                          trace packets around failures with the proved journey (--peer: the peer's),
                                          beside the paper's Table 2, and around broken strands (--strands: these alone)
       peer trace                         trace the sheet on standard input with the peer
       peer example                       write examples/large.sheet to standard output";
/// The exit status of a call that the usage does not allow.
const BAD_USAGE: u8 = 2;

/// What the command line asks for, with the seed if it names one.
#[derive(Debug, PartialEq, Eq)]
enum Work {
    Compare {
        seed: Option<u64>,
        effort: Effort,
    },
    Bench {
        seed: Option<u64>,
        form: Form,
        extent: Extent,
    },
    Table1 {
        seed: Option<u64>,
    },
    Load {
        form: Form,
    },
    Filling {
        form: Form,
    },
    Failures {
        seed: Option<u64>,
        side: Side,
        tables: Tables,
    },
    Trace,
    Example,
}

fn main() -> ExitCode {
    let words: Vec<String> = env::args().skip(1).collect();
    match parse(&words).map(done) {
        Some(true) => ExitCode::SUCCESS,
        Some(false) => ExitCode::FAILURE,
        None => {
            eprintln!("{USAGE}");
            ExitCode::from(BAD_USAGE)
        }
    }
}

/// Does the work; answers whether all was well.
fn done(work: Work) -> bool {
    match work {
        Work::Compare { seed, effort } => compare::run(seed.unwrap_or_else(fresh_seed), effort),
        Work::Bench { seed, form, extent } => {
            bench::run(seed.unwrap_or_else(fresh_seed), form, extent);
            true
        }
        Work::Table1 { seed } => table1::run(seed.unwrap_or_else(fresh_seed)),
        Work::Load { form } => load::run(form),
        Work::Filling { form } => filling::run(form),
        Work::Failures { seed, side, tables } => {
            failures::run(seed.unwrap_or_else(fresh_seed), side, tables)
        }
        Work::Trace => traced().is_ok(),
        Work::Example => printed(&example::sheet()).is_ok(),
    }
}

/// The work that the words ask for; none where they are not as the usage says.
fn parse(words: &[String]) -> Option<Work> {
    let (name, mut options) = words.split_first()?;
    let mut seed = None;
    let mut effort = Effort::Short;
    let mut form = Form::Lines;
    let mut extent = Extent::All;
    let mut side = Side::Rattle;
    let mut tables = Tables::All;
    while let Some((option, behind)) = options.split_first() {
        options = match (option.as_str(), behind.split_first()) {
            ("--seed", Some((number, behind))) => {
                seed = Some(number.parse().ok()?);
                behind
            }
            ("--long", _) if name == "compare" => {
                effort = Effort::Long;
                behind
            }
            ("--peer", _) if name == "failures" => {
                side = Side::Peer;
                behind
            }
            ("--strands", _) if name == "failures" => {
                tables = Tables::Strands;
                behind
            }
            ("--markdown", _) if ["bench", "load", "filling"].contains(&name.as_str()) => {
                form = Form::Markdown;
                behind
            }
            ("--halves", _) if name == "bench" => {
                extent = Extent::Halves;
                behind
            }
            _ => return None,
        };
    }
    match name.as_str() {
        "compare" => Some(Work::Compare { seed, effort }),
        "bench" => Some(Work::Bench { seed, form, extent }),
        "table1" => Some(Work::Table1 { seed }),
        "load" if seed.is_none() => Some(Work::Load { form }),
        "filling" if seed.is_none() => Some(Work::Filling { form }),
        "failures" => Some(Work::Failures { seed, side, tables }),
        "trace" if words.len() == 1 => Some(Work::Trace),
        "example" if words.len() == 1 => Some(Work::Example),
        _ => None,
    }
}

/// Prints the peer's trace of the sheet on standard input, of which one byte more than a sheet may have is read.
fn traced() -> io::Result<()> {
    let mut sheet = Vec::new();
    let mut input = io::stdin().lock().take(SHEET_ROOM as u64 + 1);
    input.read_to_end(&mut sheet)?;
    printed(&report::trace(&sheet))
}

/// Writes bytes to standard output.
fn printed(bytes: &[u8]) -> io::Result<()> {
    let mut output = io::stdout().lock();
    output.write_all(bytes)?;
    output.flush()
}

/// A seed from the clock.
fn fresh_seed() -> u64 {
    let since = SystemTime::now().duration_since(UNIX_EPOCH);
    since.map_or(0, |time| time.as_nanos() as u64)
}

#[cfg(test)]
mod tests {
    use super::*;

    fn parsed(line: &str) -> Option<Work> {
        let words: Vec<String> = line.split_whitespace().map(str::to_owned).collect();
        parse(&words)
    }

    #[test]
    fn a_seed_and_the_long_form_are_taken_in_any_order() {
        let asked = |seed, effort| Some(Work::Compare { seed, effort });
        assert_eq!(parsed("compare"), asked(None, Effort::Short));
        assert_eq!(parsed("compare --seed 7"), asked(Some(7), Effort::Short));
        assert_eq!(
            parsed("compare --long --seed 7"),
            asked(Some(7), Effort::Long)
        );
        assert_eq!(
            parsed("compare --seed 7 --long"),
            asked(Some(7), Effort::Long)
        );
        let benched = |seed, form, extent| Some(Work::Bench { seed, form, extent });
        let [lines, markdown] = [Form::Lines, Form::Markdown];
        assert_eq!(
            parsed("bench --seed 7"),
            benched(Some(7), lines, Extent::All)
        );
        assert_eq!(
            parsed("bench --markdown"),
            benched(None, markdown, Extent::All)
        );
        assert_eq!(
            parsed("bench --halves --seed 7"),
            benched(Some(7), lines, Extent::Halves)
        );
        assert_eq!(parsed("table1"), Some(Work::Table1 { seed: None }));
        assert_eq!(parsed("load"), Some(Work::Load { form: Form::Lines }));
        let table = Work::Load {
            form: Form::Markdown,
        };
        assert_eq!(parsed("load --markdown"), Some(table));
        assert_eq!(parsed("filling"), Some(Work::Filling { form: lines }));
        let table = Work::Filling { form: markdown };
        assert_eq!(parsed("filling --markdown"), Some(table));
        let failed = |seed, side, tables| Some(Work::Failures { seed, side, tables });
        assert_eq!(
            parsed("failures --seed 7"),
            failed(Some(7), Side::Rattle, Tables::All)
        );
        assert_eq!(
            parsed("failures --peer"),
            failed(None, Side::Peer, Tables::All)
        );
        assert_eq!(
            parsed("failures --strands"),
            failed(None, Side::Rattle, Tables::Strands)
        );
        assert_eq!(
            parsed("failures --strands --peer --seed 7"),
            failed(Some(7), Side::Peer, Tables::Strands)
        );
        assert_eq!(parsed("trace"), Some(Work::Trace));
        assert_eq!(parsed("example"), Some(Work::Example));
    }

    #[test]
    fn words_outside_the_usage_are_not_taken() {
        let lines = [
            "",
            "measure",
            "compare --seed",
            "compare --seed x",
            "compare --seed -1",
            "compare short",
            "bench --long",
            "table1 --long",
            "load --seed 1",
            "load --markdown --seed 1",
            "load --long",
            "load --halves",
            "filling --seed 1",
            "filling --long",
            "failures --long",
            "failures --markdown",
            "bench --peer",
            "bench --strands",
            "compare --strands",
            "failures --strands 7",
            "trace --seed 1",
            "example large",
        ];
        for line in lines {
            assert_eq!(parsed(line), None, "{line}");
        }
    }
}
