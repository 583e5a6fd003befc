//! The comparison of every call with the peer, and its table.

pub mod bench;
mod call;
mod calls;
mod cases;
mod chains;
mod counts;
mod events;
pub mod failures;
mod faults;
pub mod filling;
mod frames;
mod inputs;
pub mod load;
mod numbers;
mod packets;
mod pairs;
pub mod ratios;
mod room;
mod sheets;
mod sums;
pub mod table1;
mod tables;
pub mod tally;
mod texts;
mod trails;

use calls::{Listed, CALLS};
use tally::{Effort, Tally};

/// The width of the column that tells what was met.
const MET_WIDTH: usize = 100;

/// Compares every call and prints what was met; answers whether all is well.
pub fn run(seed: u64, effort: Effort) -> bool {
    println!("seed {seed}");
    tables::draw_pool(seed);
    let met = "refusals met, 0 for none";
    println!("{}", line("call", "inputs", met, "differences"));
    let mut faults = Vec::new();
    let mut passed = 0;
    for call in CALLS {
        let tally = (call.compare)(seed, effort);
        println!("{}", row(call, &tally));
        for line in event_lines(&tally) {
            println!("{line}");
        }
        let found = faults_of(call, tally);
        passed += usize::from(found.is_empty());
        faults.extend(found);
    }
    for fault in &faults {
        println!("{fault}");
    }
    println!("{passed} passed, {} failed", CALLS.len() - passed);
    faults.is_empty()
}

/// The line of one call in the table.
fn row(call: &Listed, tally: &Tally) -> String {
    let each = |(number, count)| format!("{number}: {count}");
    let met: Vec<String> = tally.met.iter().map(each).collect();
    let [inputs, differences] = [tally.inputs, tally.differences].map(|count| count.to_string());
    line(call.name, &inputs, &met.join(", "), &differences)
}

/// The lines below it that tell what its inputs did.
fn event_lines(tally: &Tally) -> Vec<String> {
    let mut lines: Vec<String> = Vec::new();
    for text in tally.events.texts() {
        match lines.last_mut() {
            Some(last) if last.len() + text.len() + 2 <= MET_WIDTH => *last += &format!(", {text}"),
            _ => lines.push(text),
        }
    }
    lines.iter().map(|met| line("", "", met, "")).collect()
}

/// A line of the table, its columns one below the other.
fn line(call: &str, inputs: &str, met: &str, differences: &str) -> String {
    format!("{call:<14} | {inputs:>9} | {met:<MET_WIDTH$} | {differences}")
}

/// What is wrong with one call, a text each: the first inputs that differ, numbers and events never met, and numbers that it cannot give.
fn faults_of(call: &Listed, tally: Tally) -> Vec<String> {
    let name = call.name;
    let unmet = tally.unmet(call.numbers).into_iter();
    let unmet = unmet.map(|number| format!("{name} never returned {number}"));
    let unknown = tally.unknown(call.numbers).into_iter();
    let unknown = unknown.map(|number| format!("{name} returned {number}, which it cannot give"));
    let events = tally.events.unmet(call.events).into_iter();
    let events = events.map(|event| format!("{name} never met: {event}"));
    let numbers: Vec<String> = unmet.chain(unknown).chain(events).collect();
    tally.shown.into_iter().chain(numbers).collect()
}

#[cfg(test)]
mod tests {
    use super::*;

    /// The line and the faults of the first call with a tally.
    fn told(tally: Tally) -> (String, Vec<String>) {
        let call = &CALLS[0];
        (row(call, &tally), faults_of(call, tally))
    }

    #[test]
    fn a_call_that_met_all_its_numbers_and_no_difference_has_no_fault() {
        let met = [(0, 5), (1, 3), (6, 2)].into();
        let (line, faults) = told(Tally {
            inputs: 10,
            met,
            ..Tally::default()
        });
        let columns: Vec<&str> = line.split('|').map(str::trim).collect();
        assert_eq!(columns, ["sizes", "10", "0: 5, 1: 3, 6: 2", "0"]);
        assert!(faults.is_empty());
    }

    #[test]
    fn a_difference_a_number_never_met_and_one_it_cannot_give_are_faults() {
        let (_, faults) = told(Tally {
            inputs: 10,
            met: [(0, 5), (6, 2), (9, 3)].into(),
            differences: 1,
            shown: vec!["sizes differs".to_owned()],
            ..Tally::default()
        });
        let numbers = [
            "sizes never returned 1",
            "sizes returned 9, which it cannot give",
        ];
        assert_eq!(faults[0], "sizes differs");
        assert_eq!(faults[1..], numbers);
    }

    /// A call and the tally of a comparison that met all its numbers and all its events but one.
    fn all_but(name: &str, place: usize) -> (&'static Listed, Tally) {
        let listed = CALLS.iter().find(|call| call.name == name);
        let call = listed.unwrap();
        let mut tally = Tally {
            met: call.numbers.iter().map(|&number| (number, 1)).collect(),
            ..Tally::default()
        };
        let (before, behind) = call.events.split_at(place);
        for &event in before.iter().chain(&behind[1..]) {
            tally.events.add(event);
        }
        (call, tally)
    }

    #[test]
    fn a_pair_of_faults_that_was_never_compared_is_a_fault() {
        for (name, pairs, numbers) in [
            ("read header", 42, 0),
            ("payload", 33, 0),
            ("header place", 33, 8),
        ] {
            for place in 0..pairs + numbers {
                let (call, tally) = all_but(name, place);
                let fault = format!("{name} never met: {}", call.events[place]);
                assert_eq!(call.events.len(), pairs + numbers);
                assert_eq!(faults_of(call, tally), [fault]);
            }
        }
    }

    #[test]
    fn an_event_never_met_is_a_fault_and_one_met_is_told() {
        let (step, tally) = all_but("step", 0);
        let told = event_lines(&tally).join("\n");
        assert!(told.contains("drop 4: 1, delivered: 1"));
        assert_eq!(faults_of(step, tally), ["step never met: forwarded"]);
    }
}
