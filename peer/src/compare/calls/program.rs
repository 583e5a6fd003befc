//! The program `trace`: a sheet on its standard input, the trace on its standard output; against the peer's own program.

use std::env;
use std::io::{Read, Write};
use std::path::{Path, PathBuf};
use std::process::{Command, Stdio};
use std::str;

use peer::random::Random;
use peer::refusal::{CODE, HALL, LENGTH, NONE, RETRY, SHEET, UID};

use super::sheet::largest_cases;
use crate::compare::call::Call;
use crate::compare::cases::Case;
use crate::compare::sheets::{any_sheet, sample, Class, Sheet, FULL, LARGE, OVER};
use crate::compare::texts::Text;

/// The program, seen from this package.
const PROGRAM: &str = "../target/bin/trace";
/// The word of this program that makes it trace a sheet.
const PEER_WORD: &str = "trace";

/// The program `trace`.
pub struct Program;

impl Call for Program {
    type Input = Sheet;
    type Rooms = Text;

    const NAME: &'static str = "program";
    const NUMBERS: &'static [u32] = &[NONE, HALL, UID, LENGTH, CODE, RETRY, SHEET];
    const INPUTS: u32 = 3_000;
    const MEASURED: usize = 1;

    fn any(random: &mut Random) -> Sheet {
        any_sheet(random)
    }

    fn edges() -> impl Iterator<Item = Sheet> {
        let classes: [&'static Class; 3] = [&LARGE, &FULL, &OVER];
        let large = classes.into_iter().flat_map(Class::edges);
        let sample = sample();
        let sheets = [Vec::new(), sample, vec![0; 65_536], vec![0; 65_537]];
        sheets.map(Sheet::from).into_iter().chain(large)
    }

    fn rooms(_: &Sheet, _: &mut Random) -> Text {
        Text::default()
    }

    fn cases() -> Vec<Case<Sheet>> {
        largest_cases()
    }

    fn ample_rooms() -> Text {
        Text::default()
    }

    fn rattle(input: &Sheet, text: &mut Text) -> u32 {
        let program = Path::new(env!("CARGO_MANIFEST_DIR")).join(PROGRAM);
        *text = Text::of(printed(Command::new(&program), &program, input));
        number(text.bytes())
    }

    fn peer(input: &Sheet, text: &mut Text) -> u32 {
        let program = env::current_exe().unwrap_or_else(|_| PathBuf::from("peer"));
        let mut command = Command::new(&program);
        command.arg(PEER_WORD);
        *text = Text::of(printed(command, &program, input));
        number(text.bytes())
    }
}

/// What a program prints for a sheet.
fn printed(mut command: Command, program: &Path, sheet: &[u8]) -> Vec<u8> {
    let piped = command.stdin(Stdio::piped()).stdout(Stdio::piped());
    let mut child = match piped.spawn() {
        Ok(child) => child,
        Err(error) => panic!("{}: {error}", program.display()),
    };
    // The program reads all that it wants before it prints; it may end before a sheet that is too long is written.
    if let Some(mut input) = child.stdin.take() {
        let _ = input.write_all(sheet);
    }
    let mut text = Vec::new();
    let read = child
        .stdout
        .take()
        .map(|mut output| output.read_to_end(&mut text));
    let ended = child.wait().is_ok_and(|status| status.success());
    assert!(
        ended && matches!(read, Some(Ok(_))),
        "{} did not end well",
        program.display()
    );
    text
}

/// The number of a refusal that a trace tells of, else 0.
fn number(text: &[u8]) -> u32 {
    let text = str::from_utf8(text).unwrap_or_default();
    let words = text.strip_prefix("REFUSED ");
    let number = words.and_then(|words| words.split(' ').next()?.parse().ok());
    number.unwrap_or(NONE)
}

#[cfg(test)]
mod tests {
    use super::*;

    #[test]
    fn the_number_of_a_refused_trace_is_told() {
        assert_eq!(number(b"REFUSED 10 65536\n"), 10);
        assert_eq!(number(b"HALL 4 1 0\nEND 0\n"), 0);
    }
}
