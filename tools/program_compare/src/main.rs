//! Lines to lines, over a table of arrow2's arrays and builders.
//!
//!     oracle list    all lines are parsed into a list of commands before the first is run; replies go out by and by
//!     oracle         each line is run as soon as it is parsed, and the replies are kept until the last line is a command
mod change;
mod command;
mod entry;
mod make;
mod print;
mod stop;
mod table;
mod words;

use std::io::{self, Read, Write};
use std::process::ExitCode;

use command::Command;
use table::Table;

/// So many bytes of replies are gathered before they are written.
const GATHERED: usize = 1 << 16;

enum Failure {
    /// The line of this number, counted from 1, is no command.
    BadLine(usize),
    Device,
}

impl From<io::Error> for Failure {
    fn from(_: io::Error) -> Failure {
        Failure::Device
    }
}

/// The lines that may be commands, each with its number.
fn lines(input: &mut [u8]) -> impl Iterator<Item = (&mut [u8], usize)> + '_ {
    input
        .split_mut(|byte| *byte == b'\n')
        .zip(1..)
        .filter(|(line, _)| line.first() != Some(&b'#') && line.iter().any(|byte| *byte != b' '))
}

/// Runs each line as soon as it is parsed. Where one is no command, no reply is written.
fn run_at_once(input: &mut [u8], output: &mut impl Write) -> Result<(), Failure> {
    let mut table = Table::default();
    let mut replies = Vec::new();
    for (line, number) in lines(input) {
        let command = Command::parse(line).ok_or(Failure::BadLine(number))?;
        table.run(command, &mut replies);
    }
    output.write_all(&replies)?;
    Ok(output.flush()?)
}

/// Parses all lines, and runs the commands then.
fn run_list(input: &mut [u8], output: &mut impl Write) -> Result<(), Failure> {
    let mut commands = Vec::new();
    for (line, number) in lines(input) {
        commands.push(Command::parse(line).ok_or(Failure::BadLine(number))?);
    }
    let mut table = Table::default();
    let mut replies = Vec::with_capacity(2 * GATHERED);
    for command in commands {
        table.run(command, &mut replies);
        if replies.len() >= GATHERED {
            output.write_all(&replies)?;
            replies.clear();
        }
    }
    output.write_all(&replies)?;
    Ok(output.flush()?)
}

fn session() -> Result<(), Failure> {
    let mut input = Vec::new();
    io::stdin().lock().read_to_end(&mut input)?;
    let mut output = io::stdout().lock();
    if std::env::args().nth(1).as_deref() == Some("list") {
        run_list(&mut input, &mut output)
    } else {
        run_at_once(&mut input, &mut output)
    }
}

fn main() -> ExitCode {
    match session() {
        Ok(()) => ExitCode::SUCCESS,
        Err(Failure::BadLine(number)) => {
            eprintln!("line {number}: not a command");
            ExitCode::from(2)
        }
        Err(Failure::Device) => {
            eprintln!("device fault");
            ExitCode::from(1)
        }
    }
}
