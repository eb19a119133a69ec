//! The options of the comparer.

use second::rules::{Turn, TURNS};
use std::time::{SystemTime, UNIX_EPOCH};

pub const USAGE: &str = "compare --driver COMMAND --sheets COMMAND [--seed N] [--minutes N] \
    [--threads N] [--turn NAME]
  A command is one argument, its words parted by blanks, or by line ends where it has any.
  --driver   runs driver.c, linked with the library of the first program
  --sheets   runs the first program's program over texts
  --seed     repeats a run; else the clock gives one
  --minutes  goes on with new cases for so long
  --threads  how many texts go through the program at a time, 2 if not given
  --turn     turns a rule of the second program, to see that it is found and told";

pub struct Options {
    pub driver: Vec<String>,
    pub sheets: Vec<String>,
    pub seed: u64,
    pub minutes: u64,
    pub threads: usize,
    pub turn: Turn,
}

/// The words of a command. One that holds blanks can be given if all are parted by line ends.
fn words(command: &str) -> Vec<String> {
    let blank = |letter: char| if command.contains('\n') { letter == '\n' } else { letter == ' ' };
    command.split(blank).filter(|word| !word.is_empty()).map(str::to_string).collect()
}

fn number(value: &str) -> Result<u64, String> {
    value.parse().map_err(|_| format!("{value} is no number"))
}

fn turn(name: &str) -> Result<Turn, String> {
    let named = TURNS.into_iter().find(|turn| format!("{turn:?}") == name);
    named.ok_or_else(|| format!("there is no turn {name}; there are {TURNS:?}"))
}

impl Options {
    pub fn read(arguments: impl Iterator<Item = String>) -> Result<Options, String> {
        let now = SystemTime::now().duration_since(UNIX_EPOCH).map_or(1, |now| now.as_nanos());
        let mut options = Options {
            driver: Vec::new(),
            sheets: Vec::new(),
            seed: now as u64 % 1_000_000_000,
            minutes: 0,
            threads: 2,
            turn: Turn::None,
        };
        let mut arguments = arguments;
        while let Some(name) = arguments.next() {
            let value = arguments.next().ok_or_else(|| format!("{name} asks for a value"))?;
            options.take(&name, &value)?;
        }
        match options.driver.is_empty() || options.sheets.is_empty() {
            true => Err("both commands must be given".to_string()),
            false => Ok(options),
        }
    }

    fn take(&mut self, name: &str, value: &str) -> Result<(), String> {
        match name {
            "--driver" => self.driver = words(value),
            "--sheets" => self.sheets = words(value),
            "--seed" => self.seed = number(value)?,
            "--minutes" => self.minutes = number(value)?,
            "--threads" => self.threads = number(value)? as usize,
            "--turn" => self.turn = turn(value)?,
            _ => return Err(format!("there is no option {name}")),
        }
        Ok(())
    }
}
