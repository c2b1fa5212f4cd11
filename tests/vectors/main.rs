//! The cases of tests/vectors/*.txt through the library. Each file's head says what its commands mean.
//!
//!     vectors FILE..    runs every case of the files; the last line is 'N passed, M failed'
//!
//! A file has `define NAME` and `case GROUP N: WORDS`, each with indented commands. A definition is a command of its own
//! afterwards; that named `start` begins every case of its file. A case ends with `gives`, the expected answer of
//! its last call, and `and` lines that go on with it. `include FILE` brings another file's definitions. `#`
//! begins a comment. Whatever is not understood ends the run with exit 1.
//!
//! The cases of one group try one rule, and docs/PROMISES.md cites them by file and group. No two cases of a file have one group
//! and number. The words after the colon may be missing.
mod host;
#[path = "../library.rs"]
#[rustfmt::skip]
mod library;
mod numbers;

use host::Host;
use std::collections::HashMap;

/// One command, and where it stands.
struct Command {
    place: String,
    words: Vec<String>,
}

struct Case {
    /// Group and number, then what the case tries.
    name: String,
    place: String,
    commands: Vec<Command>,
    expected: Vec<String>,
}

#[derive(Default)]
struct Book {
    definitions: HashMap<String, Vec<Command>>,
    cases: Vec<Case>,
}

/// Which block the lines of a file are in.
enum Block {
    Outside,
    Definition(String),
    Case,
}

impl Book {
    fn read(&mut self, path: &str) -> Result<(), String> {
        let text = std::fs::read_to_string(path).map_err(|e| format!("{path}: {e}"))?;
        let mut block = Block::Outside;
        for (i, line) in text.lines().enumerate() {
            let line = line.split('#').next().unwrap_or("");
            let words: Vec<String> = line.split_whitespace().map(str::to_string).collect();
            let place = format!("{path}:{}", i + 1);
            if words.is_empty() {
                continue;
            }
            let wrong = |what: &str| Err(format!("{place}: {what}"));
            if line.starts_with(' ') {
                let command = Command { place: place.clone(), words };
                match &block {
                    Block::Outside => return wrong("a command outside a block"),
                    Block::Definition(name) => {
                        self.definitions.get_mut(name).unwrap().push(command)
                    }
                    Block::Case => self.cases.last_mut().unwrap().add(command)?,
                }
            } else {
                block = self.open(path, place, &words)?;
            }
        }
        Ok(())
    }

    /// A line that is not indented.
    fn open(&mut self, path: &str, place: String, words: &[String]) -> Result<Block, String> {
        let name = words[1..].join(" ");
        match words[0].as_str() {
            "include" => {
                let folder = path.rsplit_once('/').map_or(".", |(folder, _)| folder);
                self.read(&format!("{folder}/{name}"))?;
                Ok(Block::Outside)
            }
            "define" if words.len() == 2 && !self.definitions.contains_key(&name) => {
                self.definitions.insert(name.clone(), Vec::new());
                Ok(Block::Definition(name))
            }
            "case" if numbered(&name) && !self.cases.iter().any(|c| id(&c.name) == id(&name)) => {
                self.cases.push(Case { name, place, commands: Vec::new(), expected: Vec::new() });
                Ok(Block::Case)
            }
            "case" if !numbered(&name) => Err(format!("{place}: no group and number: {name}")),
            _ => Err(format!("{place}: unknown, or there twice: {}", words.join(" "))),
        }
    }

    /// Does the library give what the case expects? Else both.
    fn run(&self, case: &Case) -> Result<Option<(String, String)>, String> {
        let mut host = Host::new();
        if let Some(start) = self.definitions.get("start") {
            self.all(start, &mut host, 0)?;
        }
        self.all(&case.commands, &mut host, 0)?;
        let given = host.answer().ok_or(format!("{}: nothing is called", case.place))?;
        if case.expected.is_empty() {
            return Err(format!("{}: nothing is expected", case.place));
        }
        let expected = case.expected.join(" ");
        Ok(if given == expected { None } else { Some((expected, given)) })
    }

    fn all(&self, commands: &[Command], host: &mut Host, depth: usize) -> Result<(), String> {
        for command in commands {
            let words: Vec<&str> = command.words.iter().map(String::as_str).collect();
            match self.definitions.get(words[0]) {
                Some(inner) if words.len() == 1 && depth < 8 => self.all(inner, host, depth + 1)?,
                _ => host.command(&words).map_err(|e| format!("{}: {e}", command.place))?,
            }
        }
        Ok(())
    }
}

/// A case's group and number: what stands before the colon.
fn id(name: &str) -> &str {
    name.split(':').next().unwrap_or(name)
}

/// Whether a case has a group and, last, a number.
fn numbered(name: &str) -> bool {
    let group = id(name).trim_end_matches(|c: char| c.is_ascii_digit());
    !group.trim_end().is_empty() && group.len() < id(name).len()
}

impl Case {
    /// A command, or a part of what is expected; nothing else follows that.
    fn add(&mut self, command: Command) -> Result<(), String> {
        let first = self.expected.is_empty();
        let text = command.words[1..].join(" ");
        match command.words[0].as_str() {
            "gives" if first => self.expected.push(text),
            "and" if !first => self.expected.push(text),
            "gives" | "and" => return Err(format!("{}: out of order", command.place)),
            _ if first => self.commands.push(command),
            _ => return Err(format!("{}: a command after `gives`", command.place)),
        }
        Ok(())
    }
}

/// The cases of one file: how many passed and failed.
fn file(path: &str) -> Result<(u64, u64), String> {
    let mut book = Book::default();
    book.read(path)?;
    let (mut passed, mut failed) = (0, 0);
    for case in &book.cases {
        match book.run(case)? {
            None => passed += 1,
            Some((expected, given)) => {
                failed += 1;
                println!(
                    "{}: {}\n  expected {expected}\n  given    {given}",
                    case.place, case.name
                );
            }
        }
    }
    println!("{path}: {passed} passed, {failed} failed");
    Ok((passed, failed))
}

fn main() {
    let (mut passed, mut failed) = (0, 0);
    for path in std::env::args().skip(1) {
        match file(&path) {
            Ok((p, _)) if p == 0 => {
                println!("{path}: no case passed");
                std::process::exit(1);
            }
            Ok((p, f)) => (passed, failed) = (passed + p, failed + f),
            Err(text) => {
                println!("{text}");
                std::process::exit(1);
            }
        }
    }
    println!("{passed} passed, {failed} failed");
    std::process::exit(if failed == 0 && passed > 0 { 0 } else { 1 });
}
