//! Compares two files of answers to a script of one kind: `answers KIND SCRIPT ORACLE OURS`. Prints how many answers were
//! compared, those by `?` apart, to which operations, how often each refusal was met, how many long calls stood at their limit of
//! places, with exactly what they need and with one place less, how many long runs were checked or filled, and from how many seeds. It
//! ends with 1, and says why, at the first difference, at an answer that is missing on either side or on both, at an answer too many,
//! at a script without operations, and where an operation or a refusal that the kind must have, or a pick, was not met.

use harness::scripts::lent::lent;
use harness::scripts::signs::has_units;
use harness::scripts::write::Known;
use harness::scripts::{KINDS, LONG};
use harness::words::{is_operation, listed, number, numbered};
use std::borrow::Cow;
use std::collections::{BTreeMap, HashSet};
use std::fmt;
use std::fs::File;
use std::io::{self, BufRead, BufReader};
use std::process::ExitCode;

fn main() -> io::Result<ExitCode> {
    let words: Vec<String> = std::env::args().skip(1).collect();
    let [kind, script, oracle, ours] = words.as_slice() else {
        return Ok(usage());
    };
    let Some((_, operations, refusals)) = KINDS.iter().find(|(name, ..)| name == kind) else {
        return Ok(usage());
    };
    let met = compare(lines(script)?, lines(oracle)?, lines(ours)?)?;
    Ok(match met.and_then(|met| met.with_all(operations, refusals)) {
        Ok(met) => {
            println!("{met}");
            ExitCode::SUCCESS
        }
        Err(fault) => {
            println!("{fault}");
            ExitCode::FAILURE
        }
    })
}

fn usage() -> ExitCode {
    eprintln!("usage: answers KIND SCRIPT ORACLE OURS");
    ExitCode::from(2)
}

/// The lines of a file, read one by one: a script of every character has millions.
fn lines(path: &str) -> io::Result<impl Iterator<Item = io::Result<String>>> {
    let file = File::open(path).map_err(|error| io::Error::new(error.kind(), format!("{path}: {error}")))?;
    let lines = BufReader::new(file).split(b'\n');
    Ok(lines.map(|line| line.map(|bytes| String::from_utf8_lossy(&bytes).into_owned())))
}

/// What the answers had.
#[derive(Default)]
struct Met {
    /// The answers that were compared, by their operations.
    operations: BTreeMap<String, usize>,
    refusals: BTreeMap<u32, usize>,
    /// The long calls at their limit and the long runs that were checked or filled, by the names that a kind asks for.
    long: BTreeMap<String, usize>,
    /// The writer, whose kept and held characters need places too.
    writer: Known,
    /// How many places the last chunk that was asked about fills.
    priced: usize,
    /// What the generator filled from, and the characters that it picked.
    seeds: HashSet<u32>,
    picks: HashSet<u32>,
    /// The answers by `?`, of which nothing is compared.
    faults: usize,
}

/// What was met, or the first fault.
type Outcome = Result<Met, String>;

fn compare(
    script: impl Iterator<Item = io::Result<String>>,
    mut oracle: impl Iterator<Item = io::Result<String>>,
    mut ours: impl Iterator<Item = io::Result<String>>,
) -> io::Result<Outcome> {
    let mut met = Met::default();
    for (at, operation) in script.enumerate() {
        let operation = operation?;
        if !is_operation(&operation) {
            continue;
        }
        match (oracle.next().transpose()?, ours.next().transpose()?) {
            (Some(theirs), Some(ours)) if compared(&theirs) == compared(&ours) => {
                met.learn(&operation, compared(&ours))
            }
            (theirs, ours) => return Ok(Err(difference(at + 1, &operation, theirs.as_deref(), ours.as_deref()))),
        }
    }
    let surplus = oracle.next().or(ours.next()).transpose()?;
    Ok(surplus.map_or(Ok(met), |line| Err(format!("an answer to no operation: {}", cut(&line)))))
}

impl Met {
    fn learn(&mut self, operation: &str, answer: &str) {
        if answer == "?" {
            self.faults += 1;
            return;
        }
        let named = full_name(operation, answer);
        match self.operations.get_mut(named.as_ref()) {
            Some(count) => *count += 1,
            None => drop(self.operations.insert(named.into_owned(), 1)),
        }
        if let Some(number) = refusal(answer) {
            *self.refusals.entry(number).or_default() += 1;
        }
        if operation.starts_with("S ask") {
            self.priced = numbered(answer).unwrap_or_default();
        }
        // Each of its characters is a blank and a digit at least.
        if operation.len() > 2 * LONG {
            self.learn_long(operation, answer);
        }
        if operation.starts_with('W') {
            self.writer.learn(operation, answer);
        }
        if operation.starts_with("G fill") {
            self.learn_fill(operation, answer);
        }
    }

    fn learn_fill(&mut self, operation: &str, answer: &str) {
        let picks = listed(answer);
        if picks.len() >= LONG {
            *self.long.entry("G fill long".to_owned()).or_default() += 1;
        }
        self.picks.extend(picks);
        self.seeds.extend(operation.split(' ').nth(2).and_then(|seed| number(seed).ok()));
    }

    fn learn_long(&mut self, operation: &str, answer: &str) {
        if name(operation) == "A check" && operation.split(' ').count() >= LONG + 2 {
            *self.long.entry(format!("{} long", full_name(operation, answer))).or_default() += 1;
            return;
        }
        // A commit needs as many places as it wrote characters; where it is refused, as many as the last asking answered.
        let known =
            if operation.starts_with('W') { self.writer.needed } else { numbered(answer).unwrap_or(self.priced) };
        let Some(lent) = lent(operation, known).filter(|lent| lent.length >= LONG) else {
            return;
        };
        let which = if lent.room == lent.needed && answer.starts_with("ok") {
            "long"
        } else if lent.room + 1 == lent.needed && refusal(answer) == Some(8) {
            "long short"
        } else {
            return;
        };
        *self.long.entry(format!("{} {which}", name(operation))).or_default() += 1;
    }

    /// Itself, if it has all of these.
    fn with_all(self, operations: &str, refusals: &[u32]) -> Outcome {
        if let Some(name) = operations.split(", ").find(|name| !self.has(name)) {
            return Err(format!("NOTHING COMPARED: no {name} among the answers"));
        }
        if let Some(number) = refusals.iter().find(|number| !self.refusals.contains_key(number)) {
            return Err(format!("NOTHING COMPARED: no answer is refused by {number}"));
        }
        Ok(self)
    }

    fn has(&self, name: &str) -> bool {
        let seeds = name.strip_suffix(" seeds").and_then(|count| count.parse().ok());
        self.operations.contains_key(name)
            || self.long.contains_key(name)
            || self.picked() == name
            || seeds.is_some_and(|count| self.seeds.len() >= count)
    }

    /// How many characters of the generator's list were picked.
    fn picked(&self) -> String {
        format!("{} picks", self.picks.len())
    }
}

impl fmt::Display for Met {
    fn fmt(&self, f: &mut fmt::Formatter<'_>) -> fmt::Result {
        let refusals: Vec<String> = self.refusals.iter().map(|(number, count)| format!("{number}: {count}")).collect();
        let compared: usize = self.operations.values().sum();
        write!(f, "{compared} answers compared, and {} by ?\n  {}", self.faults, counts(&self.operations))?;
        if !refusals.is_empty() {
            write!(f, "\n  refused by {}", refusals.join(", "))?;
        }
        if !self.long.is_empty() {
            write!(f, "\n  long: {}", counts(&self.long))?;
        }
        if !self.seeds.is_empty() {
            write!(f, "\n  {} different seeds, {}", self.seeds.len(), self.picked())?;
        }
        Ok(())
    }
}

/// Names with how often they were met.
fn counts(met: &BTreeMap<String, usize>) -> String {
    let counts: Vec<String> = met.iter().map(|(name, count)| format!("{name} {count}")).collect();
    counts.join(", ")
}

/// The part of an answer that is compared: all before `#`; of a line that begins with `?` that sign alone.
fn compared(answer: &str) -> &str {
    if answer.starts_with('?') {
        return "?";
    }
    answer.split('#').next().unwrap_or_default().trim_end()
}

/// The words of an operation that name it.
fn name(operation: &str) -> &str {
    let words = if operation.starts_with(['P', 'F']) { 1 } else { 2 };
    operation.match_indices(' ').nth(words - 1).map_or(operation, |(end, _)| &operation[..end])
}

/// The same with what a kind asks for beside it: a page that is wrong; of a check of a run `yes`, or the kind of the fault; A.5's
/// option.
fn full_name<'a>(operation: &'a str, answer: &str) -> Cow<'a, str> {
    match (name(operation), answer.rsplit(' ').next()) {
        ("P", Some("0")) => "P wrong".into(),
        (name @ "A check", Some(word)) if refusal(answer).is_none() => format!("{name} {word}").into(),
        (name, _) if has_units(operation) => format!("{name} units").into(),
        (name, _) => name.into(),
    }
}

/// The number of a refusal.
fn refusal(answer: &str) -> Option<u32> {
    answer.strip_prefix("no ")?.split(' ').next()?.parse().ok()
}

fn difference(line: usize, operation: &str, theirs: Option<&str>, ours: Option<&str>) -> String {
    let shown = |answer: Option<&str>| answer.map_or("(no answer)".to_owned(), cut);
    format!(
        "DIFFERENCE at line {line}\n  operation: {}\n  oracle:    {}\n  ours:      {}",
        cut(operation),
        shown(theirs),
        shown(ours)
    )
}

/// At most some 200 characters of a line.
fn cut(line: &str) -> String {
    let start: String = line.chars().take(200).collect();
    if start.len() < line.len() {
        format!("{start} ..")
    } else {
        start
    }
}
