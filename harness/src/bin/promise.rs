//! Holds answers to a script of the kind `demand` to demand 3: `promise SCRIPT ANSWERS`. The queue is the same for both cuts of
//! the text. Where it holds none of the characters that are excepted with the stream's option of document 02, A.5, its one write hands
//! out what isolation of the queue as one run gives, the close succeeds, and the check of the queue says yes; else the check says where
//! the first of them is. Prints how many queues passed, of these how many where every call that succeeds is lent exactly what it needs,
//! how many such of thousands of characters, and how many with that option on from a text with one of its signs; or the first that
//! does not pass. A missing answer is a failure, and so is a script that has none of one of these, or no queue with an excepted
//! character.

use harness::leaves::is_excepted;
use harness::scripts::lent::lent;
use harness::scripts::signs::{has_option, has_units};
use harness::scripts::LONG;
use harness::words::{is_operation, listed, numbered};
use std::fs::read_to_string;
use std::io;
use std::process::ExitCode;

fn main() -> io::Result<ExitCode> {
    let files: Vec<String> = std::env::args().skip(1).collect();
    let [script, answers] = files.as_slice() else {
        eprintln!("usage: promise SCRIPT ANSWERS");
        return Ok(ExitCode::from(2));
    };
    let (script, answers) = (read_to_string(script)?, read_to_string(answers)?);
    let mut seen = Seen::default();
    let mut answers = answers.lines();
    for operation in script.lines().filter(|line| is_operation(line)) {
        let learnt =
            answers.next().ok_or("an operation has no answer").and_then(|answer| seen.learn(operation, answer));
        if let Err(broken) = learnt {
            println!("BROKEN PROMISE: {broken}\n  queue:   {:x?}\n  answers: {:?}", seen.queue, seen.answers);
            return Ok(ExitCode::FAILURE);
        }
    }
    println!(
        "{} queues pass, {} of them with exactly the places that each call needs, {} of these of {LONG} characters or more; \
         {} of those that pass come, by A.5's option, from texts with its signs; {} hold an excepted character",
        seen.passed, seen.exact, seen.long, seen.from_signs, seen.excepted
    );
    let counts = [seen.exact, seen.long, seen.from_signs, seen.excepted];
    Ok(ExitCode::from(u8::from(counts.contains(&0))))
}

/// What the calls on a queue answered; none before the call.
#[derive(Default, Debug)]
struct Answers {
    written: String,
    closed: String,
    checked: String,
}

/// What is seen of a text so far, and the counts.
#[derive(Default)]
struct Seen {
    /// The queue of the current cut, and that of the cut before it.
    queue: Vec<u32>,
    other: Vec<u32>,
    /// What its write, its close and its check answered.
    answers: Answers,
    /// Whether a call that succeeded was lent more than it needs.
    over: bool,
    /// Whether the calls of the cut have A.5's option on, and whether one that succeeded has a sign then.
    units: bool,
    signs: bool,
    /// The queues that pass, those of them where none was, those of these that are long, and those that pass and had a sign.
    passed: usize,
    exact: usize,
    long: usize,
    from_signs: usize,
    excepted: usize,
}

impl Seen {
    fn learn(&mut self, operation: &str, answer: &str) -> Result<(), &'static str> {
        let words: Vec<&str> = operation.split(' ').take(2).collect();
        // A commit needs as many places as it wrote characters. The writer is a fresh one: it keeps and holds nothing.
        let known = if words == ["S", "commit"] { numbered(answer).unwrap_or_default() } else { 0 };
        self.over |= answer.starts_with("ok") && lent(operation, known).is_some_and(|lent| lent.room > lent.needed);
        match words.as_slice() {
            ["S", "new"] => {
                self.other = std::mem::take(&mut self.queue);
                self.signs = false;
            }
            ["S", "fin"] => self.queue.extend(listed(answer)),
            ["S", _] => {
                self.units = has_option(operation);
                self.signs |= answer.starts_with("ok") && has_units(operation);
                self.queue.extend(listed(answer));
            }
            ["P", _] => self.answers = Answers::default(),
            ["W", "chars"] => self.answers.written = answer.to_owned(),
            ["W", "close"] => self.answers.closed = answer.to_owned(),
            ["A", "check"] => self.answers.checked = answer.to_owned(),
            ["L", "isolate"] => {
                let over = std::mem::take(&mut self.over);
                return self.judge(answer, over);
            }
            _ => {}
        }
        Ok(())
    }

    fn judge(&mut self, isolated: &str, over: bool) -> Result<(), &'static str> {
        if self.queue != self.other {
            return Err("another cut gives another queue");
        }
        if let Some(place) = self.queue.iter().position(|c| is_excepted(self.units, *c)) {
            if self.answers.checked != format!("fault {place:x} char") {
                return Err("the check of the queue does not say where an excepted character is");
            }
            self.excepted += 1;
            return Ok(());
        }
        let isolated = isolated.replacen("n=", "k=", 1);
        if !isolated.starts_with("ok") || !self.answers.written.starts_with(&isolated) {
            return Err("the write does not hand out the queue isolated as one run");
        }
        if !self.answers.closed.starts_with("ok") {
            return Err("the close is refused");
        }
        if self.answers.checked != "yes" {
            return Err("the check of the queue does not say yes");
        }
        self.passed += 1;
        self.exact += usize::from(!over);
        self.long += usize::from(!over && self.queue.len() >= LONG);
        self.from_signs += usize::from(self.signs);
        Ok(())
    }
}
