//! Plays a script through the binding and prints what `./histar run` prints of it. Lines are played one after another, so
//! what a script asks must not hang on the schedule of its workers.
//!
//! play SCRIPT [--pages N] [--device L] [--next-id N] [--next-category N] [--tables yes] [--dump FILE]
//!
//! With `--tables yes` the tables of what the kernel keeps follow, as a dump has them. With `--dump FILE` calls are kept, and
//! their dump is written to a file. The lines of a batch are calls like others, so a dump has no batch.
mod names;
mod saying;
mod words;

use histar::trusted::{session_of, Thread};
use histar::{Keep, Kernel, Limits, Object, Refusal, Reply};
use names::{Names, Unbound, Value};
use saying::{print_tables, said, Answer};
use std::collections::BTreeSet;
use words::Words;

/// A line of a script.
struct Line<'a> {
    number: usize,
    phase: usize,
    bound: Option<&'a str>,
    worker: &'a str,
    call: &'a str,
}

/// The lines of a script, without those that part phases.
fn lines(script: &str) -> Vec<Line<'_>> {
    let mut phase = 0;
    let mut found = Vec::new();
    for (number, text) in (1..).zip(script.lines()) {
        if text == "--" {
            phase += 1;
            continue;
        }
        let (before, call) = text.split_once(':').expect("a script without a fault");
        let call = call.trim_start_matches('+').trim_start();
        let (bound, worker) = match before.split_once(" = ") {
            Some((bound, worker)) => (Some(bound), worker),
            None => (None, before),
        };
        found.push(Line { number, phase, bound, worker, call });
    }
    found
}

/// A script that is being played.
struct Player<'a> {
    kernel: Kernel,
    names: Names<'a>,
    seated: BTreeSet<&'a str>,
    // Who has no seat in this phase.
    turned_away: BTreeSet<&'a str>,
}

impl<'a> Player<'a> {
    /// Opens the seats of a phase: a thread that is live has one.
    fn open_seats(&mut self, phase: usize, lines: &[Line<'a>]) {
        self.turned_away.clear();
        for line in lines.iter().filter(|it| it.phase == phase) {
            let id = match self.names.value(line.worker, "", phase) {
                Some(Value::Object(id)) => id,
                _ => continue,
            };
            if !self.seated.contains(line.worker) {
                match session_of(&self.kernel, id.into()).self_get().map_err(Refusal::from) {
                    Err(Refusal::Halted) => self.turned_away.insert(line.worker),
                    _ => self.seated.insert(line.worker),
                };
            }
        }
    }

    fn play(&mut self, line: &Line<'a>) -> Answer<'a> {
        let worker = match self.names.value(line.worker, "", line.phase) {
            Some(Value::Object(worker)) => worker,
            _ => return Answer::Unbound(line.worker),
        };
        if self.turned_away.contains(line.worker) {
            return Answer::NoThread;
        }
        let words = line.call.split_whitespace();
        let call = Words { words, names: &self.names, worker: line.worker, phase: line.phase }.call();
        match call {
            Ok(call) => Answer::Reply(self.kernel.call(Thread::from(worker), &call).map_err(Refusal::from)),
            Err(Unbound(name)) => Answer::Unbound(name),
        }
    }

    fn bind(&mut self, line: &Line<'a>, answer: &Answer<'a>) {
        let value = match answer {
            Answer::Reply(Ok(Reply::Object(id))) => Value::Object(*id),
            Answer::Reply(Ok(Reply::Category(category))) => Value::Category(*category),
            _ => return,
        };
        if let Some(name) = line.bound {
            self.names.bind(name, value, line.worker, line.phase + 1);
        }
    }
}

fn limits(words: &[String]) -> Limits {
    let mut limits = Limits::default();
    for pair in words.chunks(2) {
        match pair[0].as_str() {
            "--pages" => limits.pages = pair[1].parse().expect("pages"),
            "--device" => limits.device = pair[1].parse().expect("a level"),
            "--next-id" => limits.next_id = pair[1].parse().expect("an id"),
            "--next-category" => limits.next_category = pair[1].parse().expect("a category"),
            "--tables" | "--dump" => {}
            word => panic!("no word of play: {word}"),
        }
    }
    limits
}

fn main() {
    let words: Vec<String> = std::env::args().skip(1).collect();
    let script = std::fs::read_to_string(&words[0]).expect("the script can be read");
    let lines = lines(&script);
    let kernel = Kernel::boot_with(&limits(&words[1..])).expect("a kernel");
    let dump = words.iter().position(|it| it == "--dump").map(|place| &words[place + 1]);
    if dump.is_some() {
        kernel.log_on(u64::MAX, Keep::All).expect("a log");
    }
    let mut player = Player { kernel, names: Names::default(), seated: BTreeSet::new(), turned_away: BTreeSet::new() };
    for (name, id) in [("root", Object::ROOT), ("boot", Thread::BOOT.into()), ("dev", Object::DEVICE)] {
        // (known to all from the first phase on)
        player.names.bind(name, Value::Object(id), "", 0);
    }
    let mut answers = Vec::new();
    let mut phase = usize::MAX;
    for line in &lines {
        if line.phase != phase {
            phase = line.phase;
            player.open_seats(phase, &lines);
        }
        let answer = player.play(line);
        player.bind(line, &answer);
        answers.push(answer);
    }
    let mut workers: Vec<&str> = Vec::new();
    for line in &lines {
        if !workers.contains(&line.worker) {
            workers.push(line.worker);
        }
    }
    for worker in workers {
        for (line, answer) in lines.iter().zip(&answers).filter(|(line, _)| line.worker == worker) {
            println!("{worker} {}: {}", line.number, said(answer, &player.names));
        }
    }
    if words.iter().any(|it| it == "--tables") {
        print_tables(&player.kernel);
    }
    if let Some(file) = dump {
        std::fs::write(file, player.kernel.dump().expect("a dump")).expect("the dump can be written");
    }
}
