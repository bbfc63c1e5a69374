//! compare SEED LINES REQUESTS: runs the oracle and our programs on the same generated input and weighs every answer; see README.md.
//! compare sample DIR: writes the fixed list with its answers.
//! compare list lines|busy|requests SEED COUNT FILE: writes random inputs inside the domain of equality, for the benchmark.

mod boundary;
mod domain;
mod random;
mod texts;

use domain::Outside;
use std::collections::BTreeMap;
use std::io::{BufRead, BufReader, BufWriter, Write};
use std::process::{Child, Command, Stdio};
use texts::Rng;

/// A run in which a reader or a request had fewer accepted inputs inside the domain than this fails: it has compared too little.
const LEAST: usize = 20;

const READERS: [&str; 17] = [
    "GenericOk",
    "SimError",
    "WritePrompt",
    "CloseOk",
    "Iccid",
    "SignalQuality",
    "SystemInfo",
    "OperatorInfo",
    "NetworkTime",
    "DownloadInfo",
    "Imei",
    "SmsMessageFormat",
    "SmsMessage",
    "GnssReport",
    "CReg",
    "CGReg",
    "CEReg",
];

const REQUESTS: [&str; 13] = [
    "GetSignalQuality",
    "ShowIccid",
    "GetImei",
    "GetOperatorInfo",
    "SetManualOperator",
    "SetAutomaticOperator",
    "GetSystemInfo",
    "SynchronizeNetworkTime",
    "Execute",
    "DownloadToFileSystem",
    "GetSmsMessageFormat",
    "SetSmsMessageFormat",
    "ReadSms",
];

#[derive(Clone, Copy, PartialEq)]
enum Kind {
    Lines,
    Requests,
}

impl Kind {
    fn name(self) -> &'static str {
        if self == Kind::Lines { "lines" } else { "requests" }
    }

    fn of(self) -> &'static str {
        if self == Kind::Lines { "readers" } else { "requests" }
    }

    fn fixed(self) -> Vec<Vec<u8>> {
        if self == Kind::Lines { boundary::lines() } else { boundary::requests() }
    }

    fn outside(self, input: &[u8]) -> Option<domain::Outside> {
        match self {
            Kind::Lines => domain::line(input.strip_suffix(b"\r").unwrap_or(input)),
            Kind::Requests => domain::request(input),
        }
    }

    /// The readers, or the requests, each of which a run must have asked about.
    fn names(self) -> &'static [&'static str] {
        if self == Kind::Lines { &READERS } else { &REQUESTS }
    }

    /// Which of them an input is for that both sides answered alike; `answer` is none of a refusal.
    fn name_of(self, input: &[u8], answer: &[u8]) -> String {
        match self {
            Kind::Requests => String::from_utf8_lossy(input.split(|&byte| byte == b'\t').next().unwrap_or(input)).to_string(),
            Kind::Lines if answer.starts_with(b"NetworkRegistration ") => match input {
                [b'+', b'C', b'R', ..] => "CReg".to_string(),
                [b'+', b'C', b'G', ..] => "CGReg".to_string(),
                _ => "CEReg".to_string(),
            },
            Kind::Lines => first_words(self, answer),
        }
    }

    fn ours(self) -> String {
        let (variable, standard) = match self {
            Kind::Lines => ("OURS_LINES", "./run lines"),
            Kind::Requests => ("OURS_COMMANDS", "./run commands"),
        };
        std::env::var(variable).unwrap_or(standard.to_string())
    }
}

/// The inputs of one run: the fixed list, then random ones. Each thread makes them anew from the seed, so that none is stored.
struct Inputs {
    kind: Kind,
    fixed: Vec<Vec<u8>>,
    rng: Rng,
    given: usize,
    count: usize,
}

impl Inputs {
    fn new(kind: Kind, seed: u64, count: usize) -> Self {
        Inputs { kind, fixed: kind.fixed(), rng: Rng(seed), given: 0, count }
    }
}

impl Iterator for Inputs {
    type Item = Vec<u8>;
    fn next(&mut self) -> Option<Vec<u8>> {
        if self.given == self.count {
            return None;
        }
        self.given += 1;
        Some(match (self.fixed.get(self.given - 1), self.kind) {
            (Some(input), _) => input.clone(),
            (None, Kind::Lines) => random::line(&mut self.rng, &self.fixed),
            (None, Kind::Requests) => random::request(&mut self.rng),
        })
    }
}

fn fail(why: String) -> ! {
    eprintln!("compare: {}", why);
    std::process::exit(2);
}

fn start(command: &str) -> Child {
    let shell = Command::new("sh").args(["-c", command]).stdin(Stdio::piped()).stdout(Stdio::piped()).spawn();
    shell.unwrap_or_else(|error| fail(format!("{}: {}", command, error)))
}

fn oracle(kind: Kind) -> Child {
    start(&format!("target/oracle/oracle {}", kind.name()))
}

/// Writes in a thread of its own, so that a program which answers late holds nobody up. The last line goes without its LF.
fn feed(child: &mut Child, inputs: Inputs) -> std::thread::JoinHandle<()> {
    let mut input = BufWriter::with_capacity(1 << 16, child.stdin.take().unwrap());
    std::thread::spawn(move || {
        let mut inputs = inputs.peekable();
        while let Some(line) = inputs.next() {
            let end = if inputs.peek().is_none() && !line.is_empty() { "" } else { "\n" };
            // A program that ends early is found out by the count of its answers.
            if input.write_all(&line).and_then(|_| input.write_all(end.as_bytes())).is_err() {
                return;
            }
        }
    })
}

struct Answers {
    name: &'static str,
    from: BufReader<std::process::ChildStdout>,
    child: Child,
}

impl Answers {
    fn new(name: &'static str, mut child: Child) -> Self {
        let from = BufReader::with_capacity(1 << 16, child.stdout.take().unwrap());
        Answers { name, from, child }
    }

    fn next(&mut self, at: usize) -> Vec<u8> {
        let mut answer = Vec::new();
        let read = self.from.read_until(b'\n', &mut answer);
        if read.is_err() || answer.pop() != Some(b'\n') {
            fail(format!("{} gave {} answers and no more", self.name, at));
        }
        answer
    }

    fn end(mut self) {
        let mut rest = Vec::new();
        if self.from.read_until(b'\n', &mut rest).map_or(true, |count| count > 0) {
            fail(format!("{} gave more answers than it was asked for", self.name));
        }
        if !self.child.wait().map_or(false, |status| status.success()) {
            fail(format!("{} ended with an error", self.name));
        }
    }
}

#[derive(Default)]
struct Tally {
    equal: usize,
    inside: usize,
    wrong: usize,
    entries: BTreeMap<&'static str, usize>,
    answers: BTreeMap<String, usize>,
    /// By reader or request: the inputs inside the domain that both sides accept, and answer alike.
    accepted: BTreeMap<String, usize>,
}

fn first_words(kind: Kind, answer: &[u8]) -> String {
    let text = String::from_utf8_lossy(answer);
    let end = if answer == b"not utf8" { None } else if kind == Kind::Lines { text.find(' ') } else { text.find(['=', '\r']) };
    text[..end.unwrap_or(text.len())].to_string()
}

/// What is wrong with the two answers, if anything. An entry of docs/DIFFERENCES.md binds both sides.
fn judge(tally: &mut Tally, kind: Kind, input: &[u8], rust: &[u8], ours: &[u8]) -> Option<String> {
    *tally.answers.entry(first_words(kind, rust)).or_insert(0) += 1;
    let outside = kind.outside(input);
    if outside.is_none() {
        tally.inside += 1;
    }
    if rust == ours {
        tally.equal += 1;
    }
    let Outside { entry, rust: said, ours: owed } = match outside {
        Some(outside) => outside,
        None if rust == ours && rust != b"stopped" => {
            if !rust.starts_with(b"refused ") && rust != b"unknown" {
                *tally.accepted.entry(kind.name_of(input, rust)).or_insert(0) += 1;
            }
            return None;
        }
        None => return Some("inside the domain of equality, under no entry".to_string()),
    };
    if rust != ours {
        *tally.entries.entry(entry).or_insert(0) += 1;
    }
    if ours != owed.as_bytes() {
        return Some(format!("{} owes {}", entry, owed));
    }
    said.filter(|said| rust != said.as_bytes()).map(|said| format!("{} says that the Rust answers {}", entry, said))
}

fn run(kind: Kind, seed: u64, count: usize) -> bool {
    let (mut left, mut right) = (oracle(kind), start(&kind.ours()));
    let feeds = [feed(&mut left, Inputs::new(kind, seed, count)), feed(&mut right, Inputs::new(kind, seed, count))];
    let (mut rusts, mut ours) = (Answers::new("the oracle", left), Answers::new("our side", right));
    let mut tally = Tally::default();
    for (at, input) in Inputs::new(kind, seed, count).enumerate() {
        let (rust, our) = (rusts.next(at), ours.next(at));
        if let Some(why) = judge(&mut tally, kind, &input, &rust, &our) {
            tally.wrong += 1;
            if tally.wrong <= 20 {
                println!("{} {}: {}\n  input {}\n  Rust  {}\n  ours  {}", kind.name(), at + 1, why, input.escape_ascii(), rust.escape_ascii(), our.escape_ascii());
            }
        }
    }
    rusts.end();
    ours.end();
    for feed in feeds {
        feed.join().unwrap();
    }
    println!("{} {}: equal {}, inside the domain {}", kind.name(), count, tally.equal, tally.inside);
    for (entry, what) in domain::ENTRIES {
        if let Some(differing) = tally.entries.get(entry) {
            println!("  {} {}: {} differ", entry, what, differing);
        }
    }
    let answers: Vec<String> = tally.answers.iter().map(|(answer, count)| format!("{} {}", answer, count)).collect();
    println!("  the Rust's answers: {}", answers.join(", "));
    println!("  differences that no entry explains: {}", tally.wrong);
    let accepted = |name: &&&str| tally.accepted.get(**name).copied().unwrap_or(0);
    let least = kind.names().iter().min_by_key(accepted).unwrap();
    println!("  accepted inside the domain, of {} {}: each at least {} times ({})", kind.names().len(), kind.of(), accepted(&least), least);
    for name in kind.names().iter().filter(|name| accepted(name) < LEAST) {
        println!("  too little was compared: {} of {}, where {} are the least", accepted(&name), name, LEAST);
    }
    tally.wrong == 0 && accepted(&least) >= LEAST
}

/// The fixed list, what the documents make our side answer to it, and where that is not the Rust's answer.
fn sample(folder: &str) -> std::io::Result<()> {
    std::fs::create_dir_all(folder)?;
    let mut marks = String::new();
    for kind in [Kind::Lines, Kind::Requests] {
        let inputs = kind.fixed();
        let mut child = oracle(kind);
        let feed = feed(&mut child, Inputs::new(kind, 0, inputs.len()));
        let mut rusts = Answers::new("the oracle", child);
        let (mut asked, mut answered) = (Vec::new(), Vec::new());
        for (at, input) in inputs.iter().enumerate() {
            let mut answer = rusts.next(at);
            let outside = kind.outside(input);
            if outside.is_none() && answer == b"stopped" {
                fail(format!("the Rust stops inside the domain: {}", input.escape_ascii()));
            }
            if let Some(outside) = outside {
                let said = String::from_utf8_lossy(&answer).escape_debug().to_string();
                marks += &format!("{} {} {} {}\n", kind.name(), at + 1, outside.entry, said);
                answer = outside.ours.as_bytes().to_vec();
            }
            for (bytes, list) in [(input, &mut asked), (&answer, &mut answered)] {
                list.extend(bytes);
                list.push(b'\n');
            }
        }
        rusts.end();
        feed.join().unwrap();
        std::fs::write(format!("{}/{}.in", folder, kind.name()), asked)?;
        std::fs::write(format!("{}/{}.out", folder, kind.name()), answered)?;
        println!("{} {}", kind.name(), inputs.len());
    }
    std::fs::write(format!("{}/outside.txt", folder), marks)
}

/// So many random inputs inside the domain of equality, each with an LF.
fn list(kind: Kind, seed: u64, count: usize, file: &str) -> std::io::Result<()> {
    let random = Inputs::new(kind, seed, usize::MAX).skip(kind.fixed().len());
    let mut bytes = Vec::new();
    for input in random.filter(|input| kind.outside(input).is_none()).take(count) {
        // a line without the CR that the programs take off
        bytes.extend(input.strip_suffix(b"\r").filter(|_| matches!(kind, Kind::Lines)).unwrap_or(&input));
        bytes.push(b'\n');
    }
    std::fs::write(file, bytes)
}

/// So many lines of a modem on a busy cell, each with an LF. All lie inside the domain.
fn busy(seed: u64, count: usize, file: &str) -> std::io::Result<()> {
    let lines = random::busy(&mut Rng(seed), count);
    if let Some(line) = lines.iter().find(|line| Kind::Lines.outside(line.as_bytes()).is_some()) {
        fail(format!("outside the domain of equality: {}", line));
    }
    std::fs::write(file, lines.join("\n") + "\n")
}

fn main() -> std::io::Result<()> {
    let args: Vec<String> = std::env::args().skip(1).collect();
    if args.len() == 2 && args[0] == "sample" {
        return sample(&args[1]);
    }
    if args.len() == 5 && args[0] == "list" {
        let number = |text: &str| text.parse().unwrap_or_else(|_| fail(format!("{} is no number", text)));
        let (seed, count) = (number(&args[2]), number(&args[3]) as usize);
        return match args[1].as_str() {
            "lines" => list(Kind::Lines, seed, count, &args[4]),
            "busy" => busy(seed, count, &args[4]),
            "requests" => list(Kind::Requests, seed, count, &args[4]),
            name => fail(format!("{} is no list", name)),
        };
    }
    let number = |at: usize, standard: u64| args.get(at).map_or(standard, |text| text.parse().unwrap_or_else(|_| fail(format!("{} is no number", text))));
    let (seed, lines, requests) = (number(0, 1), number(1, 2_000_000), number(2, 200_000));
    println!("seed {}", seed);
    let good = [run(Kind::Lines, seed, lines as usize), run(Kind::Requests, seed, requests as usize)];
    std::process::exit(if good == [true, true] { 0 } else { 1 });
}
