//! What a hand-written Rust program takes for scripts of many small transactions, beside `table_runs` with the word `time` in
//! one run on one machine: the same scripts in memory, a version of each value for each commit, conflicts by key, a history
//! of all commits, and the same replies. It does less: it checks no schema and no statement, it knows no session but one, no
//! layers and no groups, and nothing is let go when memory is refused.
//!
//!     rustc -O tools/baselines/engine.rs -o /tmp/engine && /tmp/engine
use std::collections::{BTreeMap, HashMap};
use std::fmt::Write;
use std::time::Instant;

// How often a script is run, of which the shortest time counts.
const TURNS: u32 = 3;

#[derive(Clone, PartialEq, Eq, PartialOrd, Ord, Hash)]
enum Key {
    Data(u32, u64),
    Index(u32, String),
    Reverse(u32, u64),
}

#[derive(Clone, PartialEq, Eq)]
enum Object {
    Text(String),
    Node(u64),
}

#[derive(Clone)]
struct Change {
    subject: u64,
    pred: u32,
    object: Object,
}

struct Operation {
    ts: u64,
    adds: bool,
    object: Object,
}

#[allow(dead_code)]
struct Commit {
    start: u64,
    ts: u64,
    changes: Vec<Change>,
}

// The predicates are text under an index of whole texts and of words, text without, and edges listed from their ends too.
const INDEXED: u32 = 0;
const PLAIN: u32 = 1;
const KNOWS: u32 = 2;

#[derive(Default)]
struct Engine {
    next: u64,
    lists: BTreeMap<Key, Vec<Operation>>,
    last: HashMap<Key, u64>,
    history: Vec<Commit>,
    start: u64,
    own: Vec<Change>,
    replies: String,
}

fn words(text: &str) -> Vec<String> {
    let mut all: Vec<String> = text.split(' ').map(|word| word.to_lowercase()).collect();
    all.sort();
    all.dedup();
    all
}

impl Engine {
    fn stamp(&mut self) -> u64 {
        self.next += 1;
        self.next
    }

    fn text_at(&self, key: &Key, ts: u64) -> Option<String> {
        let operations = self.lists.get(key)?;
        let text = operations.iter().rev().find(|op| op.ts <= ts && op.adds)?;
        match &text.object {
            Object::Text(text) => Some(text.clone()),
            Object::Node(_) => None,
        }
    }

    // The keys by which a change conflicts, and what lists gain and lose by it.
    fn parts(&self, change: &Change, parts: &mut Vec<(Key, bool, Object)>) {
        let Change { subject, pred, object } = change;
        let data = Key::Data(*pred, *subject);
        match object {
            Object::Node(end) => {
                parts.push((data, true, object.clone()));
                parts.push((Key::Reverse(*pred, *end), true, Object::Node(*subject)));
            }
            Object::Text(text) => {
                let old = self.text_at(&data, self.start);
                if *pred == INDEXED {
                    if let Some(old) = old {
                        for token in words(&old).into_iter().chain([format!("={old}")]) {
                            parts.push((Key::Index(*pred, token), false, Object::Node(*subject)));
                        }
                    }
                    for token in words(text).into_iter().chain([format!("={text}")]) {
                        parts.push((Key::Index(*pred, token), true, Object::Node(*subject)));
                    }
                }
                parts.push((data, true, object.clone()));
            }
        }
    }

    fn commit(&mut self) {
        let own = std::mem::take(&mut self.own);
        let mut parts = Vec::new();
        for change in &own {
            self.parts(change, &mut parts);
        }
        parts.sort_by(|one, other| one.0.cmp(&other.0));
        for (key, _, _) in &parts {
            if let Some(ts) = self.last.get(key) {
                if *ts > self.start {
                    writeln!(self.replies, "error 19 Conflict {ts}").unwrap();
                    return;
                }
            }
        }
        let ts = self.stamp();
        for (key, adds, object) in parts {
            self.last.insert(key.clone(), ts);
            self.lists.entry(key).or_default().push(Operation { ts, adds, object });
        }
        self.history.push(Commit { start: self.start, ts, changes: own });
        writeln!(self.replies, "ok commit 1 {ts}").unwrap();
    }

    fn statement(&mut self, line: &str) {
        let parts: Vec<&str> = line.splitn(3, ' ').collect();
        let node = |text: &str| u64::from_str_radix(&text[3..text.len() - 1], 16).unwrap();
        let pred = match parts[1] {
            "<name>" => INDEXED,
            "<plain>" => PLAIN,
            _ => KNOWS,
        };
        let object = parts[2].trim_end_matches(" .");
        let object = match object.strip_prefix('"') {
            Some(text) => Object::Text(text[..text.len() - 1].to_string()),
            None => Object::Node(node(object)),
        };
        self.own.push(Change { subject: node(parts[0]), pred, object });
    }

    fn run(&mut self, script: &str) {
        let mut rest = script;
        while let Some((line, behind)) = rest.split_once('\n') {
            rest = behind;
            match line.split(' ').next().unwrap() {
                "begin" => {
                    self.start = self.stamp();
                    self.own.clear();
                    writeln!(self.replies, "ok begin 1 {}", self.start).unwrap();
                }
                "mutate" => {
                    let length: usize = line.rsplit(' ').next().unwrap().parse().unwrap();
                    let (body, behind) = rest.split_at(length);
                    body.lines().for_each(|line| self.statement(line));
                    rest = &behind[1..];
                    self.replies.push_str("ok mutate 1 11\n{\"uids\":{}}\n");
                }
                _ => self.commit(),
            }
        }
    }
}

// One triple of a script: a plain name, or by turns a name of two words under indexes and an edge to a node that many know.
fn triple(indexed: bool, number: u64) -> String {
    let node = number / 2 + 1;
    match (indexed, number % 2) {
        (false, _) => format!("<0x{:x}> <plain> \"name {number}\" .\n", number + 1),
        (true, 1) => format!("<0x{node:x}> <knows> <0x{:x}> .\n", node % 1_000 + 1),
        (true, _) => format!("<0x{node:x}> <name> \"word{} n{node}\" .\n", node % 1_000),
    }
}

fn script(indexed: bool, triples: u64, each: u64) -> String {
    let mut text = String::new();
    let mut number = 0;
    while number < triples {
        text.push_str("begin 1\n");
        let end = triples.min(number + each);
        while number < end {
            let till = end.min(number + 1_000);
            let body: String = (number..till).map(|number| triple(indexed, number)).collect();
            write!(text, "mutate 1 {}\n{body}\n", body.len()).unwrap();
            number = till;
        }
        text.push_str("commit 1\n");
    }
    text
}

fn shortest(script: &str) -> u128 {
    let run = || {
        let mut engine = Engine::default();
        let before = Instant::now();
        engine.run(script);
        let taken = before.elapsed().as_nanos();
        assert!(!engine.replies.contains("error"));
        taken
    };
    (0..TURNS).map(|_| run()).min().unwrap()
}

fn main() {
    for (word, indexed, each) in [
        ("tiny transactions", false, 1),
        ("statements of one transaction", false, 1_000_000),
        ("indexed triples, one a transaction", true, 1),
        ("indexed triples, 100 a transaction", true, 100),
        ("indexed triples, 10,000 a transaction", true, 10_000),
    ] {
        let mut before: Option<u128> = None;
        for triples in [100, 1_000, 10_000, 100_000] {
            let taken = shortest(&script(indexed, triples, each));
            let power = before.map_or(0.0, |before| (taken as f64 / before as f64).log10());
            println!("{triples} {word}: {} ns, all by n^{power:.2}", taken / u128::from(triples));
            before = Some(taken);
        }
    }
}
