//! What a hand-written Rust program takes to read a query of many fields into a tree like that of `dg_parse`: for
//! comparison with `table_checks time parse` in one run on one machine. It does less: it knows no alias, argument,
//! directive or brace.
//!
//!     rustc -O tools/baselines/fields.rs -o /tmp/fields && /tmp/fields
use std::collections::HashSet;
use std::time::Instant;

// How often a text is read, of which the shortest time counts.
const TURNS: u32 = 5;

struct Token<'a> {
    is_name: bool,
    text: &'a str,
    #[allow(dead_code)]
    at: usize,
}

#[allow(dead_code)]
struct Edge {
    back: bool,
    pred: String,
}

#[allow(dead_code)]
enum Item {
    Uid,
    Count(Edge),
    Val(String),
    Edge {
        edge: Edge,
        args: Vec<[u64; 4]>,
        dirs: Vec<[u64; 8]>,
        fields: Option<Vec<Field>>,
    },
}

#[allow(dead_code)]
struct Field {
    var: Option<String>,
    alias: Option<String>,
    item: Item,
}

fn is_of_name(byte: u8) -> bool {
    byte.is_ascii_alphanumeric() || matches!(byte, b'_' | b'.' | b'-')
}

fn tokens(text: &str) -> Vec<Token<'_>> {
    let bytes = text.as_bytes();
    let mut all = Vec::new();
    let mut at = 0;
    while at < bytes.len() {
        if bytes[at].is_ascii_whitespace() {
            at += 1;
            continue;
        }
        let is_name = bytes[at].is_ascii_alphabetic() || bytes[at] == b'_';
        let mut end = at + 1;
        while end < bytes.len() && is_of_name(bytes[end]) && is_of_name(bytes[at]) {
            end += 1;
        }
        all.push(Token { is_name, text: &text[at..end], at });
        at = end;
    }
    all
}

// The fields between the last braces; the place of the first key that stands twice, where keys are kept.
fn fields<'a>(tokens: &[Token<'a>], keyed: bool) -> (Vec<Field>, Option<usize>) {
    let from = tokens.iter().rposition(|t| t.text == "{").map_or(0, |at| at + 1);
    let mut all = Vec::new();
    let mut keys: HashSet<&'a str> = HashSet::new();
    let mut twice = None;
    for (place, token) in tokens[from..].iter().enumerate() {
        if !token.is_name {
            break;
        }
        if keyed && !keys.insert(token.text) && twice.is_none() {
            twice = Some(place);
        }
        let item = match token.text {
            "uid" => Item::Uid,
            name => Item::Edge {
                edge: Edge { back: false, pred: name.to_string() },
                args: Vec::new(),
                dirs: Vec::new(),
                fields: None,
            },
        };
        all.push(Field { var: None, alias: None, item });
    }
    (all, twice)
}

fn query(size: usize, one_letter: bool) -> String {
    let mut text = String::from("{ q(func: uid(0x1)) { uid");
    for number in 1.. {
        let next = if one_letter { " a".to_string() } else { format!(" f{number}") };
        if text.len() + next.len() + 4 > size {
            break;
        }
        text.push_str(&next);
    }
    text.push_str(" } }");
    text
}

fn main() {
    for (one_letter, word) in [(false, "fields"), (true, "letters")] {
        for size in [1 << 18, 1 << 19, 1 << 20] {
            let text = query(size, one_letter);
            for keyed in [true, false] {
                let mut least = u128::MAX;
                for _ in 0..TURNS {
                    let before = Instant::now();
                    let read = fields(&tokens(&text), keyed);
                    least = least.min(before.elapsed().as_nanos());
                    assert!(read.0.len() > 1 && read.1.is_some() == (keyed && one_letter));
                }
                let keys = if keyed { "with keys" } else { "without keys" };
                println!("{word} in {} bytes, {keys}: {} tenths of a ns a byte", text.len(), least * 10 / text.len() as u128);
            }
        }
    }
}
