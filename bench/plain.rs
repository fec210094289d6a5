//! A plain dispatcher, with no proof and no thread: what the proved one is measured against. It takes scripts with one
//! lane, without rules, natives, retirements, asynchronous bindings and later raises, trusts that they are well formed,
//! and refuses only bindings that are not there or too many, and wrong arguments; of these it writes the same report,
//! byte for byte.
//!
//! `plain SCRIPT [PACKETS]`

use std::collections::BTreeMap;
use std::fmt::{self, Write as _};
use std::io::Write as _;
use std::iter::Peekable;
use std::rc::Rc;
use std::str::SplitAsciiWhitespace;

type Words<'a> = Peekable<SplitAsciiWhitespace<'a>>;

enum Expr {
    Const(u64),
    Arg(usize),
    Field(usize, usize, usize),
    Plus(Box<Expr>, Box<Expr>),
    And(Box<Expr>, Box<Expr>),
    Or(Box<Expr>, Box<Expr>),
}

enum Test {
    True,
    Compare(u8, Expr, Expr),
    Has(usize, usize),
    Not(Box<Test>),
    All(Box<Test>, Box<Test>),
    Any(Box<Test>, Box<Test>),
}

enum Part {
    Word(Expr),
    Bytes(usize, usize),
}

enum Act {
    Set(usize, Expr),
    Send(usize, usize, usize),
    Result(Expr),
    Up(usize, Vec<Part>),
    Ipv4(usize),
    Udp(usize),
}

#[derive(Clone)]
enum Value {
    Word(u64),
    Bytes(Rc<[u8]>),
}

struct Event {
    kinds: String,
    fold: Option<Expr>,
    default: usize,
    live: Vec<Binding>,
    order: Vec<usize>,
}

struct Binding {
    number: usize,
    handler: usize,
    guard: usize,
    place: String,
    before: Vec<usize>,
    after: Vec<usize>,
}

enum Answer {
    Value(u64),
    Done,
    Default(Option<u64>),
    NoHandler,
}

impl fmt::Display for Answer {
    fn fmt(&self, f: &mut fmt::Formatter) -> fmt::Result {
        match self {
            Answer::Value(v) => write!(f, "value {v}"),
            Answer::Done => f.write_str("done"),
            Answer::Default(None) => f.write_str("default"),
            Answer::Default(Some(v)) => write!(f, "default {v}"),
            Answer::NoHandler => f.write_str("nohandler"),
        }
    }
}

fn number(word: &str) -> u64 {
    match word.strip_prefix("0x") {
        Some(hex) => u64::from_str_radix(hex, 16).unwrap(),
        None => word.parse().unwrap(),
    }
}

fn next(words: &mut Words) -> usize {
    number(words.next().unwrap()) as usize
}

/// In version 3 so many numbers, behind a word and how many there are.
fn numbers(words: &mut Words) -> Vec<usize> {
    words.next();
    let count = next(words);
    (0..count).map(|_| next(words)).collect()
}

fn expr(words: &mut Words) -> Expr {
    let two = |make: fn(Box<Expr>, Box<Expr>) -> Expr, words: &mut Words| {
        let left = Box::new(expr(words));
        make(left, Box::new(expr(words)))
    };
    match words.next().unwrap() {
        "+" => two(Expr::Plus, words),
        "&" => two(Expr::And, words),
        "|" => two(Expr::Or, words),
        "f" => Expr::Field(next(words), next(words), next(words)),
        word if word.starts_with('a') => Expr::Arg(word[1..].parse().unwrap()),
        word => Expr::Const(number(word)),
    }
}

fn test(words: &mut Words) -> Test {
    match words.next().unwrap() {
        "true" => Test::True,
        "has" => Test::Has(next(words), next(words)),
        "not" => Test::Not(Box::new(test(words))),
        "all" => Test::All(Box::new(test(words)), Box::new(test(words))),
        "any" => Test::Any(Box::new(test(words)), Box::new(test(words))),
        word => {
            let kind = ["==", "!=", "<", "<="].iter().position(|it| *it == word).unwrap();
            Test::Compare(kind as u8, expr(words), expr(words))
        }
    }
}

fn part(words: &mut Words) -> Part {
    match words.next().unwrap() {
        "w" => Part::Word(expr(words)),
        _ => Part::Bytes(next(words), next(words)),
    }
}

fn act(words: &mut Words) -> Vec<Act> {
    let mut steps = Vec::new();
    while let Some(word) = words.next() {
        steps.push(match word {
            "set" => Act::Set(next(words), expr(words)),
            "send" => Act::Send(next(words), next(words), next(words)),
            "result" => Act::Result(expr(words)),
            "up" => {
                let (event, count) = (next(words), next(words));
                Act::Up(event, (0..count).map(|_| part(words)).collect())
            }
            _ if words.next() == Some("ipv4") => Act::Ipv4(next(words)),
            _ => Act::Udp(next(words)),
        });
    }
    steps
}

fn value(e: &Expr, args: &[Value]) -> u64 {
    match e {
        Expr::Const(c) => *c,
        Expr::Arg(at) => match args.get(*at) {
            Some(Value::Word(v)) => *v,
            _ => 0,
        },
        Expr::Field(at, offset, width) => match args.get(*at) {
            Some(Value::Bytes(bytes)) => bytes
                .get(*offset..offset + width)
                .map_or(0, |field| field.iter().fold(0, |sum, byte| sum << 8 | u64::from(*byte))),
            _ => 0,
        },
        Expr::Plus(a, b) => value(a, args).wrapping_add(value(b, args)),
        Expr::And(a, b) => value(a, args) & value(b, args),
        Expr::Or(a, b) => value(a, args) | value(b, args),
    }
}

fn bytes_of(args: &[Value], at: usize, from: usize) -> &[u8] {
    match args.get(at) {
        Some(Value::Bytes(bytes)) => bytes.get(from..).unwrap_or(&[]),
        _ => &[],
    }
}

fn holds(t: &Test, args: &[Value]) -> bool {
    match t {
        Test::True => true,
        Test::Compare(kind, a, b) => {
            let (a, b) = (value(a, args), value(b, args));
            [a == b, a != b, a < b, a <= b][*kind as usize]
        }
        Test::Has(at, length) => bytes_of(args, *at, 0).len() >= *length,
        Test::Not(t) => !holds(t, args),
        Test::All(a, b) => holds(a, args) && holds(b, args),
        Test::Any(a, b) => holds(a, args) || holds(b, args),
    }
}

fn sum(start: u32, bytes: &[u8]) -> u32 {
    let words = bytes.chunks(2).map(|it| u32::from(it[0]) << 8 | u32::from(*it.get(1).unwrap_or(&0)));
    let sum = words.fold(u64::from(start), |sum, word| sum + u64::from(word));
    let mut sum = sum;
    while sum > 0xffff {
        sum = (sum & 0xffff) + (sum >> 16);
    }
    sum as u32
}

fn be(bytes: &[u8]) -> u64 {
    bytes.iter().fold(0, |sum, byte| sum << 8 | u64::from(*byte))
}

fn ipv4(frame: &[u8]) -> Result<Vec<Value>, &'static str> {
    let bytes = frame.get(14..).ok_or("short")?;
    if bytes.len() < 20 {
        return Err("short");
    }
    let (header, total) = (usize::from(bytes[0] & 15) * 4, be(&bytes[2..4]) as usize);
    if bytes[0] >> 4 != 4 {
        Err("version")
    } else if header < 20 || header > bytes.len() {
        Err("header_length")
    } else if total < header || total > bytes.len() {
        Err("total_length")
    } else if sum(0, &bytes[..header]) != 0xffff {
        Err("checksum")
    } else if be(&bytes[6..8]) & 0x3fff != 0 {
        Err("fragment")
    } else {
        let words = [u64::from(bytes[9]), be(&bytes[12..16]), be(&bytes[16..20])];
        let payload = Value::Bytes(bytes[header..total].into());
        Ok(std::iter::once(payload).chain(words.map(Value::Word)).collect())
    }
}

fn udp(args: &[Value]) -> Result<Vec<Value>, &'static str> {
    let bytes = bytes_of(args, 0, 0);
    let address = |at| value(&Expr::Arg(at), args) & 0xffff_ffff;
    let (source, destination) = (address(2), address(3));
    if bytes.len() < 8 {
        return Err("short");
    }
    let length = be(&bytes[4..6]) as usize;
    if length < 8 || length > bytes.len() {
        return Err("udp_length");
    }
    let mut pseudo = [0u8; 12];
    pseudo[..4].copy_from_slice(&(source as u32).to_be_bytes());
    pseudo[4..8].copy_from_slice(&(destination as u32).to_be_bytes());
    pseudo[9] = 17;
    pseudo[10..].copy_from_slice(&bytes[4..6]);
    if be(&bytes[6..8]) != 0 && sum(sum(0, &pseudo), &bytes[..length]) != 0xffff {
        return Err("checksum");
    }
    let words = [be(&bytes[..2]), be(&bytes[2..4]), source, destination];
    let payload = Value::Bytes(bytes[8..length].into());
    Ok(std::iter::once(payload).chain(words.map(Value::Word)).collect())
}

#[derive(Default)]
struct Dispatcher {
    is_wide: bool,
    events: Vec<Event>,
    endpoints: Vec<String>,
    handlers: Vec<(String, Vec<Act>)>,
    guards: Vec<Test>,
    place: usize,
    files: BTreeMap<String, std::fs::File>,
}

impl Dispatcher {
    /// The act's last result; its raises upwards are done behind it.
    fn run(&self, handler: usize, args: &mut Vec<Value>, text: &mut String, sends: &mut Vec<(usize, Rc<[u8]>)>) -> Option<u64> {
        let (mut result, mut ups) = (None, Vec::new());
        for step in &self.handlers[handler - 1].1 {
            match step {
                Act::Set(at, to) => {
                    let to = value(to, args);
                    args[*at] = Value::Word(to);
                }
                Act::Send(endpoint, at, from) => {
                    let bytes: Rc<[u8]> = bytes_of(args, *at, *from).into();
                    write!(text, " send {endpoint} {}", bytes.len()).unwrap();
                    sends.push((*endpoint, bytes));
                }
                Act::Result(to) => {
                    let to = value(to, args);
                    write!(text, " result {to}").unwrap();
                    result = Some(to);
                }
                Act::Up(event, parts) => {
                    let parts = parts.iter().map(|part| match part {
                        Part::Word(to) => Value::Word(value(to, args)),
                        Part::Bytes(at, from) => Value::Bytes(bytes_of(args, *at, *from).into()),
                    });
                    ups.push((*event, parts.collect()));
                }
                Act::Ipv4(event) | Act::Udp(event) => {
                    let read = match step {
                        Act::Ipv4(_) => ipv4(bytes_of(args, 0, 0)),
                        _ => udp(args),
                    };
                    match read {
                        Ok(up) => ups.push((*event, up)),
                        Err(fault) => write!(text, " drop {fault}").unwrap(),
                    }
                }
            }
        }
        for (event, mut up) in ups {
            write!(text, " up {event}").unwrap();
            let answer = self.raise(event, &mut up, text, sends);
            write!(text, " back {answer}").unwrap();
        }
        result
    }

    fn raise(&self, at: usize, args: &mut Vec<Value>, text: &mut String, sends: &mut Vec<(usize, Rc<[u8]>)>) -> Answer {
        let event = &self.events[at];
        let (mut fired, mut merged) = (false, None);
        for binding in event.order.iter().map(|at| &event.live[*at]) {
            if binding.guard != 0 && !holds(&self.guards[binding.guard - 1], args) {
                continue;
            }
            fired = true;
            write!(text, " run {at} {}", binding.number).unwrap();
            if let Some(result) = self.run(binding.handler, args, text, sends) {
                merged = Some(match (merged, &event.fold) {
                    (Some(so_far), Some(fold)) => value(fold, &[Value::Word(so_far), Value::Word(result)]),
                    _ => result,
                });
            }
        }
        match (fired, merged, event.default) {
            (true, Some(value), _) => Answer::Value(value),
            (true, None, _) => Answer::Done,
            (false, _, 0) => Answer::NoHandler,
            (false, _, default) => {
                write!(text, " run {at} 0").unwrap();
                Answer::Default(self.run(default, args, text, sends))
            }
        }
    }

    fn command(&mut self, words: &mut Words, text: &mut String) {
        let op = words.next().unwrap();
        let (at, _module) = (next(words), next(words));
        let event = &mut self.events[at];
        text.push_str(op);
        match op {
            "install" => {
                let (handler, guard) = (next(words), next(words));
                let mut place = words.next().unwrap().to_string();
                let (mut before, mut after) = (Vec::new(), Vec::new());
                match place.as_str() {
                    _ if self.is_wide => (before, after) = (numbers(words), numbers(words)),
                    "before" => before.push(next(words)),
                    "after" => after.push(next(words)),
                    _ => {}
                }
                if !matches!(place.as_str(), "first" | "last") {
                    place = "free".to_string();
                }
                if before.iter().chain(&after).any(|other| event.live.iter().all(|it| it.number != *other)) {
                    return text.push_str(" refused 5 unknown_binding");
                }
                if event.live.len() == if self.is_wide { 64 } else { 32 } {
                    return text.push_str(" refused 10 too_many");
                }
                event.live.push(Binding { number: self.place + 1, handler, guard, place, before, after });
            }
            "remove" | "replace" => {
                let number = next(words);
                let Some(at) = event.live.iter().position(|it| it.number == number) else {
                    return text.push_str(" refused 5 unknown_binding");
                };
                if op == "remove" {
                    event.live.remove(at);
                } else {
                    (event.live[at].handler, event.live[at].guard) = (next(words), next(words));
                }
            }
            "default" => event.default = next(words),
            _ => event.default = 0,
        }
        event.order = order(&event.live);
        self.place += 1;
        text.push_str(" ok");
    }

    fn deliver(&mut self, endpoint: usize, bytes: &[u8]) -> bool {
        let name = self.endpoints[endpoint].clone();
        if !matches!(name.as_str(), "out0" | "out1" | "out2" | "out3") {
            return false;
        }
        let file = self.files.entry(name).or_insert_with_key(|name| {
            std::fs::File::options().append(true).create(true).open(format!("{name}.bin")).unwrap()
        });
        file.write_all(&(bytes.len() as u32).to_be_bytes()).unwrap();
        file.write_all(bytes).unwrap();
        true
    }
}

/// The least order by number in which nothing stands behind what it must precede.
fn order(live: &[Binding]) -> Vec<usize> {
    let precedes = |b: &Binding, c: &Binding| {
        (b.place == "first" && c.place != "first")
            || (c.place == "last" && b.place != "last")
            || b.before.contains(&c.number)
            || c.after.contains(&b.number)
    };
    let (mut left, mut order): (Vec<usize>, _) = ((0..live.len()).collect(), Vec::new());
    while !left.is_empty() {
        let ready = |at: &usize| left.iter().all(|other| other == at || !precedes(&live[*other], &live[*at]));
        let at = left.iter().position(ready).expect("no cycle");
        order.push(left.remove(at));
    }
    order
}

fn hex(word: &str) -> Rc<[u8]> {
    (1..word.len()).step_by(2).map(|at| u8::from_str_radix(&word[at..at + 2], 16).unwrap()).collect()
}

fn values(words: &mut Words) -> Vec<Value> {
    words
        .map(|word| match word.starts_with('x') {
            true => Value::Bytes(hex(word)),
            false => Value::Word(number(word)),
        })
        .collect()
}

fn fits(kinds: &str, args: &[Value]) -> bool {
    let kinds = kinds.split(':').next().unwrap().replace('-', "");
    kinds.len() == args.len()
        && kinds.chars().zip(args).all(|(kind, arg)| matches!(arg, Value::Bytes(_)) == (kind.to_ascii_lowercase() == 'b'))
}

fn main() {
    let names: Vec<String> = std::env::args().skip(1).collect();
    let script = std::fs::read_to_string(&names[0]).unwrap();
    let capture = names.get(1).map(|name| std::fs::read(name).unwrap());
    let (mut at, mut records, mut used) = (24, 0, 0);
    let mut out = std::io::BufWriter::new(std::io::stdout().lock());
    let (mut it, mut segment, mut lost) = (Dispatcher::default(), 0, BTreeMap::new());
    writeln!(out, "report 1\nsegment 0 at 0").unwrap();
    for (line, text) in script.lines().enumerate().map(|(at, text)| (at + 1, text)) {
        let mut words = text.split_ascii_whitespace().peekable();
        match words.next().unwrap_or("#") {
            "spin" => it.is_wide = words.next() == Some("3"),
            "event" => {
                let kinds = words.nth(2).unwrap().to_string();
                let fold = (words.next() == Some("fold")).then(|| expr(&mut words));
                it.events.push(Event { kinds, fold, default: 0, live: Vec::new(), order: Vec::new() });
            }
            "endpoint" => it.endpoints.push(words.nth(1).unwrap().to_string()),
            "handler" => {
                let kinds = words.nth(1).unwrap().to_string();
                it.handlers.push((kinds, act(&mut words)));
            }
            "guard" => {
                words.nth(1);
                it.guards.push(test(&mut words));
            }
            "barrier" => {
                segment += 1;
                for (endpoint, count) in std::mem::take(&mut lost) {
                    writeln!(out, "lost {endpoint} {count}").unwrap();
                }
                writeln!(out, "segment {segment} at {}", it.place).unwrap();
            }
            "lane" => {
                words.next();
                let (mut text, mut sends) = (String::new(), Vec::new());
                match *words.peek().unwrap() {
                    "raise" => {
                        words.next();
                        let event = next(&mut words);
                        let mut args = values(&mut words);
                        if fits(&it.events[event].kinds, &args) {
                            let answer = it.raise(event, &mut args, &mut text, &mut sends);
                            writeln!(out, "{} 0 {line} raise{text} = {answer}", it.place).unwrap();
                        } else {
                            writeln!(out, "{} 0 {line} raise refused 2 wrong_args", it.place).unwrap();
                        }
                    }
                    "packet" => {
                        words.next();
                        let (event, count) = (next(&mut words), next(&mut words));
                        let file = capture.as_deref().unwrap_or(&[]);
                        for part in 1..=count {
                            let Some(head) = file.get(at..at + 16) else { break };
                            let length = u32::from_le_bytes(head[8..12].try_into().unwrap()) as usize;
                            let Some(frame) = file.get(at + 16..at + 16 + length) else { break };
                            (at, records, used) = (at + 16 + length, records + 1, used + 1);
                            text.clear();
                            let answer = it.raise(event, &mut vec![Value::Bytes(frame.into())], &mut text, &mut sends);
                            writeln!(out, "{} 0 {line}.{part} packet{text} = {answer}", it.place).unwrap();
                        }
                    }
                    _ => {
                        it.command(&mut words, &mut text);
                        writeln!(out, "{} 0 {line} {text}", it.place).unwrap();
                    }
                }
                for (endpoint, bytes) in sends {
                    if !it.deliver(endpoint, &bytes) {
                        *lost.entry(endpoint).or_insert(0) += 1;
                    }
                }
            }
            _ => {}
        }
    }
    for (endpoint, count) in lost {
        writeln!(out, "lost {endpoint} {count}").unwrap();
    }
    match capture {
        None => writeln!(out, "end {}", it.place).unwrap(),
        Some(file) => {
            while let Some(head) = file.get(at..at + 16) {
                let length = u32::from_le_bytes(head[8..12].try_into().unwrap()) as usize;
                if file.len() < at + 16 + length {
                    break;
                }
                (at, records) = (at + 16 + length, records + 1);
            }
            writeln!(out, "end {} records {records} used {used} cut {}", it.place, file.len() - at).unwrap();
        }
    }
}
