//! raise CASE CALL COUNT: a bare host that raises one event again and again on one seat, and tells how many requests
//! for memory the raises made, and how many handlers the last one ran. The call `install` installs so many bindings, each
//! after the one before. `bench/raise` builds it over the plain sources.

use kit::alloc::Global;
use kit::boxed::boxed;
use spin_code::{Act, ActStep, Expr, Steplist};
use spin_objects::{Handler, Item, Natives, Outcome};
use spin_proto::{Deed, ReplyBuffer, Step};
use spin_script::{Script, read_script};
use spin_seat::{Hub, Seat};
use spin_table::Verdicted;
use spin_values::{Args, EventType, Kind, NoMemory, Param, Params, Text, Value};
use spin_word::{Command, Mode, NO_BINDING, Op};
use std::alloc::{GlobalAlloc, Layout, System};
use std::sync::atomic::{AtomicU64, Ordering::Relaxed};

/// The system's allocator, with a count of what is asked of it.
struct Counted;

static REQUESTS: AtomicU64 = AtomicU64::new(0);

// SAFETY: each call is the system's own.
unsafe impl GlobalAlloc for Counted {
    unsafe fn alloc(&self, layout: Layout) -> *mut u8 {
        REQUESTS.fetch_add(1, Relaxed);
        unsafe { System.alloc(layout) }
    }

    unsafe fn dealloc(&self, place: *mut u8, layout: Layout) {
        unsafe { System.dealloc(place, layout) }
    }

    unsafe fn realloc(&self, place: *mut u8, layout: Layout, size: usize) -> *mut u8 {
        REQUESTS.fetch_add(1, Relaxed);
        unsafe { System.realloc(place, layout, size) }
    }
}

#[global_allocator]
static ALLOCATOR: Counted = Counted;

/// A native handler that gives its argument and one.
struct Next;

impl Handler for Next {
    fn run(&self, _alloc: Global, args: &mut Args, out: &mut Outcome) -> Result<(), NoMemory> {
        let word = spin_code::argument_word(args, 0).wrapping_add(1);
        out.push(Item::Result(word))
    }
}

/// The natives of this host: the one handler.
fn natives(alloc: Global) -> Natives {
    let mut natives = Natives::new(alloc);
    let mut steps = Steplist::new(alloc);
    let next = Expr::Plus(boxed(alloc, Expr::Arg(0)).unwrap(), boxed(alloc, Expr::Const(1)).unwrap());
    steps.push(ActStep::Result(next)).unwrap();
    let mut params = Params::new(alloc);
    params.push(Param { kind: Kind::Word, var: false }).unwrap();
    let sig = EventType { params, gives: true };
    let name = Text::from_bytes(alloc, b"next").unwrap();
    natives.add_handler(name, sig, Act { steps }, Box::new(Next)).unwrap();
    natives
}

/// What a case raises, and what it binds to that: so many bindings, each with a handler, the guard of the first, 0 being
/// none, and a mode.
struct Case {
    event: u8,
    bindings: u16,
    handler: u16,
    first_guard: u16,
    mode: Mode,
}

/// The first of the guards that want a word, each another one.
const KEYED: u16 = 1;

/// The first of the guards that want a range, which no index serves. The last of them holds.
const RANGED: u16 = 65;

/// The case of a name.
fn case(name: &str) -> Case {
    let event = if name == "filter" { 1 } else { 0 };
    let (bindings, handler, first_guard, mode) = match name {
        "none" | "unfit" => (0, 1, 0, Mode::Plain),
        "bare" => (1, 1, 0, Mode::Plain),
        "one" => (1, 1, KEYED, Mode::Plain),
        "eight" => (8, 1, KEYED, Mode::Plain),
        "many" => (64, 1, KEYED, Mode::Plain),
        "ranges" => (64, 1, RANGED, Mode::Plain),
        "all_eight" => (8, 1, 0, Mode::Plain),
        "all_many" => (64, 1, 0, Mode::Plain),
        "filter" => (1, 2, KEYED, Mode::Filter),
        "up" => (1, 3, KEYED, Mode::Plain),
        "native" => (1, 4, KEYED, Mode::Plain),
        _ => panic!("no such case"),
    };
    Case { event, bindings, handler, first_guard, mode }
}

/// Three events, four handlers, 64 guards that each want another word, and 64 that want a range.
fn script() -> String {
    let mut text = String::from("spin 3\nevent 0 0 w:w last\nevent 1 0 W:w last\nevent 2 0 w last\n");
    text += "handler 1 w:w result + a0 1\nhandler 2 W:w set 0 + a0 1 result a0\n";
    text += "handler 3 w:w result + a0 1 up 2 1 w a0\nhandler 4 native next\n";
    (KEYED..RANGED).for_each(|guard| text += &format!("guard {guard} w == a0 {guard}\n"));
    (RANGED..RANGED + 63).for_each(|guard| text += &format!("guard {guard} w < {guard} a0\n"));
    text += &format!("guard {} w < a0 {}\n", RANGED + 63, RANGED);
    text
}

/// The hub of the script and its one seat, with the case's bindings.
fn open(alloc: Global, case: &Case) -> (Hub, Seat) {
    let Ok(Script { setup, .. }) = read_script(alloc, script().as_bytes(), natives(alloc)) else {
        panic!("the script is refused");
    };
    let (hub, mut seats) = Hub::new(alloc, setup, 1).unwrap();
    let mut seat = seats.take_first().unwrap();
    for number in 1..=case.bindings {
        let guard = if case.first_guard == 0 { 0 } else { case.first_guard + number - 1 };
        let bare = Command::bare(Op::Install, 0, case.event, 0);
        ask(alloc, &hub, &mut seat, &Command { handler: case.handler, guard, mode: case.mode, ..bare });
    }
    (hub, seat)
}

/// Has a command accepted.
fn ask(alloc: Global, hub: &Hub, seat: &mut Seat, command: &Command) {
    let judged = seat.command(alloc, hub, command).unwrap();
    assert!(matches!(judged.verdict, Verdicted::Accepted));
}

/// Installs so many bindings, each after the one before.
fn install_in_order(alloc: Global, hub: &Hub, seat: &mut Seat, count: u16) {
    let none = NO_BINDING;
    for number in 1..=count {
        let before = if number == 1 { none } else { number - 1 };
        let bare = Command::bare(Op::Install, 0, 0, 0);
        ask(alloc, hub, seat, &Command { handler: 1, after: [before, none, none, none], ..bare });
    }
}

/// How many handlers ran.
fn handlers(trace: &[Step]) -> usize {
    trace.iter().filter(|step| matches!(step, Step::Run { .. })).count()
}

fn main() {
    let words: Vec<String> = std::env::args().collect();
    let [_, name, call, count] = words.as_slice() else {
        panic!("usage: raise CASE CALL COUNT");
    };
    let (alloc, count) = (Global, count.parse::<u64>().unwrap());
    let case = case(name);
    let (hub, mut seat) = open(alloc, &case);
    let mut args = Args::new(alloc);
    args.push(Value::Word(1)).unwrap();
    if name == "unfit" {
        args.push(Value::Word(1)).unwrap();
    }
    let deed = Deed::Raise { event: case.event, args };
    let ran;
    let before = REQUESTS.load(Relaxed);
    match call.as_str() {
        "raise" => {
            let mut last = None;
            for _ in 0..count {
                last = Some(seat.raise(alloc, &hub, &deed).unwrap());
            }
            ran = last.map_or(0, |raised| handlers(raised.reply.trace()));
        }
        "raise_into" => {
            let mut buffer = ReplyBuffer::new(alloc);
            for _ in 0..count {
                seat.raise_into(alloc, &hub, &deed, &mut buffer).unwrap();
            }
            ran = handlers(buffer.trace());
        }
        "install" => {
            install_in_order(alloc, &hub, &mut seat, count as u16);
            ran = 0;
        }
        _ => panic!("no such call"),
    }
    println!("{} {ran}", REQUESTS.load(Relaxed) - before);
}
