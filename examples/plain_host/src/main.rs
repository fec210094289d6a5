//! A host in ordinary Rust, over the sources without their contracts: nothing of it is proved. Its handler is a closure
//! that puts what is raised into a channel, and two threads of Rust's own raise side by side.

use plain_std::alloc::Global;
use spin::{
    Act, Args, Command, Deed, EventType, Handler, Hub, Kind, Natives, NoMemory, Op, Outcome, Param, Params, Seat, Seats,
    Steplist, Text, Value, argument_word, read_script,
};
use std::sync::mpsc::channel;
use std::thread;

const SCRIPT: &[u8] = b"spin 1
event 0 0 w last
handler 1 native told
";

/// A closure as a handler, which is told the arguments and gives nothing.
struct Told<F>(F);

impl<F: Fn(&Args)> Handler for Told<F> {
    fn run(&self, _: Global, args: &mut Args, _: &mut Outcome) -> Result<(), NoMemory> {
        (self.0)(args);
        Ok(())
    }
}

/// Adds the closure as the handler `told` of events with one word. Its act has no steps, as it gives nothing: that is
/// what the dispatcher knows of it, and here nobody checks that it is so.
fn add_told(natives: &mut Natives, told: impl Fn(&Args) + Send + Sync + 'static) {
    let mut params = Params::new(Global);
    params.push(Param { kind: Kind::Word, var: false }).expect("memory");
    let (sig, act) = (EventType { params, gives: false }, Act { steps: Steplist::new(Global) });
    let name = Text::from_bytes(Global, b"told").expect("memory");
    natives.add_handler(name, sig, act, Box::new(Told(told))).expect("a name that isn't there");
}

/// Raises the event with each word.
fn raise(hub: &Hub, mut seat: Seat, words: impl Iterator<Item = u64>) {
    for word in words {
        let mut args = Args::new(Global);
        args.push(Value::Word(word)).expect("memory");
        seat.raise(Global, hub, &Deed::Raise { event: 0, args }).expect("memory");
    }
}

/// The next of the seats.
fn next(seats: &mut Seats) -> Seat {
    seats.take_first().expect("a seat for each lane")
}

fn main() {
    let (sender, receiver) = channel();
    let mut natives = Natives::new(Global);
    add_told(&mut natives, move |args| sender.send(argument_word(args, 0)).expect("a receiver"));
    let script = read_script(Global, SCRIPT, natives).expect("a script");
    let (hub, mut seats) = Hub::new(Global, script.setup, 2).expect("memory");
    let (mut first, second) = (next(&mut seats), next(&mut seats));
    let install = Command { handler: 1, ..Command::bare(Op::Install, 0, 0, 0) };
    println!("{:?}", first.command(Global, &hub, &install).expect("room").verdict);
    thread::scope(|threads| {
        threads.spawn(|| raise(&hub, first, 0..3));
        threads.spawn(|| raise(&hub, second, 10..13));
    });
    drop(hub);
    let mut told: Vec<u64> = receiver.iter().collect();
    told.sort();
    println!("{told:?}");
}
