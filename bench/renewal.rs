//! renewal EVENTS BINDINGS COUNT: a host that binds so many handlers to each of so many events and renews its hub again
//! and again, and tells the nanoseconds of a renewal. `bench/renewal` builds it over the plain sources.

use kit::alloc::Global;
use spin_objects::Natives;
use spin_script::{Script, read_script};
use spin_seat::{Hub, Seats};
use spin_word::{Command, Op};
use std::fmt::Write;
use std::time::Instant;

fn main() {
    let words: Vec<u32> = std::env::args().skip(1).map(|word| word.parse().unwrap()).collect();
    let [events, bindings, count] = words[..] else { panic!("renewal EVENTS BINDINGS COUNT") };
    let mut text = "spin 3\n".to_string();
    for event in 0..events {
        writeln!(text, "event {event} 0 w:w last").unwrap();
    }
    text += "handler 1 w:w result a0\n";
    let alloc = Global;
    let Ok(Script { setup, .. }) = read_script(alloc, text.as_bytes(), Natives::new(alloc)) else { panic!("no script") };
    let Ok((mut hub, mut seats)) = Hub::new(alloc, setup, 2) else { panic!("no hub") };
    let mut items = seats.into_vec();
    for event in 0..events as u8 {
        for _ in 0..bindings {
            let install = Command { handler: 1, ..Command::bare(Op::Install, 0, event, 0) };
            let Ok(_) = items[0].command(alloc, &hub, &install) else { panic!("not bound") };
        }
    }
    seats = Seats::from_vec(items);
    let begun = Instant::now();
    for _ in 0..count {
        let Ok(done) = hub.renew(alloc, seats) else { panic!("not renewed") };
        assert_eq!(done.live.len() as u32, events * bindings);
        (hub, seats) = (done.hub, done.seats);
    }
    println!("{}", begun.elapsed().as_nanos() / u128::from(count.max(1)));
}
