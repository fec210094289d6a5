//! What the seats of one hub answer, on threads of their own.

use codzvregi::{Answer, Command, Fault, Hub, Install, Lane, Op, Place, Row};
use std::thread;

const SCRIPT: &[u8] = b"spin 1\nevent 0 0 w:w last\nhandler 1 w:w result + a0 1\nhandler 2 w:w result + a0 2\n";

fn is_send<T: Send>(_: &T) {}

/// What may be sent to other threads and shared by them, whatever stands in it.
const fn is_send_and_sync<T: Send + Sync>() {}

const _: () = {
    is_send_and_sync::<Lane>();
    is_send_and_sync::<Hub>();
    is_send_and_sync::<Fault>();
    is_send_and_sync::<Command>();
    is_send_and_sync::<Answer>();
};

#[test]
fn each_seat_is_out_once() -> Result<(), Fault> {
    assert_eq!(Hub::open(SCRIPT, 0).err(), Some(Fault::NoLane));
    assert_eq!(Hub::open(SCRIPT, 9).err(), Some(Fault::NoLane));
    let mut hub = Hub::open(SCRIPT, 3)?;
    let second = hub.seat(1)?;
    is_send(&second);
    assert_eq!((second.number(), hub.seat(1).err()), (1, Some(Fault::Taken)));
    assert_eq!((hub.seat(0).err(), hub.seat(3).err()), (Some(Fault::Taken), Some(Fault::NoLane)));
    assert_eq!(hub.seat(2)?.number(), 2);
    assert_eq!(hub.into_seats(3).err(), Some(Fault::Taken));
    Ok(())
}

#[test]
fn a_seat_that_is_dropped_goes_out_again() -> Result<(), Fault> {
    let mut first = Hub::open(SCRIPT, 3)?.into_first();
    let second = first.seat(1)?;
    let mut third = first.seat(2)?;
    assert_eq!((first.gather()?, third.gather()), (2, Err(Fault::NoLane)));
    drop(second);
    assert_eq!(first.gather()?, 1);
    let again = first.seat(1)?;
    assert_eq!((again.number(), first.gather()?), (1, 2));
    Ok(())
}

#[test]
fn no_hub_is_renewed_or_ended_whose_seats_are_out() -> Result<(), Fault> {
    let mut hub = Hub::open(SCRIPT, 2)?.into_first();
    let mut seat = hub.seat(1)?;
    assert_eq!((hub.renew(), hub.end()), (Err(Fault::Taken), Err(Fault::Taken)));
    assert_eq!((seat.renew(), seat.end()), (Err(Fault::NoLane), Err(Fault::NoLane)));
    assert_eq!(seat.command(&Op::Default(1).on(0))?, 1);
    assert_eq!(hub.raise(0, &[1])?.answer, Answer::Default(Some(2)));
    drop(seat);
    hub.renew()?;
    assert_eq!(hub.raise(0, &[1])?.place, 0);
    Ok(())
}

#[test]
fn the_rows_of_a_hub_that_is_ended_are_its_commands() -> Result<(), Fault> {
    let mut hub = Hub::open(SCRIPT, 2)?.into_first();
    let mut seat = hub.seat(1)?;
    let last = Op::Install(Install::new(2).after(1).place(Place::Last)).on(0);
    assert_eq!(seat.command(&Op::Install(Install::new(1)).on(0))?, 1);
    assert_eq!(hub.command(&last)?, 2);
    assert_eq!(seat.command(&Op::Replace { target: 1, handler: 2, guard: 0 }.on(0))?, 3);
    drop(seat);
    let rows = hub.end()?;
    let wanted = [
        Row { lane: 1, command: Op::Install(Install::new(1)).on(0) },
        Row { lane: 0, command: last },
        Row { lane: 1, command: Op::Replace { target: 1, handler: 2, guard: 0 }.on(0) },
    ];
    assert_eq!(rows, wanted);
    assert_eq!((hub.renew(), hub.raise(0, &[1]).err()), (Err(Fault::Ended), Some(Fault::Ended)));
    Ok(())
}

/// At which places which default was set, and what raises gave at which places.
type Part = (Vec<(u32, u16)>, Vec<(u32, Answer)>);

/// Sets the default again and again, and raises.
fn take_part(seat: &mut Lane) -> Result<Part, Fault> {
    let (mut set, mut raised) = (Vec::new(), Vec::new());
    for turn in 0..200u16 {
        let handler = 1 + (turn + u16::from(seat.number())) % 2;
        set.push((seat.command(&Op::Default(handler).on(0))?, handler));
        for _ in 0..20 {
            let reply = seat.raise(0, &[10])?;
            raised.push((reply.place, reply.answer));
        }
    }
    Ok((set, raised))
}

/// Sees that all answers are those of the commands before them.
fn judge(parts: Vec<Part>) -> Vec<(u32, u16)> {
    let (set, raised): (Vec<_>, Vec<_>) = parts.into_iter().unzip();
    let mut set = set.concat();
    set.sort_unstable();
    assert!(set.iter().map(|&(place, _)| place).eq(1..=1600), "each place is one command's");
    for (place, answer) in raised.concat() {
        let (_, handler) = set[place as usize - 1];
        assert_eq!(answer, Answer::Default(Some(10 + u64::from(handler))), "at place {place}");
    }
    set
}

/// Has all seats take part, each on a thread, and come home.
fn play(first: &mut Lane) -> Result<Vec<(u32, u16)>, Fault> {
    let others = (1..8).map(|lane| first.seat(lane)).collect::<Result<Vec<Lane>, Fault>>()?;
    let running: Vec<_> = others.into_iter().map(|mut seat| thread::spawn(move || take_part(&mut seat))).collect();
    let first = take_part(first);
    let others = running.into_iter().map(|one| one.join().expect("a thread ends"));
    Ok(judge(std::iter::once(first).chain(others).collect::<Result<_, Fault>>()?))
}

#[test]
fn threads_share_a_hub_over_renewals() -> Result<(), Fault> {
    let mut hub = Hub::open(SCRIPT, 8)?.into_first();
    for _ in 0..4 {
        play(&mut hub)?;
        hub.renew()?;
    }
    let set = play(&mut hub)?;
    let rows = hub.end()?;
    assert!(rows.iter().map(|row| row.command.op).eq(set.iter().map(|&(_, handler)| Op::Default(handler))));
    Ok(())
}

#[test]
fn a_seat_outlives_the_others() -> Result<(), Fault> {
    let mut hub = Hub::open(SCRIPT, 2)?.into_first();
    let mut second = hub.seat(1)?;
    assert_eq!(hub.command(&Op::Install(Install::new(1)).on(0))?, 1);
    drop(hub);
    assert_eq!(second.raise(0, &[1])?.answer, Answer::Value(2));
    Ok(())
}
