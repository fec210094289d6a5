//! What a lane answers.

use codzvregi::{Answer, Arg, Command, Fault, Hub, Install, Job, Lane, Mode, Op, Place, Reason, Refusal, Reply, Step};

const SCRIPT: &[u8] = b"spin 1\nmodules 2\nevent 0 0 w:w last\nhandler 1 w:w result + a0 1\n\
    handler 2 w:w result + a0 2\nhandler 3 -:w result 9\nrule 0 1 1 any any all deny\n";

/// Binds the handler of this number to event 0.
fn install(handler: u16) -> Command {
    Op::Install(Install::new(handler)).on(0)
}

/// Why a command was refused.
fn refused(told: Result<u32, Fault>) -> Refusal {
    match told {
        Err(Fault::Refused(refusal)) => refusal,
        other => panic!("{other:?}"),
    }
}

#[test]
fn raises_are_answered_by_the_commands_before_them() -> Result<(), Fault> {
    let mut lane = Lane::open(SCRIPT)?;
    assert_eq!(lane.raise(0, &[41])?.answer, Answer::NoHandler);
    assert_eq!(lane.command(&install(1))?, 1);
    let reply = lane.raise(0, &[41])?;
    assert_eq!((reply.place, reply.answer, reply.steps), (1, Answer::Value(42), 2));
    let replace = Op::Replace { target: 1, handler: 2, guard: 0 };
    assert_eq!(lane.command(&replace.on(0))?, 2);
    assert_eq!(lane.raise(0, &[41])?.answer, Answer::Value(43));
    assert_eq!(lane.command(&Op::Remove(1).on(0))?, 3);
    assert_eq!(lane.command(&Op::Default(1).on(0))?, 4);
    assert_eq!(lane.raise(0, &[1])?.answer, Answer::Default(Some(2)));
    assert_eq!(lane.command(&Op::NoDefault.on(0))?, 5);
    assert_eq!(lane.raise(0, &[1])?.answer, Answer::NoHandler);
    Ok(())
}

/// The bindings whose handlers ran in the last raise, in order, and those that were left to jobs.
fn ran(lane: &mut Lane) -> Result<(Vec<u16>, Vec<u16>), Fault> {
    let (mut ran, mut left) = (Vec::new(), Vec::new());
    for step in lane.steps()? {
        match step {
            Step::Run { number, .. } => ran.push(number),
            Step::Job { number, .. } => left.push(number),
            _ => {}
        }
    }
    Ok((ran, left))
}

#[test]
fn places_and_modes_are_kept() -> Result<(), Fault> {
    let mut lane = Lane::open(SCRIPT)?;
    let one = Install::new(1);
    let installs = [
        one,
        one.before(1),
        one.after(2).after(1),
        one.place(Place::First),
        one.place(Place::Last).mode(Mode::Filter),
        one.mode(Mode::Async),
        one.after(1).before(3),
    ];
    for (place, install) in (1..).zip(installs) {
        assert_eq!(lane.command(&Op::Install(install).on(0))?, place);
    }
    lane.raise(0, &[10])?;
    let (order, left) = ran(&mut lane)?;
    assert_eq!((order, left), (vec![4, 2, 1, 7, 3, 5], vec![6]));
    Ok(())
}

#[test]
fn what_is_refused_changes_nothing() -> Result<(), Fault> {
    let mut lane = Lane::open(SCRIPT)?;
    assert_eq!(lane.raise(1, &[41])?.answer, Answer::UnknownEvent);
    assert_eq!(lane.raise(0, &[])?.answer, Answer::WrongArguments);
    let reasons = [Reason::WrongType, Reason::UnknownHandler, Reason::Denied];
    for (reason, command) in reasons.into_iter().zip([install(3), install(9), install(1).by(1)]) {
        let refusal = refused(lane.command(&command));
        assert_eq!((refusal.reason, refusal.place), (reason, 0), "{refusal}");
    }
    assert_eq!(refused(lane.command(&install(1).by(1))).to_string(), "refused 9 denied 1 at 0");
    let before_4097 = Op::Install(Install::new(1).before(4097)).on(0);
    let before_twice = Op::Install(Install::new(1).before(1).before(1)).on(0);
    for command in [before_4097, before_twice] {
        assert_eq!(lane.command(&command), Err(Fault::NoCommand));
    }
    assert_eq!(lane.raise(0, &[1])?.place, 0);
    Ok(())
}

#[test]
fn numbers_without_room_are_told() -> Result<(), Fault> {
    let mut lane = Lane::open(SCRIPT)?;
    let five = (1..6).fold(Install::new(1), Install::after);
    let ops = [
        Op::Install(Install::new(1024)),
        Op::Install(Install::new(1).guard(1024)),
        Op::Install(Install::new(1).before(u16::MAX)),
        Op::Install(five),
        Op::Remove(8192),
        Op::Replace { target: u16::MAX, handler: 1, guard: 0 },
        Op::Default(u16::MAX),
    ];
    for op in ops {
        assert_eq!(lane.command(&op.on(0)), Err(Fault::Wide), "{op:?}");
    }
    assert_eq!(lane.command(&Op::NoDefault.on(64)), Err(Fault::Wide));
    assert_eq!(lane.command(&install(1))?, 1);
    Ok(())
}

#[test]
fn no_lane_is_over_a_text_that_is_no_script() {
    assert_eq!(Lane::open(b"spin 1\nbad\n").err(), Some(Fault::BadScript { line: 2, cause: 4 }));
}

const TRAIL: &[u8] = b"spin 1\nevent 0 0 bw:w last\nevent 1 0 b last\nevent 2 0 bwww last\nendpoint 0 out0\n\
    handler 1 bw:w send 0 0 1 up 1 1 b 0 0 result a1\nhandler 2 b layer ipv4 2\nhandler 3 bw:w result a1\n";

#[test]
fn steps_are_those_of_the_last_raise() -> Result<(), Fault> {
    let mut lane = Lane::open(TRAIL)?;
    assert_eq!(lane.steps(), Err(Fault::NoReply));
    assert_eq!(lane.command(&install(1))?, 1);
    assert_eq!(lane.command(&Op::Install(Install::new(2)).on(1))?, 2);
    let later = Op::Install(Install::new(3).mode(Mode::Async));
    assert_eq!(lane.command(&later.on(0))?, 3);
    let reply = lane.raise_with(0, &[Arg::Bytes(b"bcd"), Arg::Word(7)])?;
    assert_eq!((reply.answer, reply.steps), (Answer::Value(7), 8));
    let steps = [
        Step::Run { event: 0, number: 1 },
        Step::Send { endpoint: 0, bytes: b"cd".to_vec() },
        Step::Result(7),
        Step::Up(1),
        Step::Run { event: 1, number: 2 },
        Step::Dropped(1),
        Step::Back(Answer::Done),
        Step::Job { event: 0, number: 3 },
    ];
    assert_eq!(lane.steps()?, steps);
    assert_eq!(lane.step(8), Err(Fault::NoStep));
    assert_eq!(lane.raise_with(0, &[Arg::Word(7), Arg::Bytes(b"")])?.answer, Answer::WrongArguments);
    assert_eq!(lane.steps()?, []);
    assert_eq!(refused(lane.command(&Op::Remove(9).on(0))).reason, Reason::UnknownBinding);
    assert_eq!(lane.step(0), Err(Fault::NoReply));
    Ok(())
}

#[test]
fn a_renewed_hub_goes_on() -> Result<(), Fault> {
    let mut lane = Lane::open(SCRIPT)?;
    assert_eq!(lane.number_before(1), Err(Fault::NoBinding));
    for place in 1..4 {
        assert_eq!(lane.command(&install(1))?, place);
    }
    assert_eq!(lane.command(&Op::Remove(1).on(0))?, 4);
    lane.renew()?;
    assert_eq!((lane.number_before(1)?, lane.number_before(2)?), (2, 3));
    for number in [0, 3] {
        assert_eq!(lane.number_before(number), Err(Fault::NoBinding));
    }
    assert_eq!(lane.raise(0, &[41])?.place, 2);
    assert_eq!(lane.command(&Op::Remove(2).on(0))?, 3);
    assert_eq!(lane.raise(0, &[41])?.answer, Answer::Value(42));
    Ok(())
}

#[test]
fn refusals_tell_their_rule_or_their_cycle() -> Result<(), Fault> {
    let mut lane = Lane::open(SCRIPT)?;
    assert_eq!(lane.command(&install(1))?, 1);
    assert_eq!(lane.command(&Op::Install(Install::new(1).after(1)).on(0))?, 2);
    let denied = refused(lane.command(&install(1).by(1)));
    assert_eq!((denied.rule, denied.cycle), (Some(1), vec![]));
    let conflict = refused(lane.command(&Op::Install(Install::new(1).after(2).before(1)).on(0)));
    assert_eq!(conflict.to_string(), "refused 11 conflict 1 2 3 at 2");
    assert_eq!((conflict.rule, conflict.cycle), (None, vec![1, 2, 3]));
    Ok(())
}

const JOBS: &[u8] = b"spin 1\nevent 0 0 bw:w last\nevent 1 0 b last\nendpoint 0 out0\n\
    handler 1 bw:w up 1 1 b 0 0 result a1\nhandler 2 b send 0 0 1\nhandler 3 bw:w result + a1 1\n";

#[test]
fn jobs_are_done_on_the_bindings_of_their_raise() -> Result<(), Fault> {
    let mut hub = Hub::open(JOBS, 2)?.into_first();
    let mut other = hub.seat(1)?;
    assert_eq!(hub.job(0), Err(Fault::NoReply));
    let left = |handler| Op::Install(Install::new(handler).mode(Mode::Async));
    for command in [install(1), left(2).on(1), left(3).on(0)] {
        other.command(&command)?;
    }
    let args = [Arg::Bytes(b"abc"), Arg::Word(7)];
    hub.raise_with(0, &args)?;
    other.command(&Op::Remove(3).on(0))?;
    let sends = Job {
        reply: Reply { place: 3, answer: Answer::Done, steps: 2 },
        steps: vec![Step::Run { event: 1, number: 2 }, Step::Send { endpoint: 0, bytes: b"bc".to_vec() }],
    };
    let gives = Job {
        reply: Reply { place: 3, answer: Answer::Value(8), steps: 2 },
        steps: vec![Step::Run { event: 0, number: 3 }, Step::Result(8)],
    };
    for _ in 0..2 {
        assert_eq!(hub.jobs().collect::<Result<Vec<Job>, Fault>>()?, [sends.clone(), gives.clone()]);
    }
    assert_eq!((hub.job(1)?, hub.job(2)), (gives, Err(Fault::NoJob)));
    assert_eq!(hub.later(0, &args)?, Reply { place: 4, answer: Answer::Queued, steps: 0 });
    let done = hub.jobs().collect::<Result<Vec<Job>, Fault>>()?;
    assert_eq!((done.len(), done[0].reply.answer), (1, Answer::Value(7)));
    assert_eq!((hub.later(9, &args)?.answer, hub.jobs().count()), (Answer::UnknownEvent, 0));
    Ok(())
}

#[test]
fn no_hub_is_shut_for_good() -> Result<(), Fault> {
    let mut script = "spin 3\n".to_owned();
    script.extend((0..64).map(|event| format!("event {event} 0 - last\n")));
    script.push_str("handler 1 -\n");
    let mut hub = Lane::open(script.as_bytes())?;
    for number in 0..4095 {
        hub.command(&Op::Install(Install::new(1)).on((number % 64) as u8))?;
    }
    assert_eq!(hub.command(&Op::Install(Install::new(1)).on(63)), Err(Fault::Full));
    hub.renew()?;
    assert_eq!(hub.command(&Op::Remove(1).on(0))?, 4096);
    hub.renew()
}
