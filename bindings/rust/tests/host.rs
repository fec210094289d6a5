//! Closures that stand for bindings: what they are handed, what they may do, and what becomes of a raise that they end.

use codzvregi::{Answer, Arg, Bind, Event, Fault, Host, Outcome, Script, Step};
use std::panic::{AssertUnwindSafe, catch_unwind};
use std::sync::{Arc, Mutex};
use std::thread;

fn script() -> Script {
    Script::new()
        .module("net")
        .module("app")
        .event("Low", Event::new("Bw:w").merge("fold + a0 a1"))
        .event("Middle", "W:w")
        .event("High", "b")
        .event("Kept", Event::new("w").rule("0 255 install any all deny"))
        .endpoint("out0")
        .handler("add", "W:w", "set 0 + a0 1 result a0")
        .handler("up", "Bw:w", "send 0 0 0 up 1 1 w a1")
        .guard("small", "w", "< a0 10")
}

/// What is noted by closures.
#[derive(Clone, Default)]
struct Notes(Arc<Mutex<Vec<u64>>>);

impl Notes {
    fn put(&self, note: u64) {
        self.0.lock().unwrap().push(note);
    }

    fn all(&self) -> Vec<u64> {
        self.0.lock().unwrap().clone()
    }
}

const fn is_send<T: Send>() {}
const _: () = is_send::<Host>();

#[test]
fn a_filter_a_guard_and_results_that_fold() -> Result<(), Fault> {
    let mut host = Host::open(&script(), 1)?;
    host.bind("Low", Bind::new(|call| call.change(0, Arg::Bytes(b"yz"))).filter().first())?;
    host.bind("Low", Bind::new(|_| 100).guard(|call| call.word(1) == 53).named("name"))?;
    host.bind("Low", Bind::new(|call| call.bytes(0).len() as u64).before("name"))?;
    let mut raise = |port| host.raise("Low", &[Arg::Bytes(b"xyz"), Arg::Word(port)]);
    assert_eq!(raise(53)?.answer, Answer::Value(102));
    assert_eq!(raise(80)?.answer, Answer::Value(2));
    assert_eq!(host.raise("Low", &[])?.answer, Answer::WrongArguments);
    assert_eq!(host.raise(9, &[])?.answer, Answer::UnknownEvent);
    assert_eq!(host.raise("None", &[]), Err(Fault::NoName("event None".into())));
    Ok(())
}

#[test]
fn a_raise_from_within_sees_the_bindings_of_the_raise() -> Result<(), Fault> {
    let mut host = Host::open(&script(), 1)?;
    let low = |call: &mut codzvregi::Call<'_>| {
        assert_eq!(call.raise("Low", &[Arg::Bytes(b""), Arg::Word(0)]), Err(Fault::Downward));
        call.host().unbind("Middle", "once")?;
        call.host().bind("Middle", Bind::new(|_| 7))?;
        assert_eq!(call.host().renew(), Err(Fault::Shared));
        let word = call.word(1);
        match call.raise("Middle", &[Arg::Word(word)])?.answer {
            Answer::Value(value) => Ok(value),
            _ => Err(Fault::NoBinding),
        }
    };
    host.bind("Middle", Bind::new(|call| call.word(0) + 1).named("once"))?;
    host.bind("Low", Bind::new(low))?;
    let args = [Arg::Bytes(b""), Arg::Word(41)];
    assert_eq!(host.raise("Low", &args)?.answer, Answer::Value(42));
    assert_eq!(host.raise("Low", &args), Err(Fault::NoName("binding once".into())));
    assert_eq!(host.raise("Middle", &[Arg::Word(1)])?.answer, Answer::Value(7));
    Ok(())
}

#[test]
fn outcomes_acts_and_steps() -> Result<(), Fault> {
    let (mut host, sent) = (Host::open(&script(), 1)?, Notes::default());
    let note = sent.clone();
    host.watch(move |step| match step {
        Step::Send { bytes, .. } => note.put(bytes.len() as u64),
        Step::Up(event) => note.put(100 + u64::from(*event)),
        Step::Back(answer) => assert_eq!(*answer, Answer::Value(3)),
        _ => {}
    });
    host.bind("Low", Bind::coded("up").guard(|call| call.word(1) == 1))?;
    host.bind("Middle", Bind::new(|_| Outcome::AsDeclared).handler("add").filter())?;
    let send = |call: &mut codzvregi::Call<'_>| call.send("out0", b"two");
    host.bind("Middle", Bind::new(send))?;
    host.bind("Middle", Bind::new(|call| if call.word(0) > 2 { Outcome::Pass } else { Outcome::Handled }))?;
    host.bind("Middle", Bind::new(|_| Some(3)))?;
    host.raise("Low", &[Arg::Bytes(b"data"), Arg::Word(1)])?;
    assert_eq!(sent.all(), [4, 101, 3]);
    assert_eq!(host.raise("Low", &[Arg::Bytes(b""), Arg::Word(2)])?.answer, Answer::NoHandler);
    host.bind_default("High", Some(Bind::new(|call| call.send("out0", b"default"))))?;
    assert_eq!(host.raise("High", &[Arg::Bytes(b"")])?.answer, Answer::Default(None));
    host.bind_default("High", None)?;
    assert_eq!(host.raise("High", &[Arg::Bytes(b"")])?.answer, Answer::NoHandler);
    Ok(())
}

#[test]
fn a_panic_abandons_the_raise_and_goes_on() -> Result<(), Fault> {
    let mut host = Host::open(&script(), 1)?;
    host.bind("Low", Bind::new(|call| call.raise("Middle", &[Arg::Word(1)]).map(|_| 1)))?;
    host.bind("Middle", Bind::new(|call| assert_ne!(call.word(0), 1, "one")))?;
    let args = [Arg::Bytes(b""), Arg::Word(0)];
    for _ in 0..2 {
        let panic = catch_unwind(AssertUnwindSafe(|| host.raise("Low", &args))).unwrap_err();
        assert!(panic.downcast_ref::<String>().is_some_and(|told| told.contains("one")));
    }
    assert_eq!(host.raise("Middle", &[Arg::Word(2)])?.answer, Answer::Done);
    host.renew()
}

#[test]
fn what_may_not_be_given() -> Result<(), Fault> {
    let mut host = Host::open(&script(), 1)?;
    host.bind("High", Bind::new(|_| 1).named("result"))?;
    assert_eq!(host.raise("High", &[Arg::Bytes(b"")]), Err(Fault::Gift(2)));
    host.rebind("High", "result", Bind::new(|call| call.change(0, Arg::Word(1))))?;
    assert_eq!(host.raise("High", &[Arg::Bytes(b"")]), Err(Fault::Gift(3)));
    host.bind("Middle", Bind::new(|call| call.change(7, Arg::Word(1))).filter())?;
    assert_eq!(host.raise("Middle", &[Arg::Word(1)]), Err(Fault::Gift(4)));
    host.bind("Low", Bind::new(|_| Err::<(), _>(Fault::NoJob)))?;
    assert_eq!(host.raise("Low", &[Arg::Bytes(b""), Arg::Word(1)]), Err(Fault::NoJob));
    assert_eq!(host.unbind_by("Middle", 2, "none"), Err(Fault::NoName("module none".into())));
    host.unbind_by("Middle", 3, "net")?;
    match host.bind("Kept", Bind::new(|_| ()).by("app")) {
        Err(Fault::Refused(refusal)) => assert_eq!(refusal.rule, Some(1)),
        other => panic!("{other:?}"),
    }
    Ok(())
}

#[test]
fn jobs_and_a_renewal() -> Result<(), Fault> {
    let (mut host, notes) = (Host::open(&script(), 1)?, Notes::default());
    host.bind("High", Bind::new(|_| ()).named("gone"))?;
    let note = notes.clone();
    host.bind("High", Bind::new(move |call| note.put(call.bytes(0).len() as u64)).apart().named("job"))?;
    host.unbind("High", "gone")?;
    host.renew()?;
    assert_eq!(host.binding("job"), Ok(1));
    assert_eq!(host.raise("High", &[Arg::Bytes(b"four")])?.answer, Answer::Done);
    assert_eq!((notes.all(), host.run_jobs()?), (vec![], 1));
    assert_eq!((notes.all(), host.run_jobs()?), (vec![4], 0));
    Ok(())
}

#[test]
fn eight_seats_on_threads() -> Result<(), Fault> {
    let mut first = Host::open(&script(), 8)?;
    let seats = (1..8).map(|lane| first.seat(lane)).collect::<Result<Vec<Host>, Fault>>()?;
    let work = |mut host: Host| {
        thread::spawn(move || -> Result<(), Fault> {
            for word in 0..100 {
                host.bind("Middle", Bind::new(move |call| call.word(0) + word).named("mine").last())?;
                host.raise("Middle", &[Arg::Word(1)])?;
                host.unbind("Middle", "mine")?;
            }
            Ok(())
        })
    };
    let threads: Vec<_> = seats.into_iter().map(work).collect();
    threads.into_iter().try_for_each(|thread| thread.join().unwrap())?;
    assert_eq!(first.raise("Middle", &[Arg::Word(1)])?.answer, Answer::NoHandler);
    first.renew()
}
