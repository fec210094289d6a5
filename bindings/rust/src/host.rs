//! Handlers and guards that are closures, over the open raises of the library: it says which run, in which order and on
//! which arguments, and what a raise answers; this module calls them. Of it nothing is proved.

use crate::bind::{Bind, Call, Function, Gift, Given, Outcome, Value};
use crate::calls::{SpinArg, SpinStep};
use crate::command::{Command, Op};
use crate::fault::Fault;
use crate::lane::{Arg, Hub, Lane, lay};
use crate::opened::{Raising, SpinGift};
use crate::reply::{Answer, Reply, Step};
use crate::script::{Script, Which};
use std::collections::HashMap;
use std::panic::{AssertUnwindSafe, catch_unwind, resume_unwind};
use std::thread;

/// A firing that is due: its event, the number of its binding, 0 being the default, and how it runs: 0 plainly, 1 as a
/// filter, 2 apart.
#[derive(Clone, Copy, Debug, PartialEq, Eq)]
pub struct Firing {
    /// The event.
    pub event: u8,
    /// The number of the binding.
    pub number: u16,
    /// The number of its handler.
    pub handler: u16,
    /// How it runs.
    pub mode: u32,
}

/// What stands for a default or a binding: the event of a default, or the number of a binding.
#[derive(Clone, Copy, Debug, PartialEq, Eq)]
enum Key {
    Default(u8),
    Binding(u16),
}

impl Key {
    fn of(event: u8, number: u16) -> Key {
        if number == 0 { Key::Default(event) } else { Key::Binding(number) }
    }
}

/// The closures that stand for bindings and for defaults, by their numbers.
#[derive(Default)]
struct Functions {
    bindings: Vec<Option<Function>>,
    defaults: Vec<Option<Function>>,
}

impl Functions {
    fn take(&mut self, key: Key) -> Option<Function> {
        match key {
            Key::Binding(number) => self.bindings.get_mut(usize::from(number)),
            Key::Default(event) => self.defaults.get_mut(usize::from(event)),
        }
        .and_then(Option::take)
    }

    fn put(&mut self, key: Key, function: Option<Function>) {
        let (list, at) = match key {
            Key::Binding(number) => (&mut self.bindings, usize::from(number)),
            Key::Default(event) => (&mut self.defaults, usize::from(event)),
        };
        if at >= list.len() {
            list.resize_with(at + 1, || None);
        }
        list[at] = function;
    }
}

/// What is known of the arguments of a raise: that they are as they were raised, or a copy; or nothing.
#[derive(Clone, Copy, Debug, PartialEq, Eq)]
enum Seen {
    Raised,
    Copied,
    No,
}

/// A raise under way: its arguments as they were raised, and as they are known to stand, if they are; how many raises
/// upwards of acts are open in it; and whether a filter ran.
struct Level {
    raised: Vec<Value>,
    copied: Vec<Value>,
    seen: Seen,
    ups: usize,
    is_changed: bool,
}

impl Level {
    /// The arguments that are known.
    fn args(&mut self) -> &mut Vec<Value> {
        if self.seen == Seen::Raised { &mut self.raised } else { &mut self.copied }
    }
}

/// Lists that raises have left, which are taken for the room that they have.
#[derive(Default)]
struct Room {
    bytes: Vec<u8>,
    laid: Vec<SpinArg>,
    raised: Vec<Value>,
    gift: Vec<Gift>,
    packed: Vec<SpinGift>,
}

/// What a closure said, and what it gave.
type Ran = (Result<Outcome, Fault>, Vec<Gift>);

/// Who is told each step of raises.
type Watch = Box<dyn FnMut(&Step) + Send>;

/// A seat whose bindings may be closures. A closure that panics abandons the raise, and the panic goes on to who
/// raised.
///
/// ```
/// use codzvregi::{Answer, Arg, Bind, Host, Script};
///
/// let mut host = Host::open(&Script::new().event("Udp.PacketArrived", "bw:w"), 1)?;
/// let length = Bind::new(|call| call.bytes(0).len() as u64).guard(|call| call.word(1) == 53).first();
/// host.bind("Udp.PacketArrived", length)?;
/// let reply = host.raise("Udp.PacketArrived", &[Arg::Bytes(b"name"), Arg::Word(53)])?;
/// assert_eq!(reply.answer, Answer::Value(4));
/// # Ok::<(), codzvregi::Fault>(())
/// ```
pub struct Host {
    // it goes before the lane, so that no raise is open where that is closed
    raising: Raising,
    lane: Lane,
    script: Script,
    functions: Functions,
    waiting: Vec<(Key, Option<Function>)>,
    names: HashMap<String, u16>,
    left: Vec<(Firing, Function, Vec<Value>)>,
    watch: Option<Watch>,
    depth: usize,
    room: Room,
}

impl Host {
    /// The opener of a hub of 1 to 8 lanes over the script.
    pub fn open(script: &Script, lanes: u8) -> Result<Host, Fault> {
        Ok(Host::on(Hub::open(script.text().as_bytes(), lanes)?.into_first(), script.clone()))
    }

    /// A host on a seat of a hub over a script of the host's own, of which no name is known.
    pub fn over(lane: Lane) -> Host {
        Host::on(lane, Script::new())
    }

    fn on(lane: Lane, script: Script) -> Host {
        let (functions, waiting, names, room) = Default::default();
        Host {
            raising: Raising::closed(),
            lane,
            script,
            functions,
            waiting,
            names,
            left: Vec::new(),
            watch: None,
            depth: 0,
            room,
        }
    }

    /// The seat of another lane, as [`Lane::seat`] hands it out. It has closures of its own: what another seat bound
    /// does its declared act here.
    pub fn seat(&mut self, lane: u8) -> Result<Host, Fault> {
        Ok(Host::on(self.lane.seat(lane)?, self.script.clone()))
    }

    /// Its seat, for all else that a seat does. Its renewal numbers bindings anew, so [`Host::renew`] is called
    /// instead.
    pub fn lane(&mut self) -> &mut Lane {
        &mut self.lane
    }

    /// Renews the hub, as [`Lane::renew`], and gives the closures the numbers that their bindings have now.
    pub fn renew(&mut self) -> Result<(), Fault> {
        self.lane.renew()?;
        let before = (1..).map_while(|number| self.lane.number_before(number).ok());
        let now: HashMap<u16, u16> = before.zip(1..).map(|(old, number)| (old as u16, number)).collect();
        let mut old = std::mem::take(&mut self.functions.bindings);
        for (before, number) in &now {
            let function = old.get_mut(usize::from(*before)).and_then(Option::take);
            self.functions.put(Key::Binding(*number), function);
        }
        self.names.retain(|_, number| now.contains_key(number));
        self.names.values_mut().for_each(|number| *number = now[number]);
        Ok(())
    }

    /// Has this closure told each step of raises: what acts and closures give and send, and what is raised upwards.
    pub fn watch(&mut self, watch: impl FnMut(&Step) + Send + 'static) {
        self.watch = Some(Box::new(watch));
    }

    /// The number of the binding of this name.
    pub fn binding<'a>(&self, which: impl Into<Which<'a>>) -> Result<u16, Fault> {
        match which.into() {
            Which::Numbered(number) => Ok(number),
            Which::Named(name) => {
                self.names.get(name).copied().ok_or_else(|| Fault::NoName(format!("binding {name}")))
            }
        }
    }

    /// Does a command on an event that a module asks for.
    fn command(&mut self, event: u16, module: u16, op: Op) -> Result<u32, Fault> {
        let narrow = |number: u16| u8::try_from(number).map_err(|_| Fault::Wide);
        self.lane.command(&Command { event: narrow(event)?, requester: narrow(module)?, op })
    }

    /// Enters what stands for a binding or a default: at once, or where a raise is under way at its end.
    fn enter(&mut self, key: Key, function: Option<Function>) {
        if self.depth > 0 {
            self.waiting.push((key, function));
        } else {
            self.functions.put(key, function);
        }
    }

    /// Binds a closure to an event, and answers the binding's number. [`Fault::Refused`] says why it isn't bound.
    pub fn bind<'a>(&mut self, event: impl Into<Which<'a>>, bind: Bind) -> Result<u16, Fault> {
        let event = self.script.event_number(event.into())?;
        let (install, module) = bind.install(&self.script, event, |name| self.binding(name))?;
        let number = self.command(event, module, Op::Install(install))? as u16;
        let (name, function) = bind.into_parts();
        self.names.extend(name.map(|name| (name, number)));
        self.enter(Key::Binding(number), function);
        Ok(number)
    }

    /// Removes a binding, by its number or name, for module 0. A raise under way still calls its closure.
    pub fn unbind<'a, 'b>(
        &mut self,
        event: impl Into<Which<'a>>,
        which: impl Into<Which<'b>>,
    ) -> Result<u32, Fault> {
        self.unbind_by(event, which, 0)
    }

    /// Removes a binding for a module.
    pub fn unbind_by<'a, 'b, 'c>(
        &mut self,
        event: impl Into<Which<'a>>,
        which: impl Into<Which<'b>>,
        module: impl Into<Which<'c>>,
    ) -> Result<u32, Fault> {
        let (event, number) = (self.script.event_number(event.into())?, self.binding(which)?);
        let module = self.script.module_number(module.into())?;
        let place = self.command(event, module, Op::Remove(number))?;
        self.names.retain(|_, other| *other != number);
        self.enter(Key::Binding(number), None);
        Ok(place)
    }

    /// Gives a binding another handler, guard and closure. A raise under way still calls the one before.
    pub fn rebind<'a, 'b>(
        &mut self,
        event: impl Into<Which<'a>>,
        which: impl Into<Which<'b>>,
        bind: Bind,
    ) -> Result<u32, Fault> {
        let (event, target) = (self.script.event_number(event.into())?, self.binding(which)?);
        let (handler, guard, module) = bind.units(&self.script, event)?;
        let place = self.command(event, module, Op::Replace { target, handler, guard })?;
        self.enter(Key::Binding(target), bind.into_parts().1);
        Ok(place)
    }

    /// Sets the event's default; or takes it away, where there is none.
    pub fn bind_default<'a>(&mut self, event: impl Into<Which<'a>>, bind: Option<Bind>) -> Result<u32, Fault> {
        let event = self.script.event_number(event.into())?;
        let (op, module, function) = match bind {
            None => (Op::NoDefault, 0, None),
            Some(bind) => {
                let (handler, _, module) = bind.units(&self.script, event)?;
                (Op::Default(handler), module, bind.into_parts().1)
            }
        };
        let place = self.command(event, module, op)?;
        self.enter(Key::Default(event as u8), function);
        Ok(place)
    }

    /// Raises an event on these arguments, and calls what is bound. What is raised by a closure's [`Call::raise`] is
    /// raised within. Why it is abandoned is told by a fault, or goes on as a panic.
    pub fn raise<'a>(&mut self, event: impl Into<Which<'a>>, args: &[Arg<'_>]) -> Result<Reply, Fault> {
        let event = u8::try_from(self.script.event_number(event.into())?).map_err(|_| Fault::Wide)?;
        let Room { bytes, laid, .. } = &mut self.room;
        lay(args, bytes, laid);
        let begun = match self.depth {
            0 => self.raising.begin(&mut self.lane.held, event, bytes, laid),
            _ => self.raising.within(event, bytes, laid),
        };
        let place = match begun {
            Ok(answer) => answer.place,
            Err(Fault::NotRaised { place, kind }) => {
                let answer = if kind == 5 { Answer::UnknownEvent } else { Answer::WrongArguments };
                return Ok(Reply { place, answer, steps: 0 });
            }
            Err(fault) => return Err(fault),
        };
        let mut raised = std::mem::take(&mut self.room.raised);
        raised.extend(args.iter().map(Value::of));
        let mut level = Level { raised, copied: Vec::new(), seen: Seen::Raised, ups: 0, is_changed: false };
        self.depth += 1;
        let ended = self.go_through(&mut level);
        self.depth -= 1;
        if ended.is_err() {
            self.raising.abandon();
        }
        self.settle();
        level.raised.clear();
        self.room.raised = level.raised;
        Ok(Reply { place, answer: ended?, steps: 0 })
    }

    /// Where no raise is under way any more, what waits is entered.
    fn settle(&mut self) {
        if self.depth == 0 {
            for (key, function) in std::mem::take(&mut self.waiting) {
                self.enter(key, function);
            }
        }
    }

    /// Goes through the firings of a raise that was begun, to its end.
    fn go_through(&mut self, level: &mut Level) -> Result<Answer, Fault> {
        loop {
            let step = self.raising.next()?;
            match step.kind {
                1 => self.answer(level, &step)?,
                8 => return Answer::of(step.answer, step.value),
                9 => return Err(Fault::Spent),
                _ => self.turn(level, step)?,
            }
        }
    }

    /// A raise upwards that an act asked for begins, or ends: its arguments are others.
    fn turn(&mut self, level: &mut Level, step: SpinStep) -> Result<(), Fault> {
        level.ups = if step.kind == 4 { level.ups + 1 } else { level.ups - 1 };
        level.seen = if level.ups == 0 && !level.is_changed { Seen::Raised } else { Seen::No };
        self.tell(step, Vec::new())
    }

    fn tell(&mut self, step: SpinStep, bytes: Vec<u8>) -> Result<(), Fault> {
        if let Some(watch) = &mut self.watch {
            watch(&Step::of(step, bytes)?);
        }
        Ok(())
    }

    /// Sees to it that the arguments of the firing are known.
    fn see(&mut self, level: &mut Level) -> Result<(), Fault> {
        if level.seen != Seen::No {
            return Ok(());
        }
        level.copied.clear();
        loop {
            match self.raising.argument(level.copied.len() as u64) {
                Ok(Ok(word)) => level.copied.push(Value::Word(word)),
                Ok(Err(bytes)) => level.copied.push(Value::Bytes(bytes)),
                Err(Fault::Unknown(12)) => break,
                Err(fault) => return Err(fault),
            }
        }
        level.seen = Seen::Copied;
        Ok(())
    }

    /// Answers the firing that is due, by what stands for it, or else its act.
    fn answer(&mut self, level: &mut Level, due: &SpinStep) -> Result<(), Fault> {
        let (event, number) = (due.event as u8, due.number as u16);
        let firing = Firing { event, number, handler: due.value as u16, mode: due.answer };
        let key = Key::of(event, number);
        // it is put back afterwards: no raise within tells the same binding, and changes wait for the end
        let Some(mut function) = self.functions.take(key) else {
            return self.act(level, &firing);
        };
        let ran = match self.see(level) {
            Ok(()) => self.call(level, firing, &mut function),
            Err(fault) => Ok((Err(fault), Vec::new())),
        };
        let told = match &ran {
            Ok((Ok(Outcome::Handled), _)) if firing.mode == 2 => {
                self.left.push((firing, function.shared(), level.args().clone()));
                self.hand_in(level, &firing, &[])
            }
            // to have a handler without steps done is to give nothing
            Ok((Ok(Outcome::Handled), gift)) if gift.is_empty() && firing.mode == 0 && self.is_own(&firing) => {
                self.act(level, &firing)
            }
            Ok((Ok(Outcome::Handled), gift)) => self.hand_in(level, &firing, gift),
            Ok((Ok(Outcome::Pass), _)) => self.raising.declined(),
            Ok((Ok(Outcome::AsDeclared), _)) => self.act(level, &firing),
            Ok((Err(fault), _)) => Err(fault.clone()),
            Err(_) => Ok(()),
        };
        self.functions.put(key, Some(function));
        match ran {
            Ok((_, mut gift)) => {
                gift.clear();
                self.room.gift = gift;
                told
            }
            Err(panic) => {
                self.raising.abandon();
                self.depth -= 1;
                self.settle();
                resume_unwind(panic)
            }
        }
    }

    /// Whether the handler of a firing is the one without steps of its event.
    fn is_own(&self, firing: &Firing) -> bool {
        firing.handler == self.script.own_handler(u16::from(firing.event))
    }

    /// Calls what stands for a firing whose arguments are known, and answers what it said and gave, or its panic.
    fn call(&mut self, level: &mut Level, firing: Firing, function: &mut Function) -> thread::Result<Ran> {
        let gift = std::mem::take(&mut self.room.gift);
        let mut call = Call::new(self, firing, std::mem::take(level.args()), gift);
        let ran = catch_unwind(AssertUnwindSafe(|| function.run(&mut call)));
        let (gift, args) = call.into_parts();
        *level.args() = args;
        ran.map(|outcome| (outcome, gift))
    }

    /// Behind a filter the arguments may be others than those that are known; and what was given is told.
    fn after(&mut self, level: &mut Level, is_filter: bool, steps: u64) -> Result<(), Fault> {
        if is_filter {
            level.seen = Seen::No;
            level.is_changed |= level.ups == 0;
        }
        if self.watch.is_some() {
            for index in 0..steps {
                let (step, bytes) = self.raising.given(index)?;
                // a raise upwards is told when it begins
                if step.kind != 4 {
                    self.tell(step, bytes)?;
                }
            }
        }
        Ok(())
    }

    /// Has the declared act done.
    fn act(&mut self, level: &mut Level, firing: &Firing) -> Result<(), Fault> {
        let steps = self.raising.act()?.steps;
        self.after(level, firing.mode == 1, steps)
    }

    /// Hands in what a closure gave.
    fn hand_in(&mut self, level: &mut Level, firing: &Firing, gift: &[Gift]) -> Result<(), Fault> {
        let Room { bytes, packed, .. } = &mut self.room;
        bytes.clear();
        packed.clear();
        packed.extend(gift.iter().map(|gift| gift.pack(bytes)));
        let steps = self.raising.gave(bytes, packed)?.steps;
        self.after(level, firing.mode == 1 && !gift.is_empty(), steps)
    }

    /// The number of an endpoint.
    pub(crate) fn endpoint(&self, which: Which<'_>) -> Result<u8, Fault> {
        u8::try_from(self.script.endpoint_number(which)?).map_err(|_| Fault::Wide)
    }

    /// Runs the closures that were left to jobs, in order, with those that are left meanwhile, and answers how many.
    /// What a job raises is a raise of its own, and what it gives besides is let go of.
    pub fn run_jobs(&mut self) -> Result<usize, Fault> {
        let mut ran = 0;
        while self.depth == 0 && !self.left.is_empty() {
            let (firing, mut function, args) = self.left.remove(0);
            function.run_job(&mut Call::new(self, firing, args, Vec::new()))?;
            ran += 1;
        }
        Ok(ran)
    }
}

/// What a closure answers, as an outcome with what it gives.
pub(crate) fn taken<R: Given>(told: R, call: &mut Call<'_>) -> Result<Outcome, Fault> {
    told.give(call)
}
