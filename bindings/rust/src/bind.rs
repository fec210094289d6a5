//! How closures are bound, and what they are handed and give.

use crate::command::{Install, Mode, Place};
use crate::fault::Fault;
use crate::host::{Firing, Host, taken};
use crate::lane::Arg;
use crate::opened::SpinGift;
use crate::reply::Reply;
use crate::script::{Script, Which};
use std::sync::{Arc, Mutex, PoisonError};

/// An argument, as a closure is handed it.
#[derive(Clone, Debug, PartialEq, Eq)]
pub(crate) enum Value {
    Word(u64),
    Bytes(Vec<u8>),
}

impl Value {
    pub(crate) fn of(arg: &Arg<'_>) -> Value {
        match *arg {
            Arg::Word(word) => Value::Word(word),
            Arg::Bytes(bytes) => Value::Bytes(bytes.to_vec()),
        }
    }
}

/// A thing that a closure gives.
pub(crate) struct Gift {
    kind: u64,
    index: u64,
    to: Value,
}

impl Gift {
    /// As the library has it, with its bytes behind these.
    pub(crate) fn pack(&self, bytes: &mut Vec<u8>) -> SpinGift {
        let (at, length) = match &self.to {
            Value::Word(word) => (*word, 0),
            Value::Bytes(more) => {
                bytes.extend_from_slice(more);
                ((bytes.len() - more.len()) as u64, more.len() as u64)
            }
        };
        SpinGift { kind: self.kind, index: self.index, at, length }
    }
}

/// What a closure says of a firing.
#[derive(Clone, Copy, Debug, PartialEq, Eq)]
pub enum Outcome {
    /// It ran, and what it gave is taken.
    Handled,
    /// It is as if its guard hadn't held.
    Pass,
    /// The handler's act is done as the script declares it.
    AsDeclared,
}

/// What a closure may answer: nothing, a result, which may be missing, an [`Outcome`], or one of them or a fault, which
/// abandons the raise.
pub trait Given {
    /// Gives it.
    fn give(self, call: &mut Call<'_>) -> Result<Outcome, Fault>;
}

impl Given for () {
    fn give(self, _: &mut Call<'_>) -> Result<Outcome, Fault> {
        Ok(Outcome::Handled)
    }
}

impl Given for u64 {
    fn give(self, call: &mut Call<'_>) -> Result<Outcome, Fault> {
        call.result(self);
        Ok(Outcome::Handled)
    }
}

impl Given for Option<u64> {
    fn give(self, call: &mut Call<'_>) -> Result<Outcome, Fault> {
        self.into_iter().for_each(|word| call.result(word));
        Ok(Outcome::Handled)
    }
}

impl Given for Outcome {
    fn give(self, _: &mut Call<'_>) -> Result<Outcome, Fault> {
        Ok(self)
    }
}

impl<G: Given> Given for Result<G, Fault> {
    fn give(self, call: &mut Call<'_>) -> Result<Outcome, Fault> {
        self?.give(call)
    }
}

/// A firing, as a closure is handed it.
pub struct Call<'a> {
    host: &'a mut Host,
    firing: Firing,
    args: Vec<Value>,
    gift: Vec<Gift>,
}

impl<'a> Call<'a> {
    /// One that puts what is given into a list without any.
    pub(crate) fn new(host: &'a mut Host, firing: Firing, args: Vec<Value>, gift: Vec<Gift>) -> Call<'a> {
        Call { host, firing, args, gift }
    }

    pub(crate) fn into_parts(self) -> (Vec<Gift>, Vec<Value>) {
        (self.gift, self.args)
    }

    /// The firing.
    pub fn firing(&self) -> Firing {
        self.firing
    }

    /// The host, on which it may bind and unbind: what it changes is seen by what is raised later.
    pub fn host(&mut self) -> &mut Host {
        self.host
    }

    /// The word that the argument of this index is, as the filters before have left it.
    ///
    /// # Panics
    ///
    /// Where there is no such argument, or it is bytes.
    pub fn word(&self, index: usize) -> u64 {
        match &self.args[index] {
            Value::Word(word) => *word,
            Value::Bytes(_) => panic!("argument {index} is bytes"),
        }
    }

    /// The bytes that it is.
    ///
    /// # Panics
    ///
    /// Where there is no such argument, or it is a word.
    pub fn bytes(&self, index: usize) -> &[u8] {
        match &self.args[index] {
            Value::Bytes(bytes) => bytes,
            Value::Word(_) => panic!("argument {index} is a word"),
        }
    }

    /// Gives a result. The last one counts, and that which the closure answers is the last.
    pub fn result(&mut self, word: u64) {
        self.gift.push(Gift { kind: 0, index: 0, to: Value::Word(word) });
    }

    /// Changes an argument for those behind, which only a filter may.
    pub fn change(&mut self, index: usize, to: Arg<'_>) {
        let kind = if matches!(to, Arg::Word(_)) { 1 } else { 2 };
        self.gift.push(Gift { kind, index: index as u64, to: Value::of(&to) });
    }

    /// Sends bytes to an endpoint: a step, which [`Host::watch`] is told.
    pub fn send<'b>(&mut self, endpoint: impl Into<Which<'b>>, bytes: &[u8]) -> Result<(), Fault> {
        let index = u64::from(self.host.endpoint(endpoint.into())?);
        self.gift.push(Gift { kind: 3, index, to: Value::Bytes(bytes.to_vec()) });
        Ok(())
    }

    /// Raises another event from within, on the bindings of the raise under way: one with a greater number, else it is
    /// [`Fault::Downward`], which changes nothing.
    pub fn raise<'b>(&mut self, event: impl Into<Which<'b>>, args: &[Arg<'_>]) -> Result<Reply, Fault> {
        self.host.raise(event, args)
    }
}

/// A handler, and a guard.
type Handler = Box<dyn FnMut(&mut Call<'_>) -> Result<Outcome, Fault> + Send>;
type Guard = Box<dyn FnMut(&Call<'_>) -> bool + Send>;

/// What stands for a binding. A job that is left has a share of it.
pub(crate) struct Function {
    handler: Option<Arc<Mutex<Handler>>>,
    guard: Option<Guard>,
}

impl Function {
    /// Asks the guard, and then, where it isn't left to a job, calls the handler.
    pub(crate) fn run(&mut self, call: &mut Call<'_>) -> Result<Outcome, Fault> {
        if self.guard.as_mut().is_some_and(|guard| !guard(call)) {
            return Ok(Outcome::Pass);
        }
        match &self.handler {
            None => Ok(Outcome::AsDeclared),
            Some(_) if call.firing.mode == 2 => Ok(Outcome::Handled),
            Some(_) => self.run_job(call),
        }
    }

    /// Calls the handler alone.
    pub(crate) fn run_job(&mut self, call: &mut Call<'_>) -> Result<Outcome, Fault> {
        match &self.handler {
            None => Ok(Outcome::Handled),
            Some(handler) => handler.lock().unwrap_or_else(PoisonError::into_inner)(call),
        }
    }

    /// A share of the handler.
    pub(crate) fn shared(&self) -> Function {
        Function { handler: self.handler.clone(), guard: None }
    }
}

/// A closure that is to be bound, and how.
///
/// ```
/// use codzvregi::{Arg, Bind};
///
/// let filter = Bind::new(|call| call.change(0, Arg::Word(7))).filter().first().named("seven");
/// let behind = Bind::new(|call| call.word(0)).guard(|call| call.word(0) > 3).after("seven");
/// let coded = Bind::coded("count").when("is_dns").by("net");
/// # let _ = (filter, behind, coded);
/// ```
pub struct Bind {
    function: Option<Handler>,
    guard: Option<Guard>,
    name: Option<String>,
    handler: Option<Named>,
    when: Option<Named>,
    module: Option<Named>,
    place: Place,
    mode: Mode,
    before: Vec<Named>,
    after: Vec<Named>,
}

/// A name that is kept, or a number.
enum Named {
    Name(String),
    Number(u16),
}

impl Named {
    fn of(which: Which<'_>) -> Named {
        match which {
            Which::Named(name) => Named::Name(name.into()),
            Which::Numbered(number) => Named::Number(number),
        }
    }

    fn which(&self) -> Which<'_> {
        match self {
            Named::Name(name) => Which::Named(name),
            Named::Number(number) => Which::Numbered(*number),
        }
    }
}

impl Bind {
    /// This closure, in the place of a handler's act.
    pub fn new<G: Given>(mut handler: impl FnMut(&mut Call<'_>) -> G + Send + 'static) -> Bind {
        Bind { function: Some(Box::new(move |call| taken(handler(call), call))), ..Bind::none() }
    }

    /// A handler of the script's, whose act is done.
    pub fn coded<'a>(handler: impl Into<Which<'a>>) -> Bind {
        Bind { handler: Some(Named::of(handler.into())), ..Bind::none() }
    }

    fn none() -> Bind {
        let (function, guard, name, handler, when, module) = Default::default();
        let (place, mode, before, after) = Default::default();
        Bind { function, guard, name, handler, when, module, place, mode, before, after }
    }

    /// With this closure as its guard, which is asked after the script's.
    pub fn guard(self, guard: impl FnMut(&Call<'_>) -> bool + Send + 'static) -> Bind {
        Bind { guard: Some(Box::new(guard)), ..self }
    }

    /// With this guard of the script's.
    pub fn when<'a>(self, guard: impl Into<Which<'a>>) -> Bind {
        Bind { when: Some(Named::of(guard.into())), ..self }
    }

    /// Bound to this handler of the script's, whose act a closure may have done as [`Outcome::AsDeclared`].
    pub fn handler<'a>(self, handler: impl Into<Which<'a>>) -> Bind {
        Bind { handler: Some(Named::of(handler.into())), ..self }
    }

    /// Asked for by this module.
    pub fn by<'a>(self, module: impl Into<Which<'a>>) -> Bind {
        Bind { module: Some(Named::of(module.into())), ..self }
    }

    /// With this name.
    pub fn named(self, name: &str) -> Bind {
        Bind { name: Some(name.into()), ..self }
    }

    /// Before each binding that isn't first too.
    pub fn first(self) -> Bind {
        Bind { place: Place::First, ..self }
    }

    /// After each binding that isn't last too.
    pub fn last(self) -> Bind {
        Bind { place: Place::Last, ..self }
    }

    /// As a filter, which may change arguments.
    pub fn filter(self) -> Bind {
        Bind { mode: Mode::Filter, ..self }
    }

    /// Apart: it is left to a job, for [`Host::run_jobs`].
    pub fn apart(self) -> Bind {
        Bind { mode: Mode::Async, ..self }
    }

    /// Before this binding, besides those that were named; four at most.
    pub fn before<'a>(mut self, binding: impl Into<Which<'a>>) -> Bind {
        self.before.push(Named::of(binding.into()));
        self
    }

    /// After this binding, besides those that were named; four at most.
    pub fn after<'a>(mut self, binding: impl Into<Which<'a>>) -> Bind {
        self.after.push(Named::of(binding.into()));
        self
    }

    /// The numbers of its handler, its guard and its module.
    pub(crate) fn units(&self, script: &Script, event: u16) -> Result<(u16, u16, u16), Fault> {
        let handler = match &self.handler {
            None => script.own_handler(event),
            Some(named) => script.handler_number(named.which())?,
        };
        let guard = self.when.as_ref().map_or(Ok(0), |named| script.guard_number(named.which()))?;
        let module = self.module.as_ref().map_or(Ok(0), |named| script.module_number(named.which()))?;
        Ok((handler, guard, module))
    }

    /// What is installed, and the module that asks for it.
    pub(crate) fn install<F>(&self, script: &Script, event: u16, binding: F) -> Result<(Install, u16), Fault>
    where
        F: Fn(Which<'_>) -> Result<u16, Fault>,
    {
        let (handler, guard, module) = self.units(script, event)?;
        let mut install = Install::new(handler).guard(guard).place(self.place).mode(self.mode);
        for named in &self.before {
            install = install.before(binding(named.which())?);
        }
        for named in &self.after {
            install = install.after(binding(named.which())?);
        }
        Ok((install, module))
    }

    /// Its name, and what stands for the binding, if a closure does.
    pub(crate) fn into_parts(self) -> (Option<String>, Option<Function>) {
        let handler = self.function.map(|handler| Arc::new(Mutex::new(handler)));
        let has_any = handler.is_some() || self.guard.is_some();
        (self.name, has_any.then_some(Function { handler, guard: self.guard }))
    }
}
