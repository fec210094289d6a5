//! Commands, by which bindings change, and why they are refused.

use std::fmt::{self, Display, Formatter};

/// Where a binding goes.
#[derive(Clone, Copy, Debug, Default, PartialEq, Eq)]
pub enum Place {
    /// Anywhere.
    #[default]
    Free,
    /// Before each binding that isn't first too.
    First,
    /// After each binding that isn't last too.
    Last,
}

/// How a binding's handler runs.
#[derive(Clone, Copy, Debug, Default, PartialEq, Eq)]
pub enum Mode {
    /// During the raise.
    #[default]
    Plain,
    /// During the raise; it may change the arguments for the handlers after it.
    Filter,
    /// Later, as a job of its own.
    Async,
}

/// Up to four bindings, and how many were named.
#[derive(Clone, Copy, Debug, PartialEq, Eq)]
struct Named {
    numbers: [u16; 4],
    count: usize,
}

/// What stands where no binding is named.
const NONE: u16 = u16::MAX;

impl Named {
    const NONE: Named = Named { numbers: [NONE; 4], count: 0 };

    /// These and one more.
    fn and(mut self, number: u16) -> Named {
        // one that has no room is counted, and then there is no row
        let has_room = number != NONE && self.count < 4;
        if has_room {
            self.numbers[self.count] = number;
        }
        self.count = if has_room { self.count + 1 } else { 5 };
        self
    }

    /// Those that such a word names.
    fn of(word: u64) -> Named {
        let numbers = [0, 16, 32, 48].map(|bit| (word >> bit) as u16);
        numbers.into_iter().filter(|number| *number != NONE).fold(Named::NONE, Named::and)
    }

    /// The word of their numbers, where there are at most four.
    fn word(mut self) -> Option<u64> {
        self.numbers.sort_unstable();
        let word = self.numbers.iter().rev().fold(0, |word, number| word << 16 | u64::from(*number));
        (self.count <= 4).then_some(word)
    }
}

/// A binding that is added: its handler, and how it is bound.
///
/// ```
/// use codzvregi::{Install, Mode, Place};
///
/// let filter = Install::new(1).guard(2).place(Place::First).mode(Mode::Filter);
/// let behind_two = Install::new(3).after(1).after(2);
/// # let _ = (filter, behind_two);
/// ```
#[derive(Clone, Copy, Debug, PartialEq, Eq)]
pub struct Install {
    handler: u16,
    guard: u16,
    place: Place,
    mode: Mode,
    before: Named,
    after: Named,
}

impl Install {
    /// A binding of the handler of this number, without a guard, anywhere, which runs during the raise.
    pub fn new(handler: u16) -> Install {
        let (place, mode) = Default::default();
        Install { handler, guard: 0, place, mode, before: Named::NONE, after: Named::NONE }
    }

    /// With the guard of this number.
    pub fn guard(self, guard: u16) -> Install {
        Install { guard, ..self }
    }

    /// At this place.
    pub fn place(self, place: Place) -> Install {
        Install { place, ..self }
    }

    /// In this mode.
    pub fn mode(self, mode: Mode) -> Install {
        Install { mode, ..self }
    }

    /// Before this binding, besides those that were named; four at most.
    pub fn before(self, binding: u16) -> Install {
        Install { before: self.before.and(binding), ..self }
    }

    /// After this binding, besides those that were named; four at most.
    pub fn after(self, binding: u16) -> Install {
        Install { after: self.after.and(binding), ..self }
    }
}

/// What a command does.
#[derive(Clone, Copy, Debug, PartialEq, Eq)]
pub enum Op {
    /// Adds a binding.
    Install(Install),
    /// Takes this binding out.
    Remove(u16),
    /// Gives a binding another handler and guard.
    Replace {
        /// The number of the binding.
        target: u16,
        /// The number of its new handler.
        handler: u16,
        /// The number of its new guard; 0 is none.
        guard: u16,
    },
    /// Makes the handler of this number the event's default.
    Default(u16),
    /// Leaves the event without a default.
    NoDefault,
}

impl Op {
    /// The command that does this to the bindings of an event, which module 0 asks for.
    pub fn on(self, event: u8) -> Command {
        Command { event, requester: 0, op: self }
    }
}

/// A command that module `requester` asks for.
#[derive(Clone, Copy, Debug, PartialEq, Eq)]
pub struct Command {
    /// The event whose bindings are changed, below 64.
    pub event: u8,
    /// The module that asks for it.
    pub requester: u8,
    /// What it does.
    pub op: Op,
}

impl Command {
    /// The same, which this module asks for.
    pub fn by(self, requester: u8) -> Command {
        Command { requester, ..self }
    }

    /// The row that stands for it, without its lane; `None` where a number has no room in it.
    pub(crate) fn row(&self) -> Option<[u64; 4]> {
        let plain = Install::new(0);
        let (op, target, install) = match self.op {
            Op::Install(install) => (1, 0, install),
            Op::Remove(target) => (2, target, plain),
            Op::Replace { target, handler, guard } => (3, target, Install { handler, guard, ..plain }),
            Op::Default(handler) => (4, 0, Install { handler, ..plain }),
            Op::NoDefault => (5, 0, plain),
        };
        if self.event >= 64 || install.handler >= 1024 || install.guard >= 1024 || target >= 8192 {
            return None;
        }
        let first = install.mode as u64
            | (install.place as u64) << 2
            | u64::from(install.guard) << 15
            | u64::from(install.handler) << 25
            | u64::from(self.requester) << 35
            | u64::from(self.event) << 43
            | op << 53;
        Some([first, u64::from(target), install.before.word()?, install.after.word()?])
    }
}

/// Why a command is refused.
#[derive(Clone, Copy, Debug, PartialEq, Eq)]
#[non_exhaustive]
pub enum Reason {
    /// There is no such event.
    UnknownEvent,
    /// There is no such module.
    UnknownModule,
    /// There is no such handler.
    UnknownHandler,
    /// There is no such guard.
    UnknownGuard,
    /// The event has no such binding.
    UnknownBinding,
    /// The handler or the guard doesn't take what the event has.
    WrongType,
    /// The handler raises an event that isn't greater.
    Downward,
    /// The handler can't run so.
    WrongMode,
    /// A rule of the event denies it.
    Denied,
    /// The event has as many bindings as it may.
    TooMany,
    /// The orders that are asked for go round in a cycle.
    Conflict,
    /// A rule of the event forces a mode in which the handler can't run.
    ForcedMode,
    /// The library told a number that this crate doesn't know.
    Unknown(u32),
}

/// The reasons from 1 on, with the names that reports have.
const REASONS: [(Reason, &str); 12] = [
    (Reason::UnknownEvent, "unknown_event"),
    (Reason::UnknownModule, "unknown_module"),
    (Reason::UnknownHandler, "unknown_handler"),
    (Reason::UnknownGuard, "unknown_guard"),
    (Reason::UnknownBinding, "unknown_binding"),
    (Reason::WrongType, "wrong_type"),
    (Reason::Downward, "downward"),
    (Reason::WrongMode, "wrong_mode"),
    (Reason::Denied, "denied"),
    (Reason::TooMany, "too_many"),
    (Reason::Conflict, "conflict"),
    (Reason::ForcedMode, "forced_mode"),
];

impl Reason {
    /// The reason of this number.
    pub(crate) fn of(number: u32) -> Reason {
        let named = (number as usize).checked_sub(1).and_then(|at| REASONS.get(at));
        named.map_or(Reason::Unknown(number), |(reason, _)| *reason)
    }

    /// Its number and name, as reports have them.
    fn told(self) -> (u32, &'static str) {
        let named = REASONS.iter().zip(1..).find(|((reason, _), _)| *reason == self);
        match (self, named) {
            (_, Some(((_, name), number))) => (number, name),
            (Reason::Unknown(number), None) => (number, "unknown"),
            _ => unreachable!("each other reason has a name"),
        }
    }
}

impl Display for Reason {
    fn fmt(&self, out: &mut Formatter<'_>) -> fmt::Result {
        out.write_str(self.told().1)
    }
}

/// That a command is refused, and changes nothing.
#[derive(Clone, Debug, PartialEq, Eq)]
#[non_exhaustive]
pub struct Refusal {
    /// Why.
    pub reason: Reason,
    /// How many commands were accepted before it.
    pub place: u32,
    /// The number of the rule by which it is denied, or its mode is forced; 0 where no rule allows it.
    pub rule: Option<u64>,
    /// The bindings of the cycle of a conflict, the least first. The one that would be installed has the number that it
    /// would get.
    pub cycle: Vec<u64>,
}

impl Refusal {
    /// A refusal whose cycle isn't known yet.
    pub(crate) fn of(kind: u32, place: u32, rule: u64) -> Refusal {
        let reason = Reason::of(kind);
        let has_rule = matches!(reason, Reason::Denied | Reason::ForcedMode);
        Refusal { reason, place, rule: has_rule.then_some(rule), cycle: Vec::new() }
    }
}

impl Display for Refusal {
    fn fmt(&self, out: &mut Formatter<'_>) -> fmt::Result {
        let (number, name) = self.reason.told();
        write!(out, "refused {number} {name}")?;
        for more in self.rule.iter().chain(&self.cycle) {
            write!(out, " {more}")?;
        }
        write!(out, " at {}", self.place)
    }
}

/// A row of the log of a hub that was ended.
#[derive(Clone, Copy, Debug, PartialEq, Eq)]
pub struct Row {
    /// The lane that gave the command.
    pub lane: u8,
    /// The command.
    pub command: Command,
}

impl Row {
    /// The row that these four words are; `None` where they stand for no command.
    pub(crate) fn of(words: [u64; 4]) -> Option<Row> {
        let [first, target, before, after] = words;
        let field = |bit: u32, width: u32| (first >> bit & ((1 << width) - 1)) as u16;
        let (handler, guard, target) = (field(25, 10), field(15, 10), target as u16);
        let install = Install {
            handler,
            guard,
            place: [Place::Free, Place::First, Place::Last].get(usize::from(field(2, 3))).copied()?,
            mode: [Mode::Plain, Mode::Filter, Mode::Async].get(usize::from(field(0, 2))).copied()?,
            before: Named::of(before),
            after: Named::of(after),
        };
        let op = match field(53, 3) {
            1 => Op::Install(install),
            2 => Op::Remove(target),
            3 => Op::Replace { target, handler, guard },
            4 => Op::Default(handler),
            5 => Op::NoDefault,
            _ => return None,
        };
        let command = Command { event: field(43, 6) as u8, requester: field(35, 8) as u8, op };
        Some(Row { lane: field(49, 4) as u8, command })
    }
}
