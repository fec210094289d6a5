//! What a raise comes to.

use crate::calls::{SpinAnswer, SpinStep};
use crate::fault::Fault;

/// What a raise is answered.
#[derive(Clone, Copy, Debug, PartialEq, Eq)]
pub enum Answer {
    /// No binding ran, and the event has no default.
    NoHandler,
    /// Bindings ran, and none gave a result that is merged.
    Done,
    /// Bindings ran, and their results merged to this one.
    Value(u64),
    /// No binding ran, and the event's default did. This is its result, if it gave one.
    Default(Option<u64>),
    /// There is no event of that number.
    UnknownEvent,
    /// The arguments don't fit the event.
    WrongArguments,
    /// More than 4096 handlers would start, and nothing was done.
    TooManyHandlers,
    /// The raise is left to a job, the one job of its reply.
    Queued,
}

/// The reply to a raise.
#[derive(Clone, Copy, Debug, PartialEq, Eq)]
pub struct Reply {
    /// How many commands were accepted before it.
    pub place: u32,
    /// What it is answered.
    pub answer: Answer,
    /// The number of its steps.
    pub steps: u64,
}

/// A job that was done.
#[derive(Clone, Debug, PartialEq, Eq)]
pub struct Job {
    /// Its own reply, at the place of the one that left it.
    pub reply: Reply,
    /// The steps of that.
    pub steps: Vec<Step>,
}

/// A step of a raise with its raises upwards.
#[derive(Clone, Debug, PartialEq, Eq)]
pub enum Step {
    /// The handler of a binding runs, 0 being the event's default. The steps of its act follow.
    Run {
        /// The event that is raised.
        event: u8,
        /// The number of the binding.
        number: u16,
    },
    /// The act gives this result. The last one is the act's.
    Result(u64),
    /// The act sends bytes.
    Send {
        /// The number of the endpoint.
        endpoint: u8,
        /// What is sent.
        bytes: Vec<u8>,
    },
    /// A raise upwards of this event begins. Its own steps follow.
    Up(u8),
    /// The last raise upwards that began and hasn't ended ends with this answer.
    Back(Answer),
    /// The act drops a packet: the number of the fault of its headers, from 1.
    Dropped(u32),
    /// The handler of a binding is left to a job.
    Job {
        /// The event that is raised.
        event: u8,
        /// The number of the binding.
        number: u16,
    },
}

impl Answer {
    /// The answer of this kind.
    pub(crate) fn of(kind: u32, value: u64) -> Result<Answer, Fault> {
        Ok(match kind {
            0 => Answer::NoHandler,
            1 => Answer::Done,
            2 => Answer::Value(value),
            3 => Answer::Default(Some(value)),
            4 => Answer::Default(None),
            5 => Answer::UnknownEvent,
            6 => Answer::WrongArguments,
            7 => Answer::TooManyHandlers,
            8 => Answer::Queued,
            other => return Err(Fault::Unknown(other)),
        })
    }
}

impl Reply {
    /// The reply that an answer tells.
    pub(crate) fn of(told: SpinAnswer) -> Result<Reply, Fault> {
        let SpinAnswer { place, kind, value, steps } = told;
        Ok(Reply { place, answer: Answer::of(kind, value)?, steps })
    }
}

impl Step {
    /// The step that is told so, where these are the bytes that it sends.
    pub(crate) fn of(told: SpinStep, bytes: Vec<u8>) -> Result<Step, Fault> {
        let (event, number) = (told.event as u8, told.number as u16);
        Ok(match told.kind {
            1 => Step::Run { event, number },
            2 => Step::Result(told.value),
            3 => Step::Send { endpoint: told.number as u8, bytes },
            4 => Step::Up(event),
            5 => Step::Back(Answer::of(told.answer, told.value)?),
            6 => Step::Dropped(told.number),
            7 => Step::Job { event, number },
            other => return Err(Fault::Unknown(other)),
        })
    }
}
