//! Why a call has no answer.

use crate::calls::{cause_text, fault_text};
use crate::command::Refusal;
use std::error::Error;
use std::fmt::{self, Display, Formatter};

/// Why a call has no answer.
#[derive(Clone, Debug, PartialEq, Eq)]
#[non_exhaustive]
pub enum Fault {
    /// There was no memory.
    NoMemory,
    /// The text is no script.
    BadScript {
        /// Its first bad line, counted from 1; 0 where the text is too large.
        line: u32,
        /// The number of the cause, whose sentence [`cause_text`](crate::cause_text) has.
        cause: u32,
    },
    /// A number of the command has no room in it, or more than four bindings are named.
    Wide,
    /// The command names a binding twice, or one that no log has.
    NoCommand,
    /// The log has as many commands as it holds; or with the binding that would be installed, and one by each other
    /// lane, 4,096 would be live, so that after a renewal nothing could be removed.
    Full,
    /// The command is refused.
    Refused(Refusal),
    /// No reply is kept: nothing was raised yet, or a command or a renewal was done since.
    NoReply,
    /// The reply has no step of that index.
    NoStep,
    /// The reply leaves no job of that index.
    NoJob,
    /// No hub has so many lanes, or the hub has no such lane; or this isn't its opener.
    NoLane,
    /// The seat of the lane is out, or another is, so that the hub is neither renewed nor ended.
    Taken,
    /// The last renewal numbered no such binding, or there was none.
    NoBinding,
    /// A seat that came home is still being given back: the hub may be asked again.
    Shared,
    /// The hub was ended.
    Ended,
    /// Nothing has that name.
    NoName(String),
    /// The raise was abandoned by what was raised within it.
    Abandoned,
    /// 4,096 handlers have started in the raise, and one more would: it was abandoned.
    Spent,
    /// The bytes are refused as a capture.
    BadCapture {
        /// The record, counted from 1; 0 where it is the header.
        record: u32,
        /// The number of the fault, whose sentence [`fault_text`](crate::fault_text) has.
        fault: u32,
    },
    /// The raise isn't opened, whose host answers its firings.
    NotRaised {
        /// The place of the bindings.
        place: u32,
        /// The number of why: 5 where there is no such event, 6 where the arguments don't fit it.
        kind: u32,
    },
    /// No firing waits for its answer.
    NotDue,
    /// Only a greater event is raised from within.
    Downward,
    /// What the host's own handler gave is refused, by the number of the fault: 1 it runs apart, 2 the event gives no
    /// result, 3 it is no filter, 4 no such argument, 5 one of the other kind, 6 one that may not be changed.
    Gift(u32),
    /// The library answered a number that this crate doesn't know.
    Unknown(u32),
}

impl Display for Fault {
    fn fmt(&self, out: &mut Formatter<'_>) -> fmt::Result {
        match self {
            Fault::NoMemory => write!(out, "there was no memory"),
            Fault::BadScript { line: 0, .. } => write!(out, "the script is too large"),
            Fault::BadScript { line, cause } => {
                write!(out, "line {line} is bad: cause {cause}, {}", cause_text(*cause).unwrap_or_default())
            }
            Fault::Wide => write!(out, "a number has no room in its command"),
            Fault::NoCommand => write!(out, "that is no command"),
            Fault::Full => write!(out, "the log is full"),
            Fault::Refused(refusal) => write!(out, "{refusal}"),
            Fault::NoReply => write!(out, "no reply is kept"),
            Fault::NoStep => write!(out, "the reply has no such step"),
            Fault::NoLane => write!(out, "there is no such lane"),
            Fault::Taken => write!(out, "the seat is taken"),
            Fault::NoBinding => write!(out, "no such binding was renewed"),
            Fault::Shared => write!(out, "the hub is shared"),
            Fault::Ended => write!(out, "the hub was ended"),
            Fault::NoName(name) => write!(out, "there is no {name}"),
            Fault::Abandoned => write!(out, "the raise was abandoned"),
            Fault::Spent => write!(out, "no more handlers may start"),
            Fault::NoJob => write!(out, "the reply has no such job"),
            Fault::BadCapture { record, fault } => {
                write!(out, "record {record} is bad: fault {fault}, {}", fault_text(*fault).unwrap_or_default())
            }
            Fault::NotRaised { kind: 5, .. } => write!(out, "there is no such event"),
            Fault::NotRaised { .. } => write!(out, "the arguments aren't those of the event"),
            Fault::NotDue => write!(out, "no firing is due"),
            Fault::Downward => write!(out, "only a greater event is raised from within"),
            Fault::Gift(1) => write!(out, "what runs apart gives the raise nothing"),
            Fault::Gift(2) => write!(out, "the event gives no result"),
            Fault::Gift(3) => write!(out, "only a filter changes arguments"),
            Fault::Gift(4) => write!(out, "there is no argument of that number"),
            Fault::Gift(5) => write!(out, "an argument is of the wrong kind"),
            Fault::Gift(_) => write!(out, "an argument is changed that may not be"),
            Fault::Unknown(number) => write!(out, "the library answered {number}"),
        }
    }
}

impl Error for Fault {}
