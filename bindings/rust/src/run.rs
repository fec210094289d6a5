//! Whole runs.

use crate::calls::{Output, SpinSending};

/// Bytes that an endpoint received.
#[derive(Clone, Debug, PartialEq, Eq)]
pub struct Sent {
    /// The number of the endpoint, as the script has it.
    pub endpoint: u8,
    /// What it received.
    pub bytes: Vec<u8>,
}

/// What a whole run hands out.
#[derive(Clone, Debug, PartialEq, Eq)]
pub struct Run {
    /// The text of its report, which is that of one legal history of the script.
    pub report: Vec<u8>,
    /// What endpoints received in that history, in its order. What was lost isn't among it.
    pub sends: Vec<Sent>,
}

impl Run {
    /// The run that handed this out.
    pub(crate) fn of(output: Output) -> Run {
        let Output { report, sends, bytes } = output;
        let sent = |it: SpinSending| {
            let (start, length) = (it.at as usize, it.length as usize);
            Sent { endpoint: it.endpoint as u8, bytes: bytes[start..start + length].to_vec() }
        };
        Run { report, sends: sends.into_iter().map(sent).collect() }
    }
}
