//! The proved calls of an open raise. With `calls` it has all unsafe code of this crate.

use crate::calls::{Held, SpinAnswer, SpinArg, SpinLane, SpinStep, tell};
use crate::fault::Fault;
use std::ffi::c_void;
use std::ptr::null_mut;

/// The handle of an open raise; closed where it is null.
#[repr(C)]
struct SpinRaising {
    at: *mut c_void,
}

/// What a host's own handler gives.
#[repr(C)]
#[derive(Clone, Copy)]
pub(crate) struct SpinGift {
    pub(crate) kind: u64,
    pub(crate) index: u64,
    pub(crate) at: u64,
    pub(crate) length: u64,
}

// As bindings/c/spin.h declares them.
unsafe extern "C" {
    fn spin_begin(
        lane: *mut SpinLane,
        raising: *mut SpinRaising,
        bytes: *const u8,
        length: usize,
        args: *const SpinArg,
        count: usize,
        event: u8,
        answer: *mut SpinAnswer,
    ) -> u32;
    fn spin_within(
        raising: *mut SpinRaising,
        event: u8,
        bytes: *const u8,
        length: usize,
        args: *const SpinArg,
        count: usize,
        answer: *mut SpinAnswer,
    ) -> u32;
    fn spin_next(raising: *mut SpinRaising, step: *mut SpinStep) -> u32;
    fn spin_argument(raising: *mut SpinRaising, index: u64, buffer: *mut u8, room: usize, arg: *mut SpinArg) -> u32;
    fn spin_do(raising: *mut SpinRaising, answer: *mut SpinAnswer) -> u32;
    fn spin_given(raising: *mut SpinRaising, index: u64, step: *mut SpinStep) -> u32;
    fn spin_given_bytes(
        raising: *mut SpinRaising,
        index: u64,
        buffer: *mut u8,
        room: usize,
        length: *mut u64,
    ) -> u32;
    fn spin_gave(
        raising: *mut SpinRaising,
        bytes: *const u8,
        length: usize,
        gifts: *const SpinGift,
        count: usize,
        answer: *mut SpinAnswer,
    ) -> u32;
    fn spin_declined(raising: *mut SpinRaising) -> u32;
    fn spin_abandon(raising: *mut SpinRaising) -> u32;
    fn spin_forget(raising: *mut SpinRaising) -> u32;
}

/// The handle of an open raise, or of its room.
pub(crate) struct Raising {
    raising: SpinRaising,
}

// SAFETY: what it holds may be used from any thread, one call at a time, which `&mut` sees to, as of a lane's handle.
unsafe impl Send for Raising {}

// SAFETY: no call of the library is made by a shared reference to it.
unsafe impl Sync for Raising {}

/// What a call told; that no raise is open says that it was abandoned.
fn told(number: u32, answer: SpinAnswer) -> Result<SpinAnswer, Fault> {
    if number == 4 { Err(Fault::Abandoned) } else { tell(number, answer) }
}

impl Raising {
    /// One that is closed.
    pub(crate) fn closed() -> Raising {
        Raising { raising: SpinRaising { at: null_mut() } }
    }

    /// Makes a call with this handle and an answer, and answers what it tells.
    fn ask(&mut self, call: impl FnOnce(&mut SpinRaising, &mut SpinAnswer) -> u32) -> Result<SpinAnswer, Fault> {
        let mut answer = SpinAnswer::default();
        told(call(&mut self.raising, &mut answer), answer)
    }

    pub(crate) fn begin(
        &mut self,
        held: &mut Held,
        event: u8,
        bytes: &[u8],
        args: &[SpinArg],
    ) -> Result<SpinAnswer, Fault> {
        let (data, length, count) = (bytes.as_ptr(), bytes.len(), args.len());
        // SAFETY: both handles are those of values that nobody else has; two slices and their lengths.
        self.ask(|raising, answer| unsafe {
            spin_begin(&mut held.lane, raising, data, length, args.as_ptr(), count, event, answer)
        })
    }

    pub(crate) fn within(&mut self, event: u8, bytes: &[u8], args: &[SpinArg]) -> Result<SpinAnswer, Fault> {
        let (data, length, count) = (bytes.as_ptr(), bytes.len(), args.len());
        // SAFETY: the handle is this value's own; two slices and their lengths.
        self.ask(|raising, answer| unsafe {
            spin_within(raising, event, data, length, args.as_ptr(), count, answer)
        })
    }

    pub(crate) fn next(&mut self) -> Result<SpinStep, Fault> {
        let mut step = SpinStep::default();
        // SAFETY: the handle is this value's own, and the step is one of this function.
        told(unsafe { spin_next(&mut self.raising, &mut step) }, SpinAnswer::default())?;
        Ok(step)
    }

    /// The word that an argument is, or its bytes.
    pub(crate) fn argument(&mut self, index: u64) -> Result<Result<u64, Vec<u8>>, Fault> {
        let (mut bytes, mut arg) = (vec![0; 64], SpinArg::word(0));
        let at = &mut self.raising;
        // SAFETY: the handle is this value's own; a slice with its length, and an argument of this function.
        let mut number = unsafe { spin_argument(at, index, bytes.as_mut_ptr(), bytes.len(), &mut arg) };
        if number == 11 {
            bytes.resize(arg.length as usize, 0);
            // SAFETY: as above.
            number = unsafe { spin_argument(at, index, bytes.as_mut_ptr(), bytes.len(), &mut arg) };
        }
        told(number, SpinAnswer::default())?;
        bytes.truncate(arg.length as usize);
        Ok(if arg.kind == 0 { Ok(arg.at) } else { Err(bytes) })
    }

    pub(crate) fn act(&mut self) -> Result<SpinAnswer, Fault> {
        // SAFETY: the handle is this value's own, and nobody else has the answer.
        self.ask(|raising, answer| unsafe { spin_do(raising, answer) })
    }

    /// What the last answer gave at an index, and the bytes that it sends.
    pub(crate) fn given(&mut self, index: u64) -> Result<(SpinStep, Vec<u8>), Fault> {
        let (mut step, mut length) = (SpinStep::default(), 0);
        // SAFETY: the handle is this value's own, and the step is one of this function.
        told(unsafe { spin_given(&mut self.raising, index, &mut step) }, SpinAnswer::default())?;
        let mut bytes = vec![0; step.length as usize];
        if step.length > 0 {
            let (buffer, room) = (bytes.as_mut_ptr(), bytes.len());
            // SAFETY: the handle is this value's own; a slice with its length, and a number of this function.
            let number = unsafe { spin_given_bytes(&mut self.raising, index, buffer, room, &mut length) };
            told(number, SpinAnswer::default())?;
        }
        Ok((step, bytes))
    }

    pub(crate) fn gave(&mut self, bytes: &[u8], gifts: &[SpinGift]) -> Result<SpinAnswer, Fault> {
        let (data, length, count) = (bytes.as_ptr(), bytes.len(), gifts.len());
        // SAFETY: the handle is this value's own; two slices and their lengths.
        self.ask(|raising, answer| unsafe { spin_gave(raising, data, length, gifts.as_ptr(), count, answer) })
    }

    pub(crate) fn declined(&mut self) -> Result<(), Fault> {
        // SAFETY: the handle is this value's own.
        told(unsafe { spin_declined(&mut self.raising) }, SpinAnswer::default())?;
        Ok(())
    }

    pub(crate) fn abandon(&mut self) {
        // SAFETY: the handle is this value's own. Where no raise is open nothing is done.
        let _ = unsafe { spin_abandon(&mut self.raising) };
    }
}

impl Drop for Raising {
    fn drop(&mut self) {
        // SAFETY: the handle is this value's own, and isn't used again. One that is closed stays closed.
        let _ = unsafe { spin_forget(&mut self.raising) };
    }
}
