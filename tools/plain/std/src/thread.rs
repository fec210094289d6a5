//! Threads that end before the call does that started them.

/// Leave to start threads.
pub trait Threads {}

impl Threads for crate::rt::HostRuntime {}

/// Calls `call(k, &mut items[k])` at each place, in at most so many threads.
pub fn for_each_mut<R, T, F>(_rt: &R, items: &mut [T], threads: usize, call: &F)
where
    R: Threads,
    T: Send,
    F: Fn(usize, &mut T) + Sync,
{
    let size = items.len().div_ceil(threads.max(1)).max(1);
    let in_turn = |first: usize, part: &mut [T]| part.iter_mut().enumerate().for_each(|(k, item)| call(first + k, item));
    if items.len() <= size {
        return in_turn(0, items);
    }
    std::thread::scope(|scope| {
        for (k, part) in items.chunks_mut(size).enumerate() {
            scope.spawn(move || in_turn(k * size, part));
        }
    });
}

/// Does both at once, and answers what both answer.
pub fn join<R: Threads, A: Send, B>(_rt: &R, one: impl FnOnce() -> A + Send, other: impl FnOnce() -> B) -> (A, B) {
    std::thread::scope(|scope| {
        let one = scope.spawn(one);
        let other = other();
        match one.join() {
            Ok(one) => (one, other),
            Err(fault) => std::panic::resume_unwind(fault),
        }
    })
}

#[cfg(test)]
mod tests {
    use super::*;
    use crate::rt::HostRuntime;
    use std::sync::Barrier;

    #[test]
    fn each_item_gets_its_place_whatever_the_number_of_threads() {
        for threads in 1..6 {
            for count in 0..6 {
                let mut items: Vec<usize> = (10..10 + count).collect();
                for_each_mut(&HostRuntime, &mut items, threads, &|k, item| *item = *item * 100 + k);
                assert_eq!(items, (0..count).map(|k| (10 + k) * 100 + k).collect::<Vec<_>>());
            }
        }
    }

    #[test]
    fn threads_run_side_by_side() {
        let meeting = Barrier::new(3);
        for_each_mut(&HostRuntime, &mut [(), (), ()], 8, &|_, _| drop(meeting.wait()));
        let pair = Barrier::new(2);
        assert_eq!(join(&HostRuntime, || (drop(pair.wait()), 1).1, || (drop(pair.wait()), 2).1), (1, 2));
    }
}
