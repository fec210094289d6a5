//! Stands in for crossbeam_queue: a bounded queue that several threads share. What a pass knows of it only proofs read.

use plain_std::alloc::{AllocError, Global};
use plain_std::sync::Wait;
use std::collections::VecDeque;
use std::marker::PhantomData;
use std::sync::Mutex;

pub mod protocol {
    /// What holds between any two steps.
    pub trait Protocol<T, V> {}

    /// What a step does.
    pub trait Outcome<T, V> {}

    /// What is learnt of a queue that is full or empty.
    pub trait Lesson<T, V> {}

    /// How a pass is split.
    pub trait Split<V> {}

    /// How two passes are joined.
    pub trait Join<V> {}
}

use protocol::{Join, Lesson, Outcome, Protocol, Split};

/// What one thread knows of the queue.
pub struct Pass<T, V>(PhantomData<fn() -> (T, V)>);

/// The queue.
pub struct RuledArrayQueue<T, V, R> {
    capacity: usize,
    elements: Mutex<VecDeque<T>>,
    types: PhantomData<fn() -> (V, R)>,
}

impl<T, V, R: Protocol<T, V>> RuledArrayQueue<T, V, R> {
    /// An empty queue for so many elements, and the first pass.
    pub fn ruled(_alloc: Global, capacity: usize) -> Result<(Self, Pass<T, V>), AllocError> {
        let mut elements = VecDeque::new();
        elements.try_reserve_exact(capacity).map_err(|_| AllocError)?;
        let queue = RuledArrayQueue { capacity, elements: Mutex::new(elements), types: PhantomData };
        Ok((queue, Pass(PhantomData)))
    }

    pub fn another<S: Split<V>>(&self, _pass: &mut Pass<T, V>) -> Pass<T, V> {
        Pass(PhantomData)
    }

    pub fn absorb<J: Join<V>>(&self, _pass: &mut Pass<T, V>, _other: Pass<T, V>) {}

    /// Puts the element at the end, or gives it back where the queue is full.
    pub fn push_as<O, W>(&self, _wait: &W, _pass: &mut Pass<T, V>, element: T) -> Result<(), T>
    where
        O: Outcome<T, V> + Lesson<T, V>,
        W: Wait,
    {
        let mut elements = self.elements.lock().unwrap();
        if elements.len() == self.capacity {
            return Err(element);
        }
        elements.push_back(element);
        Ok(())
    }

    /// Takes the element at the front, if there is one.
    pub fn pop_as<O, W>(&self, _wait: &W, _pass: &mut Pass<T, V>) -> Option<T>
    where
        O: Outcome<T, V> + Lesson<T, V>,
        W: Wait,
    {
        self.elements.lock().unwrap().pop_front()
    }
}

#[cfg(test)]
mod tests {
    use super::*;
    use plain_std::rt::HostRuntime;

    struct Any;

    impl Protocol<u64, ()> for Any {}
    impl Outcome<u64, ()> for Any {}
    impl Lesson<u64, ()> for Any {}
    impl Split<()> for Any {}
    impl Join<()> for Any {}

    #[test]
    fn a_full_queue_refuses_and_the_first_comes_first() {
        let (queue, mut pass) = RuledArrayQueue::<u64, (), Any>::ruled(Global, 2).unwrap();
        assert_eq!(queue.pop_as::<Any, _>(&HostRuntime, &mut pass), None);
        let put: Vec<_> = (1..4).map(|n| queue.push_as::<Any, _>(&HostRuntime, &mut pass, n)).collect();
        assert_eq!(put, [Ok(()), Ok(()), Err(3)]);
        let taken: Vec<_> = (0..3).map(|_| queue.pop_as::<Any, _>(&HostRuntime, &mut pass)).collect();
        assert_eq!(taken, [Some(1), Some(2), None]);
    }

    #[test]
    fn each_element_is_taken_once() {
        let (queue, mut pass) = RuledArrayQueue::<u64, (), Any>::ruled(Global, 8).unwrap();
        let mut sender = queue.another::<Any>(&mut pass);
        let mut sum = 0;
        std::thread::scope(|scope| {
            scope.spawn(|| (1..=1_000).for_each(|n| while queue.push_as::<Any, _>(&HostRuntime, &mut sender, n).is_err() {}));
            for _ in 0..1_000 {
                sum += loop {
                    if let Some(n) = queue.pop_as::<Any, _>(&HostRuntime, &mut pass) {
                        break n;
                    }
                };
            }
        });
        queue.absorb::<Any>(&mut pass, sender);
        assert_eq!((sum, queue.pop_as::<Any, _>(&HostRuntime, &mut pass)), (500_500, None));
    }
}
