//! Stands in for atomic_table: words that several threads share. What a seat knows of them only proofs read, so the
//! seats here know nothing, and every step is the strongest that Rust has.

use plain_std::alloc::{AllocError, Global};
use std::marker::PhantomData;
use std::mem;
use std::sync::Mutex;
use std::sync::atomic::{AtomicU64, Ordering::SeqCst};

/// What holds between any two steps.
pub trait TableRule<S, V, K> {}

/// A kind of step.
pub trait Play<S, V> {}

/// How a seat is split.
pub trait Split<V> {}

/// How two seats are joined.
pub trait Join<V> {}

/// What one thread knows of the table.
pub struct Seat<S, V>(PhantomData<fn() -> (S, V)>);

/// The words and the slots. A lock guards each slot, which nobody holds twice at once: the proved one has none.
pub struct Shared<S, V, K, R> {
    words: Box<[AtomicU64]>,
    slots: Box<[Mutex<S>]>,
    types: PhantomData<fn() -> (V, K, R)>,
}

/// The words and who owns them.
pub struct Table<S, V, K, R, A> {
    pub shared: Shared<S, V, K, R>,
    owner: PhantomData<A>,
}

/// The words once no thread shares them.
pub struct Closed<S, A> {
    words: Box<[AtomicU64]>,
    owner: PhantomData<(S, A)>,
}

/// A list with room for so many items.
fn room<X>(count: usize) -> Result<Vec<X>, AllocError> {
    let mut room = Vec::new();
    room.try_reserve_exact(count).map_err(|_| AllocError)?;
    Ok(room)
}

impl<S, V, K, R: TableRule<S, V, K>> Table<S, V, K, R, Global> {
    /// A table of these words and slots, and the first seat.
    fn of(words: &[u64], slots: Vec<Mutex<S>>) -> Result<(Self, Seat<S, V>), AllocError> {
        let mut own = room(words.len())?;
        own.extend(words.iter().map(|word| AtomicU64::new(*word)));
        let shared = Shared { words: own.into_boxed_slice(), slots: slots.into_boxed_slice(), types: PhantomData };
        Ok((Table { shared, owner: PhantomData }, Seat(PhantomData)))
    }

    /// A table of these words, and the first seat.
    pub fn of_words(_alloc: Global, words: &[u64], _known: &K) -> Result<(Self, Seat<S, V>), AllocError> {
        Table::of(words, Vec::new())
    }

    /// What the words are in the end. It takes no memory.
    pub fn close_with(self, _seat: Seat<S, V>) -> Closed<S, Global> {
        Closed { words: self.shared.words, owner: PhantomData }
    }
}

impl<T, V, K, R: TableRule<Option<T>, V, K>> Table<Option<T>, V, K, R, Global> {
    /// A table of these words and so many slots, each of nothing, and the first seat.
    pub fn vacant(
        _alloc: Global, words: &[u64], count: usize, _known: &K,
    ) -> Result<(Self, Seat<Option<T>, V>), AllocError> {
        let mut slots = room(count)?;
        slots.extend((0..count).map(|_| Mutex::new(None)));
        Table::of(words, slots)
    }
}

impl<S, V, K, R> Shared<S, V, K, R> {
    /// Puts `new` there, and answers what stood there, with a new seat.
    pub fn swap_new_seat<P: Play<S, V>>(&self, at: usize, new: u64) -> (u64, Seat<S, V>) {
        (self.words[at].swap(new, SeqCst), Seat(PhantomData))
    }

    /// Puts `new` into a slot that the seat holds, and answers what was there.
    pub fn exchange(&self, _seat: &mut Seat<S, V>, slot: usize, new: S) -> S {
        mem::replace(&mut *self.slots[slot].lock().unwrap(), new)
    }

    pub fn split_seat<P: Split<V>>(&self, _seat: &mut Seat<S, V>) -> Seat<S, V> {
        Seat(PhantomData)
    }

    pub fn join_seat<P: Join<V>>(&self, _seat: &mut Seat<S, V>, _other: Seat<S, V>) {}

    pub fn load<P: Play<S, V>>(&self, _seat: &mut Seat<S, V>, at: usize) -> u64 {
        self.words[at].load(SeqCst)
    }

    pub fn load_new_seat<P: Play<S, V>>(&self, at: usize) -> (u64, Seat<S, V>) {
        (self.words[at].load(SeqCst), Seat(PhantomData))
    }

    pub fn store<P: Play<S, V>>(&self, _seat: &mut Seat<S, V>, at: usize, new: u64) {
        self.words[at].store(new, SeqCst);
    }

    /// Puts `new` where `old` stands, and answers what stood there.
    pub fn compare_exchange<P: Play<S, V>>(&self, _seat: &mut Seat<S, V>, at: usize, old: u64, new: u64) -> u64 {
        self.words[at].compare_exchange(old, new, SeqCst, SeqCst).unwrap_or_else(|stood| stood)
    }

    /// Adds, and answers what stood there.
    pub fn fetch_add<P: Play<S, V>>(&self, _seat: &mut Seat<S, V>, at: usize, more: u64) -> u64 {
        self.words[at].fetch_add(more, SeqCst)
    }
}

impl<S, A> Closed<S, A> {
    pub fn word(&self, at: usize) -> u64 {
        self.words[at].load(SeqCst)
    }

    pub fn free(self) {}
}

#[cfg(test)]
mod tests {
    use super::*;

    struct Rule;

    impl TableRule<(), (), ()> for Rule {}

    struct Any;

    impl Play<(), ()> for Any {}
    impl Split<()> for Any {}
    impl Join<()> for Any {}

    #[test]
    fn each_step_answers_what_stood_there() {
        let (table, mut seat) = Table::<_, _, _, Rule, _>::of_words(Global, &[5, 0], &()).unwrap();
        let shared = &table.shared;
        assert_eq!(shared.compare_exchange::<Any>(&mut seat, 0, 4, 9), 5);
        assert_eq!(shared.compare_exchange::<Any>(&mut seat, 0, 5, 9), 5);
        assert_eq!(shared.fetch_add::<Any>(&mut seat, 0, 2), 9);
        assert_eq!((shared.load::<Any>(&mut seat, 0), shared.load_new_seat::<Any>(1).0), (11, 0));
        shared.store::<Any>(&mut seat, 1, 3);
        let closed = table.close_with(seat);
        assert_eq!((closed.word(0), closed.word(1)), (11, 3));
        closed.free();
    }

    #[test]
    fn a_value_goes_through_a_slot() {
        impl<T> TableRule<Option<T>, (), ()> for Any {}
        impl<T> Play<Option<T>, ()> for Any {}
        let (table, _) = Table::<Option<u8>, _, _, Any, _>::vacant(Global, &[1, 1], 2, &()).unwrap();
        let (found, mut seat) = table.shared.swap_new_seat::<Any>(1, 0);
        assert_eq!((found, table.shared.swap_new_seat::<Any>(1, 0).0), (1, 0));
        assert_eq!(table.shared.exchange(&mut seat, 1, Some(7)), None);
        assert_eq!(table.shared.exchange(&mut seat, 1, None), Some(7));
    }

    #[test]
    fn threads_share_the_words() {
        let (table, mut seat) = Table::<_, _, _, Rule, _>::of_words(Global, &[0], &()).unwrap();
        let shared = &table.shared;
        let mut seats: Vec<_> = (0..4).map(|_| shared.split_seat::<Any>(&mut seat)).collect();
        std::thread::scope(|scope| {
            for own in &mut seats {
                scope.spawn(move || (0..1_000).for_each(|_| _ = shared.fetch_add::<Any>(own, 0, 1)));
            }
        });
        seats.into_iter().for_each(|own| shared.join_seat::<Any>(&mut seat, own));
        assert_eq!(table.close_with(seat).word(0), 4_000);
    }
}
