//! Upstream's names for its own tests of a policy by itself, over the proved policies: records that the tests share, and
//! lists that are read by a cursor.

use crate::proved::foyer_policy::{Eviction as Proved, Item, Place};
use crate::rattle_std::alloc::Global;
use crate::{Hint, Key, Properties, Value};
use std::cell::UnsafeCell;
use std::sync::Arc;

pub(crate) mod record {
    pub(crate) use super::{Data, Record};
}

pub(crate) mod eviction {
    pub(crate) mod test_utils {
        pub(crate) use super::super::{Dump, assert_ptr_eq, assert_ptr_vec_eq, assert_ptr_vec_vec_eq};
        // A policy here has these calls itself.
        pub(crate) use super::super::Dump as OpExt;
        use crate::{Age, Hint, Location, Properties};

        include!("test_properties.rs");
    }
}

/// A policy of upstream's.
pub(crate) trait Eviction {
    type Key: Key;
    type Value: Value;
    type Properties: Properties;
}

/// What a test gives a record.
pub(crate) struct Data<E: Eviction> {
    pub key: E::Key,
    pub value: E::Value,
    pub properties: E::Properties,
    pub hash: u64,
    pub weight: usize,
}

/// A record. Its frequency is what its policy has for it, or 0.
pub(crate) struct Record<E: Eviction>(pub(crate) Data<E>, UnsafeCell<Frequency>);

pub(crate) struct Frequency(u8);

impl Frequency {
    pub(crate) fn frequency(&self) -> u8 {
        self.0
    }
}

impl<E: Eviction> Record<E> {
    pub(crate) fn new(data: Data<E>) -> Self {
        Record(data, UnsafeCell::new(Frequency(0)))
    }

    pub(crate) fn state(&self) -> &UnsafeCell<Frequency> {
        &self.1
    }

    pub(crate) fn count(&self, frequency: u8) {
        // SAFETY: a test has one thread, and looks at a frequency for the length of a comparison.
        unsafe { *self.1.get() = Frequency(frequency) };
    }
}

/// The records of a list, in its order.
pub(crate) struct Queue<E: Eviction>(pub(crate) Vec<Arc<Record<E>>>);

pub(crate) struct Cursor<'a, E: Eviction>(&'a Queue<E>, Option<usize>);

impl<E: Eviction> Queue<E> {
    pub(crate) fn cursor(&self) -> Cursor<'_, E> {
        Cursor(self, None)
    }
}

impl<E: Eviction> Cursor<'_, E> {
    pub(crate) fn move_next(&mut self) {
        self.1 = Some(self.1.map_or(0, |at| at + 1));
    }

    pub(crate) fn clone_pointer(&self) -> Option<Arc<Record<E>>> {
        self.0.0.get(self.1?).cloned()
    }
}

/// A proved policy, and the records of the items that it has.
pub(crate) struct Over<I, E: Eviction> {
    pub(crate) policy: I,
    pub(crate) records: Vec<(u64, Place, Arc<Record<E>>)>,
    pushed: u64,
}

impl<I: Proved, E: Eviction> Over<I, E> {
    pub(crate) fn new(capacity: usize, config: &I::Config) -> Self {
        let policy = I::new(Global, capacity, config).expect("a policy");
        Over { policy, records: Vec::new(), pushed: 0 }
    }

    pub(crate) fn push(&mut self, record: Arc<Record<E>>) {
        self.policy.reserve().expect("room");
        let (data, id) = (&record.0, self.pushed);
        let hint = data.properties.hint().unwrap_or(Hint::Normal);
        let place = self.policy.push(Item { id, hash: data.hash, weight: data.weight, hint, expires: None });
        self.records.push((id, place, record));
        self.pushed += 1;
    }

    pub(crate) fn pop(&mut self) -> Option<Arc<Record<E>>> {
        let (_, item) = self.policy.pop_at().expect("a victim or none")?;
        Some(self.take(|it| it.0 == item.id))
    }

    pub(crate) fn remove(&mut self, record: &Arc<Record<E>>) {
        let place = self.place(record).expect("a place");
        self.policy.remove(place);
        self.take(|it| Arc::ptr_eq(&it.2, record));
    }

    pub(crate) fn clear(&mut self) {
        self.policy.reserve_clear().expect("room");
        self.policy.clear();
        self.records.drain(..).for_each(|it| it.2.count(0));
    }

    pub(crate) fn acquire(&mut self, record: &Arc<Record<E>>) {
        if let Some(place) = self.place(record) {
            self.policy.acquire(place);
        }
    }

    pub(crate) fn release(&mut self, record: &Arc<Record<E>>) {
        if let Some(place) = self.place(record) {
            self.policy.release(place);
        }
    }

    pub(crate) fn resize(&mut self, capacity: usize) -> crate::error::Result<()> {
        Ok(self.policy.update(capacity, None)?)
    }

    // The place of a record, unless it has left: no policy here is told of the handles of one that has.
    fn place(&self, record: &Arc<Record<E>>) -> Option<Place> {
        self.records.iter().find(|it| Arc::ptr_eq(&it.2, record)).map(|it| it.1)
    }

    pub(crate) fn record(&self, item: Item) -> Arc<Record<E>> {
        let found = self.records.iter().find(|it| it.0 == item.id);
        Arc::clone(&found.expect("a record").2)
    }

    fn take(&mut self, is: impl Fn(&(u64, Place, Arc<Record<E>>)) -> bool) -> Arc<Record<E>> {
        let at = self.records.iter().position(is).expect("a record");
        let (_, _, record) = self.records.remove(at);
        record.count(0);
        record
    }
}

/// Writes a policy of upstream's over the proved one of this name: its lists and numbers are read anew after each call.
macro_rules! policy {
    ($policy:ident $config:ident over $lists:ident: $($list:ident = $at:expr),*; $($number:ident: $type:ty = $read:expr),*) => {
        use crate::upstream::{Eviction, Over, Queue, Record};
        use crate::{$config, EvictionConfig, Hint, Key, Properties, Value};
        use std::marker::PhantomData;
        use std::sync::Arc;

        pub(crate) struct $policy<K: Key, V: Value, P: Properties> {
            over: Over<super::$policy, Self>,
            $($list: Queue<Self>,)*
            $($number: $type,)*
            marker: PhantomData<(K, V, P)>,
        }

        impl<K: Key, V: Value, P: Properties> Eviction for $policy<K, V, P> {
            type Key = K;
            type Value = V;
            type Properties = P;
        }

        #[allow(clippy::redundant_closure_call, dead_code, unused_variables)]
        impl<K: Key, V: Value, P: Properties> $policy<K, V, P> {
            pub(crate) fn new(capacity: usize, config: &$config) -> Self {
                use crate::proved::foyer_policy::EvictionConfig as Exact;
                let Exact::$policy(config) = EvictionConfig::from(config.clone()).exact() else { unreachable!() };
                let over = Over::new(capacity, &config);
                $(let $list = Queue(Vec::new());)*
                $(let $number = ($read)(&over);)*
                Self { over, $($list,)* $($number,)* marker: PhantomData }
            }

            fn called<T>(&mut self, call: impl FnOnce(&mut Over<super::$policy, Self>) -> T) -> T {
                let result = call(&mut self.over);
                $(self.$list.0 = self.records_of($at);)*
                $(self.$number = ($read)(&self.over);)*
                result
            }

            fn records_of(&self, list: usize) -> Vec<Arc<Record<Self>>> {
                let (lists, mut records) = (&self.over.policy.$lists, Vec::new());
                let mut next = lists.front(list);
                while let Some(place) = next {
                    records.push(self.over.record(lists.get(place).whole()));
                    next = lists.next(place);
                }
                records
            }

            pub(crate) fn push(&mut self, record: Arc<Record<Self>>) {
                self.called(|over| over.push(record));
            }

            pub(crate) fn pop(&mut self) -> Option<Arc<Record<Self>>> {
                self.called(Over::pop)
            }

            pub(crate) fn remove(&mut self, record: &Arc<Record<Self>>) {
                self.called(|over| over.remove(record));
            }

            pub(crate) fn clear(&mut self) {
                self.called(Over::clear);
            }

            pub(crate) fn update(&mut self, capacity: usize, config: Option<&$config>) -> crate::error::Result<()> {
                assert!(config.is_none());
                self.called(|over| over.resize(capacity))
            }

            pub(crate) fn acquire_mutable(&mut self, record: &Arc<Record<Self>>) {
                self.called(|over| over.acquire(record));
            }

            pub(crate) fn acquire_immutable(&mut self, record: &Arc<Record<Self>>) {
                self.acquire_mutable(record);
            }

            pub(crate) fn release_mutable(&mut self, record: &Arc<Record<Self>>) {
                self.called(|over| over.release(record));
            }
        }
    };
}
pub(crate) use policy;

/// A policy whose lists are read.
pub(crate) trait Dump {
    type Output;

    fn dump(&self) -> Self::Output;
}

pub(crate) fn assert_ptr_eq<T>(one: &Arc<T>, other: &Arc<T>) {
    assert!(Arc::ptr_eq(one, other));
}

pub(crate) fn assert_ptr_vec_eq<T>(all: Vec<Arc<T>>, others: Vec<Arc<T>>) {
    assert_ptr_vec_vec_eq(vec![all], vec![others]);
}

pub(crate) fn assert_ptr_vec_vec_eq<T>(all: Vec<Vec<Arc<T>>>, others: Vec<Vec<Arc<T>>>) {
    let addresses = |lists: Vec<Vec<Arc<T>>>| lists.iter().map(|it| it.iter().map(Arc::as_ptr).collect()).collect::<Vec<Vec<_>>>();
    assert_eq!(addresses(all), addresses(others));
}

/// Upstream's `collect_vec`, so that these tests need no other crate.
pub(crate) trait Itertools: Iterator + Sized {
    fn collect_vec(self) -> Vec<Self::Item> {
        self.collect()
    }
}

impl<I: Iterator> Itertools for I {}
