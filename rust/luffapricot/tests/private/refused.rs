// What must not compile, each function alone with what stands above the first. See private.py.
#![allow(unused)]

use luffapricot::*;
use std::cell::Cell;
use std::rc::Rc;

fn cache() -> Cache<u64, String> {
    Cache::<u64, String>::builder(10).build()
}

// E0277: a key that isn't Send.
fn a_key_that_is_counted_in_one_thread(cache: Cache<Rc<str>, u64>) {}

// E0277: a value that isn't Send.
fn a_value_that_is_counted_in_one_thread(cache: Cache<u64, Rc<u64>>) {}

// E0277: a value that isn't Sync, of which all threads get a reference.
fn a_value_that_changes_in_one_thread(entry: CacheEntry<u64, Cell<u64>>) {}

// E0277: a closure that isn't Send.
fn a_listener_of_one_thread(told: Rc<Cell<u64>>) {
    CacheBuilder::<u64, u64>::new(1).with_listener(move |_, _, _| told.set(1));
}

// E0277: a weigher that isn't Sync.
fn a_weigher_of_one_thread(told: Cell<u64>) {
    CacheBuilder::<u64, u64>::new(1).with_weighter(move |_, _| told.replace(1) as usize);
}

// E0000: a fetch whose future isn't Send.
fn a_fetch_of_one_thread(own: Rc<String>) {
    let _ = cache().get_or_fetch(&1, || async move { Ok::<String, BoxError>(own.to_string()) });
}

// E0597: a value's reference that outlives its entry.
fn a_reference_that_outlives_its_entry() -> usize {
    let cache = cache();
    let kept: &String = {
        let entry = cache.insert(1, String::new());
        entry.value()
    };
    kept.len()
}

// E0505: a value's reference that outlives its entry, which is dropped by hand.
fn a_reference_to_a_dropped_entry() -> usize {
    let entry = cache().insert(1, String::new());
    let kept = &*entry;
    drop(entry);
    kept.len()
}

// E0521: a value's reference that leaves a visit.
fn a_reference_that_leaves_a_visit() {
    let mut kept = Vec::new();
    cache().for_each(|_, value| kept.push(value));
}

// E0594: a write through an entry.
fn a_write_through_an_entry() {
    let entry = cache().insert(1, String::new());
    *entry = "b".to_owned();
}

// E0277: a borrowed key by which the cache's keys can't be looked up.
fn a_look_up_by_another_type() {
    cache().get("a");
}

// E0310: values that are gone before the cache is.
fn a_value_that_is_borrowed<'a>(text: &'a str) {
    fn build<V: Send + Sync>(value: V) {
        let cache: Cache<u64, V> = CacheBuilder::new(1).build();
    }
}

// E0423: an entry that is made up.
fn an_entry_from_nothing() {
    let entry: CacheEntry<u64, u64> = CacheEntry(todo!());
}

// E0603: the proved code.
fn the_proved_code() {
    let lists = luffapricot::proved::foyer_policy::Lists::<u64, 1>::new(todo!());
}

// E0603: the shim.
fn the_shim() {
    let mutex = luffapricot::rattle_std::sync::Mutex::new(1);
}
