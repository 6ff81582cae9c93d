//! Keys whose `==`, `hash` and `clone` lie: wrong answers at worst.

mod common;

use common::{Random, block_on, policies, poll_once, thrown};
use luffapricot::*;
use std::cell::RefCell;
use std::hash::{Hash, Hasher};
use std::sync::Arc;
use std::sync::atomic::{AtomicI64, Ordering::SeqCst};

thread_local! {
    static LIES: RefCell<Random> = RefCell::new(Random::new(1));
}

// One call in so many lies, by its own kind.
fn lies(one_in: u64) -> bool {
    LIES.with(|random| random.borrow_mut().below(one_in) == 0)
}

fn number() -> u64 {
    LIES.with(|random| random.borrow_mut().below(64))
}

struct Liar {
    id: u64,
    live: Arc<AtomicI64>,
    // In so many calls one of `==`, `hash` and `clone` lies.
    one_in: [u64; 3],
}

impl Liar {
    fn new(id: u64, live: &Arc<AtomicI64>, one_in: [u64; 3]) -> Liar {
        live.fetch_add(1, SeqCst);
        Liar { id, live: Arc::clone(live), one_in }
    }
}

impl PartialEq for Liar {
    fn eq(&self, other: &Self) -> bool {
        (self.id == other.id) != lies(self.one_in[0])
    }
}

impl Eq for Liar {}

impl Hash for Liar {
    fn hash<H: Hasher>(&self, state: &mut H) {
        let id = if lies(self.one_in[1]) { number() } else { self.id };
        // Few hashes, so that unlike keys are compared.
        (id % 16).hash(state);
    }
}

impl Clone for Liar {
    fn clone(&self) -> Self {
        let id = if lies(self.one_in[2]) { number() } else { self.id };
        Liar::new(id, &self.live, self.one_in)
    }
}

impl Drop for Liar {
    fn drop(&mut self) {
        self.live.fetch_sub(1, SeqCst);
    }
}

type Cheated = Cache<Liar, Box<u64>>;

fn call(cache: &Cheated, key: Liar, random: &mut Random, hands: &mut Hands) {
    let value = Box::new(key.id);
    match random.below(23) {
        0..6 => {
            let entry = cache.insert(key, value);
            if random.below(8) == 0 {
                hands.entries.push(entry);
            }
        }
        6..10 => drop(cache.get(&key).map(|entry| *entry.key() == key)),
        10 => drop(cache.remove(&key)),
        11 => drop((cache.contains(&key), cache.touch(&key))),
        12 => {
            let entry = cache.insert(key, value);
            let piece = entry.piece();
            cache.remove(entry.key());
            drop(cache.insert_piece(piece));
        }
        13..15 => hands.waits.push(cache.get_or_fetch(&key, || async { Ok::<_, BoxError>(Box::new(1)) })),
        15 if !hands.waits.is_empty() => {
            let at = random.below(hands.waits.len() as u64) as usize;
            drop(poll_once(&mut hands.waits[at]));
            drop(hands.waits.swap_remove(at));
        }
        16 => hands.entries.truncate(20),
        17 if random.below(20) == 0 => match random.below(6) {
            0 => cache.clear(),
            1 => cache.evict_all(),
            2 => cache.resize(16 + random.below(32) as usize).unwrap(),
            3 => block_on(cache.flush()),
            4 => cache.retain(|key, _| key.id % 3 != 0),
            _ => drop(cache.keys()),
        },
        18 => drop(hands.waits.drain(..).collect::<Vec<_>>()),
        19 => drop(cache.replace_if(hands.entries.last(), key, value)),
        20 => drop(cache.replace_if(None, key, value)),
        21 => drop((cache.insert_if_fits(key, value), hands.entries.pop().map(|entry| cache.remove_this(&entry)))),
        _ => {}
    }
}

#[derive(Default)]
struct Hands {
    entries: Vec<CacheEntry<Liar, Box<u64>>>,
    waits: Vec<GetOrFetch<Liar, Box<u64>>>,
}

// What a call may panic with if `==` lies: a fetch's number is looked up twice under one lock, and the second answer differs.
const UNREACHED: &str = "the proof says that this is never reached: are the key's Eq, Hash and Clone lawful?";
const POISONED: &str = "a cache's lock is poisoned: a call under it panicked before";

// Makes 15,000 calls (or so many as `LIES` says), 105,000 in all for each policy. A cache that panicked is dropped, and the
// next one goes on. Returns how many did.
fn cheat(policy: &EvictionConfig, one_in: [u64; 3]) -> usize {
    let mut calls: u64 = std::env::var("LIES").map_or(15_000, |calls| calls.parse().expect("a number"));
    let live = Arc::new(AtomicI64::new(0));
    let (mut random, mut broken) = (Random::new(7), 0);
    while calls > 0 {
        let cache: Cheated = CacheBuilder::new(40).with_shards(2).with_eviction_config(policy.clone()).build();
        let (mut hands, mut rest) = (Hands::default(), 0);
        while calls > 0 && rest < 50 {
            calls -= 1;
            let key = Liar::new(random.below(64), &live, one_in);
            match thrown(|| call(&cache, key, &mut random, &mut hands)) {
                Ok(()) => rest += u64::from(rest > 0),
                // The other shard works on, and the broken one panics on.
                Err(message) => {
                    assert!([UNREACHED, POISONED].contains(&message.as_str()), "{message}");
                    rest += 1;
                }
            }
        }
        broken += usize::from(rest > 0);
        if rest == 0 {
            let (mut usage, mut entries) = (0, 0);
            cache.for_each(|_, _| (usage, entries) = (usage + 1, entries + 1));
            assert_eq!((cache.usage(), cache.entries()), (usage, entries));
        }
        // Also while the thread unwinds, a broken cache is dropped without a second panic.
        let ended = thrown(|| {
            // An entry is the last owner.
            let _owners = (cache, hands);
            assert!(broken % 2 == 0, "boom");
        });
        // A fetch that is open until then may be the first to meet a `==` that lies.
        match ended {
            Err(message) if rest == 0 && broken % 2 == 0 => {
                assert!([UNREACHED, POISONED].contains(&message.as_str()), "{message}");
                broken += 1;
            }
            _ => {}
        }
        assert_eq!(live.load(SeqCst), 0, "keys leak or were dropped twice");
    }
    broken
}

#[test]
fn keys_that_lie_get_wrong_answers_at_worst() {
    const NEVER: u64 = u64::MAX;
    for policy in policies() {
        for one_in in [[NEVER; 3], [NEVER, 4, NEVER], [NEVER, NEVER, 4]] {
            assert_eq!(cheat(&policy, one_in), 0, "{one_in:?}");
        }
        for one_in in [[4, NEVER, NEVER], [50, NEVER, NEVER], [3, 3, 3], [90, 90, 90]] {
            cheat(&policy, one_in);
        }
    }
}
