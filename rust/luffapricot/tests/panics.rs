//! A panic at each place of a user's code in turn.

mod common;

use common::*;
use luffapricot::*;
use std::collections::HashMap;
use std::pin::Pin;
use std::result::Result;
use std::sync::atomic::{AtomicUsize, Ordering::SeqCst};
use std::sync::{Arc, Barrier};
use std::task::{Context, Poll, RawWaker, RawWakerVTable, Waker};
use std::time::Duration;

const SITES: [Site; 27] = [
    Site::Eq,
    Site::Hash,
    Site::BuildHasher,
    Site::Finish,
    Site::Clone,
    Site::DropKey,
    Site::DropValue,
    Site::Weigh,
    Site::Admit,
    Site::Listen,
    Site::Clock,
    Site::Default,
    Site::Phantom,
    Site::Hint,
    Site::TimeToLive,
    Site::DropProperties,
    Site::IsEnabled,
    Site::Send,
    Site::Flush,
    Site::PollFlush,
    Site::Predicate,
    Site::Visit,
    Site::Keep,
    Site::Make,
    Site::BuildFetch,
    Site::DropFuture,
    Site::DropBuilder,
];

// What a script holds between its calls.
#[derive(Default)]
struct Hands {
    // Records that came in, and how often each came in again as a piece.
    made: Vec<u64>,
    again: HashMap<u64, usize>,
    // Panics that a fetch ended with as its fault.
    faults: usize,
    entries: Vec<Entry>,
    pieces: Vec<Piece<Name, Page, Extra>>,
    waits: Vec<GetOrFetch<Name, Page, Build, Extra>>,
}

// rustc leaks what a function returns if a drop at its end panics (its issue 47949).
fn rustc_leaks(site: Site) -> bool {
    matches!(site, Site::DropFuture | Site::DropBuilder)
}

// Under valgrind `PANICS` says how many numbers of calls are tried, and rustc's leaks aren't.
fn reduced() -> Option<usize> {
    std::env::var("PANICS").ok().map(|most| most.parse().expect("a number"))
}

// Makes a call at random.
fn call(world: &Arc<World>, cache: &Store, hands: &mut Hands, random: &mut Random) {
    let id = random.below(40);
    let pick = |len: usize, random: &mut Random| random.below(len.max(1) as u64) as usize;
    match random.below(33) {
        0..6 => {
            let entry = cache.insert(world.key(id), world.value());
            hands.made.push(entry.serial);
            if id % 4 == 0 {
                hands.entries.push(entry);
            }
        }
        6..8 => {
            let mut extra = Extra::default();
            extra.hint = if id % 2 == 0 { Hint::Low } else { Hint::Normal };
            extra.is_phantom = id % 13 == 0;
            extra.time_to_live = (id % 3 == 0).then(|| std::time::Duration::from_secs(1 + id));
            drop(cache.try_insert(world.key(id), world.value(), extra).map_err(drop));
        }
        8..11 => hands.entries.extend(cache.get(&world.key(id))),
        11 => drop(cache.remove(&world.key(id))),
        12 => drop((cache.contains(&world.key(id)), cache.touch(&world.key(id)))),
        // It waits for an open fetch of its key, which nobody polls meanwhile.
        13..15 => drop(cache.get_or_insert_with(&world.key(8 + id % 32), || {
            world.at(Site::Make);
            world.value()
        })),
        15..18 => {
            let captured = Captured::new(world);
            hands.waits.push(cache.get_or_fetch(&world.key(id % 8), move || Fetch::new(captured.world())));
        }
        18..20 if !hands.waits.is_empty() => {
            let at = pick(hands.waits.len(), random);
            if let Poll::Ready(result) = poll_once(&mut hands.waits[at]) {
                hands.faults += usize::from(result.is_err_and(|error| error.number() == 11));
                drop(hands.waits.swap_remove(at));
            }
        }
        20 if !hands.waits.is_empty() => drop(hands.waits.swap_remove(pick(hands.waits.len(), random))),
        21 if !hands.entries.is_empty() => drop(hands.entries.swap_remove(pick(hands.entries.len(), random))),
        22 if !hands.entries.is_empty() => {
            let entry = hands.entries[pick(hands.entries.len(), random)].clone();
            hands.pieces.push(entry.piece());
        }
        23 if !hands.pieces.is_empty() => {
            let piece = hands.pieces.swap_remove(pick(hands.pieces.len(), random));
            *hands.again.entry(piece.value().serial).or_default() += 1;
            drop(cache.insert_piece(piece.clone()));
        }
        24 => match id {
            0..4 => cache.clear(),
            4..10 => cache.evict_all(),
            10..20 => cache.resize(20 + id as usize).unwrap(),
            20..30 => block_on(cache.flush()),
            _ => block_on(cache.flush_if(|key, _| {
                world.at(Site::Predicate);
                key.id % 2 == 0
            })),
        },
        25 => cache.retain(|key, _| {
            world.at(Site::Keep);
            key.id % 5 != 0
        }),
        26 => cache.for_each(|_, _| world.at(Site::Visit)),
        27 => drop(cache.keys()),
        28 => drop(hands.entries.drain(..).collect::<Vec<_>>()),
        29 => drop(cache.replace_if(None, world.key(id), world.value())),
        30 if !hands.entries.is_empty() => {
            let seen = &hands.entries[pick(hands.entries.len(), random)];
            match cache.replace_if(Some(seen), world.key(seen.key().id), world.value()) {
                Replaced::Inserted(entry) => hands.entries.push(entry),
                Replaced::Changed(found) => hands.entries.extend(found),
            }
        }
        31 if id % 2 == 0 => drop(cache.insert_if_fits(world.key(id), world.value())),
        31 => drop(hands.entries.pop().map(|entry| cache.remove_this(&entry))),
        _ => drop(world.time.fetch_add(random.below(4), SeqCst)),
    }
}

// What holds whatever happened.
fn check(world: &Arc<World>, cache: &Store, hands: &Hands) {
    let site = world.disarm();
    let (mut usage, mut entries) = (0, 0);
    cache.for_each(|key, value| {
        usage += weight_of(key.id);
        entries += 1;
        let is_told = !world.told_of(value.serial).is_empty();
        assert!(!is_told || hands.again.contains_key(&value.serial), "a record is in that was told");
        assert!(key.id % 17 != 5, "a record is in that was refused");
    });
    assert_eq!((cache.usage(), cache.entries()), (usage, entries));
    let time = world.time.swap(0, SeqCst);
    for key in cache.keys() {
        assert!(cache.contains(&key), "{} is in and not found", key.id);
    }
    world.time.store(time, SeqCst);
    world.rearm(site);
}

// Runs a script in which the `n`-th call of a place panics. Returns whether it did.
fn run(site: Site, n: i64, seed: u64, policy: EvictionConfig) -> bool {
    let world = World::new();
    let mut random = Random::new(seed);
    let (mut arrived, mut hands) = (0, Hands::default());
    let cache = store(&world, policy, 30, 3);
    world.arm(site, n);
    let mut rest = 200;
    while rest > 0 {
        rest -= 1;
        let before = world.thrown.load(SeqCst);
        let faults = hands.faults;
        match thrown(|| call(&world, &cache, &mut hands, &mut random)) {
            Ok(()) => {
                let is_fault = usize::from(hands.faults > faults);
                arrived += is_fault;
                assert_eq!(world.thrown.load(SeqCst), before + is_fault, "a panic was lost");
            }
            Err(message) => {
                assert_eq!(message, format!("boom {site:?}"));
                assert_eq!(world.thrown.load(SeqCst), before + 1, "a panic came late");
                arrived += 1;
                rest = 30;
                check(&world, &cache, &hands);
            }
        }
    }
    check(&world, &cache, &hands);
    let (made, again) = (std::mem::take(&mut hands.made), std::mem::take(&mut hands.again));
    arrived += usize::from(thrown(|| drop(hands)).is_err());
    arrived += usize::from(thrown(|| drop(cache)).is_err());
    assert_eq!(arrived, world.thrown.load(SeqCst));
    world.arm(Site::None, 0);
    assert!(
        world.live.load(SeqCst) == 0 || rustc_leaks(site),
        "{} leak or were dropped twice",
        world.live.load(SeqCst)
    );
    for (serial, events) in world.told.lock().unwrap().iter() {
        let is_phantom = events[..] == [Event::Remove, Event::Evict];
        let most = 1 + again.get(serial).unwrap_or(&0);
        assert!(events.len() <= most || is_phantom, "record {serial} was told {events:?}");
    }
    for serial in made {
        // A leaked entry keeps its cache, and what is in, for ever.
        assert!(!world.told_of(serial).is_empty() || rustc_leaks(site), "record {serial} was never told");
    }
    world.thrown.load(SeqCst) == 1
}

#[test]
fn a_panic_anywhere_arrives_once_and_leaves_the_cache_whole() {
    let most = reduced().unwrap_or(usize::MAX);
    let mut failed = Vec::new();
    for site in SITES.into_iter().filter(|site| reduced().is_none() || !rustc_leaks(*site)) {
        let mut burned = 0;
        for policy in policies() {
            for (at, n) in [1, 2, 3, 4, 6, 9, 13, 19, 28, 41, 60, 90].into_iter().enumerate().take(most) {
                let name = format!("{site:?} {n} {policy:?}");
                match thrown(|| run(site, n, 1 + at as u64, policy.clone())) {
                    Ok(true) => burned += 1,
                    Ok(false) => break,
                    Err(message) => failed.push(format!("{name}: {message}")),
                }
            }
        }
        assert!(burned >= 5 || !failed.is_empty(), "{site:?} panicked {burned} times");
    }
    assert!(failed.is_empty(), "{} failed:\n{}", failed.len(), failed.join("\n"));
}

// Seven callers wait while an eighth makes. Returns what each of them got: an entry's serial, an error's text or a panic.
fn seven_wait(
    world: &Arc<World>,
    cache: &Store,
    make: impl FnOnce() -> Page + Send,
) -> Vec<Result<Result<u64, String>, String>> {
    let (begun, waiting) = (Barrier::new(2), AtomicUsize::new(0));
    std::thread::scope(|scope| {
        let maker = scope.spawn(|| {
            world.enter();
            let made = || {
                begun.wait();
                // All seven are in their call by then, and most of them wait.
                while waiting.load(SeqCst) < 7 {
                    std::thread::yield_now();
                }
                std::thread::sleep(Duration::from_millis(20));
                Ok::<_, BoxError>(make())
            };
            thrown(|| {
                cache
                    .get_or_try_insert_with(&world.key(1), made)
                    .map(|entry| entry.serial)
                    .map_err(|error| error.to_string())
            })
        });
        begun.wait();
        let one = || {
            world.enter();
            waiting.fetch_add(1, SeqCst);
            let made = || Ok::<_, BoxError>(world.value());
            thrown(|| {
                cache
                    .get_or_try_insert_with(&world.key(1), made)
                    .map(|entry| entry.serial)
                    .map_err(|error| error.to_string())
            })
        };
        let all: Vec<_> = (0..7).map(|_| scope.spawn(one)).collect();
        let mut got = vec![maker.join().unwrap()];
        got.extend(all.into_iter().map(|thread| thread.join().unwrap()));
        got
    })
}

#[test]
fn who_waits_for_a_maker_that_panics_gets_its_message() {
    for policy in policies() {
        let world = World::new();
        let cache = store(&world, policy, 30, 3);
        let got = seven_wait(&world, &cache, || panic!("boom: no page"));
        assert_eq!(got[0], Err("boom: no page".to_owned()));
        assert!(got[1..].contains(&Ok(Err("the fetch failed: it panicked: boom: no page".to_owned()))), "{got:?}");
        for result in &got[1..] {
            assert!(
                matches!(result, Ok(Ok(_)))
                    || *result == Ok(Err("the fetch failed: it panicked: boom: no page".to_owned()))
            );
        }
        drop(cache.get_or_insert_with(&world.key(1), || world.value()));
        drop(cache);
        assert_eq!(world.live.load(SeqCst), 0);
    }
}

// An error whose text panics.
#[derive(Debug)]
struct Mute(Captured);

impl std::fmt::Display for Mute {
    fn fmt(&self, _: &mut std::fmt::Formatter<'_>) -> std::fmt::Result {
        panic!("boom {}", self.0.world().live.load(SeqCst) > 0)
    }
}

impl std::error::Error for Mute {}

#[test]
fn nobody_waits_for_ever_if_what_comes_after_the_maker_panics() {
    for site in [Site::Default, Site::Phantom, Site::Hint, Site::Weigh, Site::Admit, Site::Eq, Site::Hash, Site::Clone]
    {
        for n in 1..8 {
            let world = World::new();
            let cache = store(&world, LruConfig::default().into(), 30, 1);
            let got = seven_wait(&world, &cache, || {
                world.arm(site, n);
                world.value()
            });
            world.disarm();
            let panics = got.iter().filter(|result| result.is_err()).count();
            assert_eq!(panics, world.thrown.load(SeqCst), "{site:?} {n}: {got:?}");
            drop(cache.get_or_insert_with(&world.key(1), || world.value()));
            drop(cache);
            assert_eq!(world.live.load(SeqCst), 0, "{site:?} {n}");
        }
    }
    let world = World::new();
    let cache = store(&world, LruConfig::default().into(), 30, 1);
    for _ in 0..2 {
        let captured = Captured::new(&world);
        assert_eq!(
            thrown(|| cache.get_or_try_insert_with(&world.key(1), || Err(Mute(captured)))).unwrap_err(),
            "boom true"
        );
    }
    drop(cache);
    assert_eq!(world.live.load(SeqCst), 0);
}

#[test]
fn a_fetch_that_panics_is_a_fault_for_all_who_wait() {
    for policy in policies() {
        for site in [Site::FirstPoll, Site::SecondPoll, Site::DropFuture, Site::Into, Site::TimeToLive, Site::Clock] {
            if reduced().is_some() && rustc_leaks(site) {
                continue;
            }
            let world = World::new();
            let cache: Store = builder(&world, policy.clone(), 30, 3).with_time_to_live(Duration::from_secs(9)).build();
            let fetch = |world: &Arc<World>| {
                let world = Arc::clone(world);
                cache.get_or_fetch(&world.key(1), move || Fetch::new(&world))
            };
            let mut waits: Vec<_> = (0..8).map(|_| fetch(&world)).collect();
            world.arm(site, 1);
            let mut lead = waits.remove(0);
            let first = block_on(std::future::poll_fn(|cx| lead.poll_inner(cx)));
            world.disarm();
            assert_eq!(world.thrown.load(SeqCst), 1, "{site:?}");
            let text = format!("the fetch failed: it panicked: boom {site:?}");
            assert_eq!(first.map(drop).unwrap_err().to_string(), text, "{site:?}");
            for wait in waits {
                let error = block_on(wait).unwrap_err();
                assert_eq!((error.number(), error.to_string()), (11, text.clone()));
            }
            assert_eq!(cache.entries(), 0);
            assert_eq!(block_on(fetch(&world)).unwrap().key().id, 1);
            drop((lead, cache));
            assert!(world.live.load(SeqCst) == 0 || rustc_leaks(site), "{site:?}");
        }
    }
}

#[test]
fn a_closure_that_panics_leaves_no_fetch_open() {
    let world = World::new();
    let cache = store(&world, SieveConfig {}.into(), 30, 1);
    let key = world.key(1);
    for is_optional in [true, false] {
        let begin = || {
            let fo = || -> Option<OptionalFetchBuilder<Name, Page, Extra>> {
                assert!(!is_optional, "boom");
                None
            };
            let fr = || -> Option<RequiredFetchBuilder<Name, Page, Extra>> { panic!("boom") };
            let quiet = || -> Option<RequiredFetchBuilder<Name, Page, Extra>> { None };
            if is_optional { cache.get_or_fetch_inner(&key, fo, quiet) } else { cache.get_or_fetch_inner(&key, fo, fr) }
        };
        assert_eq!(thrown(begin).map(drop).unwrap_err(), "boom");
        let captured = Captured::new(&world);
        assert!(block_on(cache.get_or_fetch(&key, move || Fetch::new(captured.world()))).is_ok());
        cache.clear();
    }
    let cache: Store = builder(&world, SieveConfig {}.into(), 30, 1)
        .with_spawner(|task| panic!("boom {}", size_of_val(&task)))
        .build();
    let captured = Captured::new(&world);
    assert_eq!(
        thrown(|| cache.get_or_fetch(&key, move || Fetch::new(captured.world()))).map(drop).unwrap_err(),
        "boom 16"
    );
    drop(cache.get_or_insert_with(&key, || world.value()));
}

#[test]
fn a_builder_that_nobody_needs_is_dropped_with_no_lock_held() {
    let cache: Cache<u64, u64> = Cache::<u64, u64>::builder(100).with_shards(1).build();
    let fetch = |key: u64| {
        // Its drop locks the shard.
        let entry = cache.insert(1000 + key, key);
        cache.get_or_fetch(&7, move || async move { Ok::<_, BoxError>(*entry) })
    };
    let (lead, second, third) = (fetch(1), fetch(2), fetch(3));
    cache.insert(7, 9);
    assert_eq!([lead, second, third].map(|wait| *block_on(wait).unwrap()), [9; 3]);
    let (lead, other) = (fetch(1), fetch(2));
    drop(lead);
    assert_eq!(*block_on(other).unwrap(), 9);
    cache.remove(&7);
    let (lead, other) = (fetch(1), fetch(2));
    drop(lead);
    assert_eq!(block_on(other).unwrap_err().number(), 15);
}

#[test]
fn values_may_use_the_cache_when_they_are_dropped() {
    // The calls of the cache in which it is.
    type Calls = Arc<dyn Fn(u64) + Send + Sync>;
    struct Back(Calls, u64);
    impl Drop for Back {
        fn drop(&mut self) {
            (self.0)(self.1);
        }
    }
    for policy in policies() {
        let cache: Cache<u64, Option<Back>> =
            Cache::<u64, Option<Back>>::builder(10).with_shards(1).with_eviction_config(policy).build();
        let own = cache.clone();
        let calls: Calls = Arc::new(move |key| {
            own.get(&key);
            own.insert(key + 100, None);
        });
        for key in 0..50 {
            cache.insert(key, Some(Back(Arc::clone(&calls), key)));
            cache.insert(key % 7, Some(Back(Arc::clone(&calls), key)));
            let seen = cache.insert(200 + key, None);
            drop(cache.replace_if(Some(&seen), 200 + key, Some(Back(Arc::clone(&calls), key))));
            drop(cache.replace_if(Some(&seen), 200 + key, Some(Back(Arc::clone(&calls), key))));
            drop(cache.insert_if_fits(key % 3, Some(Back(Arc::clone(&calls), key))));
            cache.remove(&(key % 5));
            cache.get(&(200 + key)).map(|entry| cache.remove_this(&entry));
            drop(cache.get_or_fetch(&(1000 + key), || async { Err::<Option<Back>, _>("none") }));
        }
        cache.resize(2).unwrap();
        let held: Vec<_> = (500..503).map(|key| cache.insert(key, None)).collect();
        drop((0..3).filter_map(|at| cache.get(held[at].key())).collect::<Vec<_>>());
        drop(cache.insert_if_fits(600, Some(Back(Arc::clone(&calls), 600))));
        cache.retain(|key, _| key % 2 == 0);
        cache.evict_all();
        cache.clear();
        assert!(cache.entries() <= 2);
    }
}

struct Shy(Arc<World>);

impl Shy {
    fn waker(world: &Arc<World>) -> Waker {
        world.born();
        let data = Box::into_raw(Box::new(Shy(Arc::clone(world))));
        // SAFETY: the table's functions take such a box.
        unsafe { Waker::from_raw(RawWaker::new(data.cast(), &Shy::TABLE)) }
    }

    const TABLE: RawWakerVTable = RawWakerVTable::new(
        |data| {
            let shy = unsafe { &*data.cast::<Shy>() };
            shy.0.at(Site::CloneWaker);
            shy.0.born();
            RawWaker::new(Box::into_raw(Box::new(Shy(Arc::clone(&shy.0)))).cast_const().cast(), &Shy::TABLE)
        },
        |data| {
            let shy = unsafe { Box::from_raw(data.cast::<Shy>().cast_mut()) };
            shy.0.died();
            shy.0.at(Site::Wake);
        },
        |data| unsafe { (*data.cast::<Shy>()).0.at(Site::Wake) },
        |data| {
            let shy = unsafe { Box::from_raw(data.cast::<Shy>().cast_mut()) };
            shy.0.died();
        },
    );
}

#[test]
fn a_waker_that_panics_breaks_no_wait() {
    for site in [Site::CloneWaker, Site::Wake] {
        for n in 1..6 {
            let world = World::new();
            let cache = store(&world, FifoConfig {}.into(), 30, 1);
            let captured = Captured::new(&world);
            let lead = cache.get_or_fetch(&world.key(1), move || Fetch::new(captured.world()));
            let mut waits: Vec<_> =
                (0..4).map(|_| cache.get_or_fetch(&world.key(1), || async { Err::<Loaded, _>("none") })).collect();
            world.arm(site, n);
            let mut arrived = 0;
            let waker = Shy::waker(&world);
            for wait in &mut waits {
                match thrown(|| Pin::new(wait).poll(&mut Context::from_waker(&waker))) {
                    Ok(ready) => assert!(ready.is_pending()),
                    Err(_) => arrived += 1,
                }
            }
            let mut lead = Some(lead);
            arrived += usize::from(thrown(|| block_on(lead.as_mut().unwrap()).map(drop).unwrap()).is_err());
            world.disarm();
            for wait in waits {
                assert_eq!(block_on(wait).unwrap().serial, 0);
            }
            assert_eq!(arrived, world.thrown.load(SeqCst), "{site:?} {n}");
            drop((lead, cache, waker));
            assert_eq!(world.live.load(SeqCst), 0, "{site:?} {n}");
        }
    }
}

#[test]
fn a_panic_while_a_thread_unwinds_does_not_end_the_process() {
    for site in [Site::Listen, Site::DropValue, Site::DropKey, Site::DropProperties, Site::Send] {
        let world = World::new();
        let cache = store(&world, LruConfig::default().into(), 4, 1);
        let message = thrown(|| {
            let entries: Vec<_> = (0..40).map(|id| cache.insert(world.key(id), world.value())).collect();
            let pieces: Vec<_> = entries.iter().map(|entry| entry.piece()).collect();
            cache.clear();
            let own = cache.clone();
            world.arm(site, 1);
            if entries.len() + pieces.len() > own.shards() {
                panic!("boom: the user's");
            }
        });
        assert_eq!(message.unwrap_err(), "boom: the user's");
        world.disarm();
        cache.insert(world.key(1), world.value());
        drop(cache);
        assert_eq!(world.live.load(SeqCst), 0, "{site:?}");
    }
}

#[test]
fn a_hasher_that_panics_leaves_no_fetch_of_a_piece_open() {
    for site in [Site::BuildHasher, Site::Finish, Site::Hash, Site::Eq, Site::Weigh] {
        for n in 1..5 {
            let world = World::new();
            let [cache, other] = [1, 2].map(|shards| store(&world, FifoConfig {}.into(), 30, shards));
            let piece = other.insert(world.key(1), world.value()).piece();
            let mut lead = cache.get_or_fetch(&world.key(1), move || async move { Ok::<_, BoxError>(piece) });
            let mut second = cache.get_or_fetch(&world.key(1), || async { Err::<Loaded, _>("none") });
            world.arm(site, n);
            let arrived = thrown(|| poll_once(&mut lead).map(drop)).is_err();
            world.disarm();
            assert_eq!(usize::from(arrived), world.thrown.load(SeqCst), "{site:?} {n}");
            drop(lead);
            assert!(poll_once(&mut second).is_ready(), "{site:?} {n}");
            drop((second, cache, other));
            assert_eq!(world.live.load(SeqCst), 0, "{site:?} {n}");
        }
    }
}

#[test]
fn if_a_maker_panics_or_a_fetch_fails_one_of_the_others_calls_its_own() {
    let cache: Cache<u64, u64> = Cache::<u64, u64>::builder(10).build();
    let (begun, waiting, made) = (Barrier::new(2), AtomicUsize::new(0), AtomicUsize::new(0));
    let seven = |key: u64| {
        std::thread::scope(|scope| {
            let one = || {
                waiting.fetch_add(1, SeqCst);
                *cache.get_or_insert_with(&key, || made.fetch_add(1, SeqCst) as u64)
            };
            let all: Vec<_> = (0..7).map(|_| scope.spawn(one)).collect();
            all.into_iter().map(|thread| thread.join().unwrap()).collect::<Vec<_>>()
        })
    };
    // All seven are in their call by then, and most of them wait.
    let wait_for_all = || {
        while waiting.load(SeqCst) < 7 {
            std::thread::yield_now();
        }
        std::thread::sleep(Duration::from_millis(20));
    };
    std::thread::scope(|scope| {
        let first = scope.spawn(|| {
            let make = || {
                begun.wait();
                wait_for_all();
                panic!("boom: no page")
            };
            thrown(|| drop(cache.get_or_insert_with(&1, make)))
        });
        begun.wait();
        assert_eq!(seven(1), [0; 7]);
        assert_eq!(first.join().unwrap().unwrap_err(), "boom: no page");
    });
    waiting.store(0, SeqCst);
    std::thread::scope(|scope| {
        let lead = cache.get_or_fetch(&2, || async { Err::<u64, _>("none") });
        scope.spawn(move || {
            wait_for_all();
            drop(lead);
        });
        assert_eq!(seven(2), [1; 7]);
    });
}

#[test]
fn a_panic_of_a_drop_behind_a_closures_panic_does_not_come_later() {
    for is_retain in [false, true] {
        let world = World::new();
        let cache = store(&world, FifoConfig {}.into(), 30, 1);
        drop(cache.insert(world.key(1), world.value()));
        world.arm(Site::DropValue, 1);
        // The closure's own panic goes on, and what it removed is dropped after that.
        let delete = |key: &Name, _: &Page| -> bool {
            assert!(cache.delete(key));
            panic!("boom: the closure")
        };
        let call =
            || if is_retain { cache.retain(delete) } else { cache.for_each(|key, value| assert!(delete(key, value))) };
        assert_eq!(thrown(call).unwrap_err(), "boom: the closure");
        assert_eq!(world.thrown.load(SeqCst), 1);
        drop(cache.insert(world.key(2), world.value()));
        assert!(cache.contains(&world.key(2)));
        drop(cache);
        assert_eq!(world.live.load(SeqCst), 0);
    }
}
