//! over_rust POLICY CAPACITY SHARDS: carries out the lines of `foyer-sim` over a `luffapricot::Cache`, and prints the same.
//!
//! A key's hash is the key. A life is given as a `Duration` after a clock that the lines set; one that is over already was
//! given at a clock that was earlier. As the time 2^64 - 1 is for ever in the crate, a script that has it is shifted: all
//! its times after the last one that it doesn't have come one nanosecond earlier.

use luffapricot::*;
use std::collections::{HashMap, HashSet};
use std::io::{Read, Write};
use std::pin::{Pin, pin};
use std::sync::atomic::{AtomicU64, Ordering::SeqCst};
use std::sync::{Arc, Mutex};
use std::task::{Context, Poll, Waker};
use std::time::Duration;

const MOST_DIGITS: usize = 20;
const NONE: u64 = u64::MAX;

/// A value with the weight that its line gave.
#[derive(Clone, Copy)]
struct Weighed {
    value: u64,
    weight: u64,
}

type SimCache = Cache<u64, Weighed, ModHasher>;
type Entry = CacheEntry<u64, Weighed, ModHasher>;
type Look = GetOrFetch<u64, Weighed, ModHasher>;

/// A value that a line gives later.
#[derive(Clone, Default)]
struct Promise(Arc<Mutex<Option<u64>>>);

impl Future for Promise {
    type Output = std::result::Result<Weighed, BoxError>;

    fn poll(self: Pin<&mut Self>, _: &mut Context<'_>) -> Poll<Self::Output> {
        let given = *self.0.lock().unwrap();
        given.map_or(Poll::Pending, |value| Poll::Ready(Ok(Weighed { value, weight: 1 })))
    }
}

/// What the cache's clock says: for one reading an earlier time, if there is one.
struct Time {
    now: AtomicU64,
    earlier: AtomicU64,
}

impl Time {
    fn read(&self) -> Duration {
        let earlier = self.earlier.swap(NONE, SeqCst);
        Duration::from_nanos(if earlier == NONE { self.now.load(SeqCst) } else { earlier })
    }
}

struct Sim {
    cache: SimCache,
    time: Arc<Time>,
    // Times from here on come one earlier.
    shifted: Option<u64>,
    left: Arc<Mutex<Vec<String>>>,
    spawned: Arc<Mutex<Vec<BoxFuture<()>>>>,
    handles: Vec<Option<Entry>>,
    waiting: Vec<(u64, u64, Look)>,
    fetches: HashMap<(u64, u64), (Promise, BoxFuture<()>)>,
    // Of each shard, the next token and the next fetch.
    next: Vec<(u64, u64)>,
}

fn polled<F: Future + Unpin>(future: &mut F) -> Option<F::Output> {
    match pin!(future).poll(&mut Context::from_waker(Waker::noop())) {
        Poll::Ready(output) => Some(output),
        Poll::Pending => None,
    }
}

fn done(result: std::result::Result<(), Error>) -> String {
    result.map_or_else(|error| format!("F{}", error.number()), |()| "ok".into())
}

fn yes(is_so: bool) -> String {
    if is_so { "yes" } else { "no" }.into()
}

impl Sim {
    fn new(policy: &str, capacity: usize, shards: usize, shifted: Option<u64>) -> Self {
        let time = Arc::new(Time { now: 0.into(), earlier: NONE.into() });
        let (left, spawned) = (Arc::new(Mutex::new(Vec::new())), Arc::new(Mutex::new(Vec::new())));
        let (clock, told, tasks) = (Arc::clone(&time), Arc::clone(&left), Arc::clone(&spawned));
        let cache = CacheBuilder::new(capacity)
            .with_shards(shards)
            .with_eviction_config(policy.parse::<EvictionConfig>().unwrap())
            .with_hash_builder(ModHasher::default())
            .with_weighter(|_: &u64, it: &Weighed| it.weight as usize)
            .with_clock(move || clock.read())
            .with_spawner(move |task| tasks.lock().unwrap().push(task))
            .with_listener(move |event: Event, key: &u64, it: &Weighed| {
                let name = format!("{event:?}").to_lowercase();
                told.lock().unwrap().push(format!("{name} {key}={}", it.value));
            })
            .build();
        let next = vec![(0, 0); shards];
        let (handles, waiting, fetches) = (Vec::new(), Vec::new(), HashMap::new());
        Sim { cache, time, shifted, left, spawned, handles, waiting, fetches, next }
    }

    fn moment(&self, time: u64) -> u64 {
        time - u64::from(self.shifted.is_some_and(|first| time >= first))
    }

    fn hold(&mut self, entry: Entry) -> String {
        self.handles.push(Some(entry));
        format!("h{}", self.handles.len() - 1)
    }

    fn found(&mut self, entry: Option<Entry>) -> String {
        entry.map_or("none".into(), |entry| {
            let value = entry.value;
            format!("{} {value}", self.hold(entry))
        })
    }

    fn insert(&mut self, key: u64, it: Weighed, properties: CacheProperties) -> String {
        match self.cache.try_insert(key, it, properties) {
            Err(error) => format!("F{}", error.number()),
            Ok(entry) => {
                let answers = self.answers(key);
                let handle = self.hold(entry);
                [vec![handle], answers].concat().join(" ")
            }
        }
    }

    /// What expires then: after the current time, or else by a clock that was earlier.
    fn expiring(&self, expires: u64) -> CacheProperties {
        let (now, expires) = (self.time.now.load(SeqCst), self.moment(expires));
        if expires < now {
            self.time.earlier.store(expires, SeqCst);
        }
        CacheProperties::default().with_time_to_live(Duration::from_nanos(expires.saturating_sub(now)))
    }

    fn fetch(&mut self, key: u64) -> String {
        let promise = Promise::default();
        let look = match self.cache.get_or_fetch(&key, || promise.clone()).try_unwrap() {
            Ok(entry) => return self.found(Some(entry)),
            Err(look) => look,
        };
        let shard = (key % self.next.len() as u64) as usize;
        let (token, fetch) = self.next[shard];
        self.next[shard].0 += 1;
        self.waiting.push((key, token, look));
        let Some(mut task) = self.spawned.lock().unwrap().pop() else {
            return format!("wait t{token}");
        };
        assert!(polled(&mut task).is_none());
        self.next[shard].1 += 1;
        self.fetches.insert((key, fetch), (promise, task));
        format!("lead t{token} f{fetch}")
    }

    /// Ends a fetch with a value, or drops its task.
    fn end(&mut self, key: u64, fetch: u64, value: Option<u64>) -> String {
        if let Some((promise, mut task)) = self.fetches.remove(&(key, fetch)) {
            if value.is_some() {
                *promise.0.lock().unwrap() = value;
                polled(&mut task).expect("the task is done");
            }
        }
        let answers = self.answers(key);
        if answers.is_empty() { "lost".into() } else { answers.join(" ") }
    }

    /// What those got who wait for a key no longer.
    fn answers(&mut self, key: u64) -> Vec<String> {
        let mut answers = Vec::new();
        for (other, token, mut look) in std::mem::take(&mut self.waiting) {
            match if other == key { polled(&mut look) } else { None } {
                None => self.waiting.push((other, token, look)),
                Some(Ok(entry)) => answers.push(format!("t{token}={}", self.hold(entry))),
                Some(Err(error)) => answers.push(format!("t{token}=F{}", error.number())),
            }
        }
        answers
    }

    fn drop(&mut self, number: u64) -> String {
        let held = usize::try_from(number).ok().and_then(|number| self.handles.get_mut(number)?.take());
        held.map_or("not held", |_| "ok").into()
    }

    /// The reply to a line, unless it is none.
    fn reply(&mut self, word: &str, numbers: &[u64]) -> Option<String> {
        let plain = CacheProperties::default();
        Some(match (word, numbers) {
            ("insert", &[key, value]) => self.insert(key, Weighed { value, weight: 1 }, plain),
            ("insert", &[key, value, weight]) => self.insert(key, Weighed { value, weight }, plain),
            ("insert", &[key, value, weight, expires]) => {
                let properties = self.expiring(expires);
                self.insert(key, Weighed { value, weight }, properties)
            }
            ("phantom", &[key, value]) => self.insert(key, Weighed { value, weight: 1 }, plain.with_phantom(true)),
            ("phantom", &[key, value, weight]) => self.insert(key, Weighed { value, weight }, plain.with_phantom(true)),
            ("get", [key]) => {
                let entry = self.cache.get(key);
                self.found(entry)
            }
            ("remove", [key]) => {
                let entry = self.cache.remove(key);
                self.found(entry)
            }
            ("contains", [key]) => yes(self.cache.contains(key)),
            ("touch", [key]) => yes(self.cache.touch(key)),
            ("drop", &[number]) => self.drop(number),
            ("clear", []) => {
                self.cache.clear();
                "ok".into()
            }
            ("evict", []) => {
                self.cache.evict_all();
                "ok".into()
            }
            ("resize", &[capacity]) => done(self.cache.resize(capacity as usize)),
            ("high", &[num, den]) if num <= u32::MAX.into() && den <= u32::MAX.into() => {
                done(self.cache.reconfigure(LruConfig { high_priority_pool_ratio: num as f64 / den as f64 }))
            }
            ("fetch", &[key]) => self.fetch(key),
            ("done", &[key, fetch, value]) => self.end(key, fetch, Some(value)),
            ("cancel", &[key, fetch]) => self.end(key, fetch, None),
            ("at", &[time]) => {
                self.time.now.store(self.moment(time), SeqCst);
                "ok".into()
            }
            _ => return None,
        })
    }
}

fn number(word: &&str) -> Option<u64> {
    let is_number = word.len() <= MOST_DIGITS && word.bytes().all(|it| it.is_ascii_digit());
    word.parse().ok().filter(|_| is_number)
}

/// From where on the script's times are shifted, if it has the last one.
fn shifted(script: &str) -> Option<u64> {
    let lines = script.lines().map(|it| it.split(' ').filter(|it| !it.is_empty()).collect::<Vec<_>>());
    let times: HashSet<u64> = lines.filter_map(|it| match it[..] {
        ["at", time] | ["insert", _, _, _, time] => number(&time),
        _ => None,
    }).collect();
    times.contains(&u64::MAX).then(|| (0..=u64::MAX).rev().find(|it| !times.contains(it)).unwrap() + 1)
}

fn main() {
    let args: Vec<String> = std::env::args().collect();
    let mut script = String::new();
    std::io::stdin().read_to_string(&mut script).unwrap();
    let mut sim = Sim::new(&args[1], args[2].parse().unwrap(), args[3].parse().unwrap(), shifted(&script));
    let mut out = std::io::stdout().lock();
    for line in script.lines() {
        let words: Vec<&str> = line.split(' ').filter(|it| !it.is_empty()).collect();
        let Some((word, numbers)) = words.split_first() else { continue };
        let numbers: Option<Vec<u64>> = numbers.iter().map(number).collect();
        let reply = numbers.and_then(|it| sim.reply(word, &it)).unwrap_or("bad line".into());
        let left = std::mem::take(&mut *sim.left.lock().unwrap()).join(", ");
        let left = if left.is_empty() { "-" } else { &left };
        writeln!(out, "{reply} | {left} | usage {} entries {}", sim.cache.usage(), sim.cache.entries()).unwrap();
    }
}
