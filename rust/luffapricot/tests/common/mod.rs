//! A user's code that panics at a chosen place, and counts what lives.
#![allow(dead_code)]

use luffapricot::*;
use std::cell::RefCell;
use std::collections::HashMap;
use std::hash::{BuildHasher, DefaultHasher, Hash, Hasher};
use std::panic::{AssertUnwindSafe, catch_unwind};
use std::pin::Pin;
use std::result::Result;
use std::sync::atomic::{AtomicI64, AtomicU64, AtomicUsize, Ordering::SeqCst};
use std::sync::{Arc, Mutex, Once};
use std::task::{Context, Poll, Wake, Waker};
use std::time::Duration;

/// A place in a user's code.
#[derive(Clone, Copy, Debug, PartialEq, Eq)]
#[repr(usize)]
pub enum Site {
    None,
    Eq,
    Hash,
    BuildHasher,
    Finish,
    Clone,
    DropKey,
    DropValue,
    Weigh,
    Admit,
    Listen,
    Clock,
    Default,
    Phantom,
    Hint,
    TimeToLive,
    CloneProperties,
    DropProperties,
    IsEnabled,
    Send,
    Flush,
    PollFlush,
    Predicate,
    Visit,
    Keep,
    Make,
    BuildFetch,
    FirstPoll,
    SecondPoll,
    DropFuture,
    DropBuilder,
    Into,
    Spawn,
    CloneWaker,
    Wake,
}

/// What the user's code of one cache shares.
#[derive(Debug, Default)]
pub struct World {
    site: AtomicUsize,
    left: AtomicI64,
    pub thrown: AtomicUsize,
    /// Keys, values, properties and futures that live.
    pub live: AtomicI64,
    pub serial: AtomicU64,
    pub time: AtomicU64,
    pub told: Mutex<HashMap<u64, Vec<Event>>>,
    pub sent: AtomicU64,
}

thread_local! {
    // The world of properties that come from nowhere.
    static WORLD: RefCell<Option<Arc<World>>> = const { RefCell::new(None) };
}

impl World {
    pub fn new() -> Arc<World> {
        let world = Arc::new(World::default());
        world.enter();
        world
    }

    pub fn enter(self: &Arc<World>) {
        WORLD.with(|current| *current.borrow_mut() = Some(Arc::clone(self)));
    }

    /// Has the `n`-th call of a place panic.
    pub fn arm(&self, site: Site, n: i64) {
        self.left.store(n, SeqCst);
        self.site.store(site as usize, SeqCst);
    }

    /// Has nothing panic until `rearm`.
    pub fn disarm(&self) -> usize {
        self.site.swap(Site::None as usize, SeqCst)
    }

    pub fn rearm(&self, site: usize) {
        self.site.store(site, SeqCst);
    }

    pub fn at(&self, site: Site) {
        if self.site.load(SeqCst) == site as usize && self.left.fetch_sub(1, SeqCst) == 1 {
            self.thrown.fetch_add(1, SeqCst);
            panic!("boom {site:?}");
        }
    }

    pub fn born(&self) {
        self.live.fetch_add(1, SeqCst);
    }

    pub fn died(&self) {
        self.live.fetch_sub(1, SeqCst);
    }

    pub fn key(self: &Arc<World>, id: u64) -> Name {
        self.born();
        Name { id, world: Arc::clone(self) }
    }

    pub fn value(self: &Arc<World>) -> Page {
        self.born();
        Page { serial: self.serial.fetch_add(1, SeqCst), world: Arc::clone(self) }
    }

    pub fn told_of(&self, serial: u64) -> Vec<Event> {
        self.told.lock().unwrap().get(&serial).cloned().unwrap_or_default()
    }
}

pub struct Name {
    pub id: u64,
    pub world: Arc<World>,
}

impl PartialEq for Name {
    fn eq(&self, other: &Self) -> bool {
        self.world.at(Site::Eq);
        self.id == other.id
    }
}

impl Eq for Name {}

impl Hash for Name {
    fn hash<H: Hasher>(&self, state: &mut H) {
        self.world.at(Site::Hash);
        // Two keys to each hash, so that keys are compared.
        (self.id / 2).hash(state);
    }
}

impl Clone for Name {
    fn clone(&self) -> Self {
        self.world.at(Site::Clone);
        self.world.key(self.id)
    }
}

impl Drop for Name {
    fn drop(&mut self) {
        self.world.died();
        self.world.at(Site::DropKey);
    }
}

pub struct Page {
    pub serial: u64,
    pub world: Arc<World>,
}

impl Drop for Page {
    fn drop(&mut self) {
        self.world.died();
        self.world.at(Site::DropValue);
    }
}

/// The weight of a key's record.
pub fn weight_of(id: u64) -> usize {
    1 + (id % 3) as usize
}

#[derive(Debug)]
pub struct Extra {
    pub hint: Hint,
    pub time_to_live: Option<Duration>,
    pub is_phantom: bool,
    world: Option<Counted>,
}

struct Counted(Arc<World>);

impl std::fmt::Debug for Counted {
    fn fmt(&self, f: &mut std::fmt::Formatter<'_>) -> std::fmt::Result {
        f.write_str("Counted")
    }
}

impl Drop for Counted {
    fn drop(&mut self) {
        self.0.died();
        self.0.at(Site::DropProperties);
    }
}

impl Extra {
    fn at(&self, site: Site) {
        if let Some(world) = &self.world {
            world.0.at(site);
        }
    }
}

impl Default for Extra {
    fn default() -> Self {
        let world = WORLD.with(|world| world.borrow().clone());
        if let Some(world) = &world {
            world.at(Site::Default);
            world.born();
        }
        Extra { hint: Hint::Normal, time_to_live: None, is_phantom: false, world: world.map(Counted) }
    }
}

impl Clone for Extra {
    fn clone(&self) -> Self {
        self.at(Site::CloneProperties);
        let world = self.world.as_ref().map(|world| {
            world.0.born();
            Counted(Arc::clone(&world.0))
        });
        Extra { hint: self.hint, time_to_live: self.time_to_live, is_phantom: self.is_phantom, world }
    }
}

impl Properties for Extra {
    fn with_phantom(mut self, phantom: bool) -> Self {
        self.is_phantom = phantom;
        self
    }

    fn phantom(&self) -> Option<bool> {
        self.at(Site::Phantom);
        Some(self.is_phantom)
    }

    fn with_hint(mut self, hint: Hint) -> Self {
        self.hint = hint;
        self
    }

    fn hint(&self) -> Option<Hint> {
        self.at(Site::Hint);
        Some(self.hint)
    }

    fn with_location(self, _location: Location) -> Self {
        self
    }

    fn location(&self) -> Option<Location> {
        None
    }

    fn with_age(self, _age: Age) -> Self {
        self
    }

    fn age(&self) -> Option<Age> {
        None
    }

    fn time_to_live(&self) -> Option<Duration> {
        self.at(Site::TimeToLive);
        self.time_to_live
    }
}

#[derive(Clone)]
pub struct Build(pub Arc<World>);

pub struct State(Arc<World>, DefaultHasher);

impl BuildHasher for Build {
    type Hasher = State;

    fn build_hasher(&self) -> State {
        self.0.at(Site::BuildHasher);
        State(Arc::clone(&self.0), DefaultHasher::new())
    }
}

impl Hasher for State {
    fn write(&mut self, bytes: &[u8]) {
        self.1.write(bytes);
    }

    fn finish(&self) -> u64 {
        self.0.at(Site::Finish);
        self.1.finish()
    }
}

pub struct Disk(pub Arc<World>);

impl Pipe for Disk {
    type Key = Name;

    type Value = Page;

    type Properties = Extra;

    fn is_enabled(&self) -> bool {
        self.0.at(Site::IsEnabled);
        true
    }

    fn send(&self, _piece: Piece<Name, Page, Extra>) {
        self.0.at(Site::Send);
        self.0.sent.fetch_add(1, SeqCst);
    }

    fn flush(&self, pieces: Vec<Piece<Name, Page, Extra>>) -> BoxFuture<()> {
        self.0.at(Site::Flush);
        self.0.sent.fetch_add(pieces.len() as u64, SeqCst);
        let world = Arc::clone(&self.0);
        Box::pin(async move {
            yield_now().await;
            world.at(Site::PollFlush);
            drop(pieces);
        })
    }
}

pub type Store = Cache<Name, Page, Build, Extra>;
pub type Entry = CacheEntry<Name, Page, Build, Extra>;

pub fn policies() -> [EvictionConfig; 5] {
    ["fifo", "lru", "lfu", "s3fifo", "sieve"].map(|name| name.parse().expect("a policy"))
}

pub fn builder(
    world: &Arc<World>,
    policy: EvictionConfig,
    capacity: usize,
    shards: usize,
) -> CacheBuilder<Name, Page, Build> {
    let (weigher, filter, listener, clock) =
        (Arc::clone(world), Arc::clone(world), Arc::clone(world), Arc::clone(world));
    CacheBuilder::new(capacity)
        .with_shards(shards)
        .with_eviction_config(policy)
        .with_hash_builder(Build(Arc::clone(world)))
        .with_weighter(move |key: &Name, _: &Page| {
            weigher.at(Site::Weigh);
            weight_of(key.id)
        })
        .with_filter(move |key: &Name, _: &Page| {
            filter.at(Site::Admit);
            key.id % 17 != 5
        })
        .with_listener(move |event, _: &Name, value: &Page| {
            listener.told.lock().unwrap().entry(value.serial).or_default().push(event);
            listener.at(Site::Listen);
        })
        .with_clock(move || {
            clock.at(Site::Clock);
            Duration::from_secs(clock.time.load(SeqCst))
        })
}

pub fn store(world: &Arc<World>, policy: EvictionConfig, capacity: usize, shards: usize) -> Store {
    builder(world, policy, capacity, shards).build().with_pipe(Arc::new(Disk(Arc::clone(world))))
}

/// Calls, and returns the message of a panic.
pub fn thrown<T>(call: impl FnOnce() -> T) -> Result<T, String> {
    quiet();
    catch_unwind(AssertUnwindSafe(call)).map_err(|panic| {
        let text = panic.downcast_ref::<&str>().map(|text| (*text).to_owned());
        text.or_else(|| panic.downcast_ref::<String>().cloned()).unwrap_or_default()
    })
}

// Panics that are wanted aren't printed.
fn quiet() {
    static ONCE: Once = Once::new();
    ONCE.call_once(|| {
        let before = std::panic::take_hook();
        std::panic::set_hook(Box::new(move |info| {
            let text = info.payload().downcast_ref::<&str>().copied();
            let text = text.or_else(|| info.payload().downcast_ref::<String>().map(String::as_str)).unwrap_or("");
            let is_wanted =
                ["boom", "the proof says", "a cache's lock is poisoned"].iter().any(|begin| text.starts_with(begin));
            if !is_wanted {
                before(info);
            }
        }));
    });
}

/// Gives the executor a turn.
pub async fn yield_now() {
    let mut is_second = false;
    std::future::poll_fn(move |cx| {
        if std::mem::replace(&mut is_second, true) {
            return Poll::Ready(());
        }
        cx.waker().wake_by_ref();
        Poll::Pending
    })
    .await;
}

struct Unpark(std::thread::Thread);

impl Wake for Unpark {
    fn wake(self: Arc<Self>) {
        self.0.unpark();
    }
}

/// Polls until it is ready.
pub fn block_on<F: Future>(future: F) -> F::Output {
    let waker = Waker::from(Arc::new(Unpark(std::thread::current())));
    let mut future = std::pin::pin!(future);
    loop {
        if let Poll::Ready(output) = future.as_mut().poll(&mut Context::from_waker(&waker)) {
            return output;
        }
        std::thread::park();
    }
}

pub fn poll_once<F: Future + Unpin>(future: &mut F) -> Poll<F::Output> {
    Pin::new(future).poll(&mut Context::from_waker(Waker::noop()))
}

/// A future that panics where it is told to, and gives a page.
pub struct Fetch {
    world: Arc<World>,
    polls: u32,
}

impl Fetch {
    pub fn new(world: &Arc<World>) -> Fetch {
        world.at(Site::BuildFetch);
        world.born();
        Fetch { world: Arc::clone(world), polls: 0 }
    }
}

impl Future for Fetch {
    type Output = Result<Loaded, BoxError>;

    fn poll(mut self: Pin<&mut Self>, cx: &mut Context<'_>) -> Poll<Self::Output> {
        self.polls += 1;
        self.world.at(if self.polls == 1 { Site::FirstPoll } else { Site::SecondPoll });
        if self.polls < 3 {
            cx.waker().wake_by_ref();
            return Poll::Pending;
        }
        Poll::Ready(Ok(Loaded(self.world.value())))
    }
}

impl Drop for Fetch {
    fn drop(&mut self) {
        self.world.died();
        self.world.at(Site::DropFuture);
    }
}

pub struct Loaded(Page);

impl From<Loaded> for FetchTarget<Name, Page, Extra> {
    fn from(loaded: Loaded) -> Self {
        loaded.0.world.at(Site::Into);
        let time_to_live = Some(Duration::from_secs(1000));
        let properties = Extra { time_to_live, ..Extra::default() };
        FetchTarget::Entry { value: loaded.0, properties }
    }
}

/// What a closure captures whose drop may panic.
#[derive(Debug)]
pub struct Captured(Arc<World>);

impl Captured {
    pub fn new(world: &Arc<World>) -> Captured {
        world.born();
        Captured(Arc::clone(world))
    }

    pub fn world(&self) -> &Arc<World> {
        &self.0
    }
}

impl Drop for Captured {
    fn drop(&mut self) {
        self.0.died();
        self.0.at(Site::DropBuilder);
    }
}

/// Numbers at random, by xorshift.
pub struct Random(u64);

impl Random {
    pub fn new(seed: u64) -> Random {
        Random(seed.wrapping_mul(0x9e37_79b9_7f4a_7c15) | 1)
    }

    pub fn below(&mut self, n: u64) -> u64 {
        self.0 ^= self.0 << 13;
        self.0 ^= self.0 >> 7;
        self.0 ^= self.0 << 17;
        (self.0 >> 11) % n
    }
}
