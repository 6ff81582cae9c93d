//! A share of a cache, with the pipe that goes with it.

// Written by rust/erase/erase.py from crates/foyer_raw/src/shares.rt: change that.
#[allow(unused_imports)]
use crate::rattle_std::prelude::*;
use crate::proved::foyer_raw::counted::{CountedShard, Hashed, RawEnded};
use crate::proved::foyer_raw::entry::RawCacheEntry;
use crate::proved::foyer_raw::flush::Flush;
use crate::proved::foyer_raw::leaves::Leaves;
use crate::proved::foyer_raw::listener::tell;
use crate::proved::foyer_raw::pipe::Pipe;
use crate::proved::foyer_raw::stripes::Stripe;
use crate::proved::foyer_raw::ticket::{Answer, Notifier, Ticket, Waiters, refuse};
use crate::proved::foyer_core::{Answers, CoreEntry, Ended, Finder, Leave, Left, Piece};
use crate::proved::foyer_policy::{Error, EventListener, Eviction, Key, Properties, Result, Value};
use crate::rattle_std::sync::{Arc, MutexGuard, Wait};

mod ending;

pub(crate) use ending::Fetch;

/// What a cache, an entry, a wait and a task each have: a share of what they have in common, and the pipe.
pub(crate) struct Shares<H, E, K, V, S, P, W, A, L, Q, R, I>
where
    E: Eviction,
    K: Key,
    V: Value,
    P: Properties,
    L: EventListener<Key = K, Value = V>,
    I: Finder<K>,
{
    pub(crate) shared: Arc<Stripe<H, E, K, V, S, P, W, A, L, R, I>>,
    pub(crate) pipe: Option<Arc<Q>>,
}

impl<H, E, K, V, S, P, W, A, L, Q, R, I> Shares<H, E, K, V, S, P, W, A, L, Q, R, I>
where
    E: Eviction,
    K: Key,
    V: Value,
    P: Properties,
    L: EventListener<Key = K, Value = V>,
    I: Finder<K>,
{
    // The same shares again.
    #[inline]
    pub(crate) fn try_clone(&self) -> Result<Self> {
        let pipe = self.pipe_again()?;
        let shared = Arc::try_clone(&self.shared)?;
        Ok(Shares { shared, pipe })
    }

    // The same pipe again, where there is one.
    #[inline(always)]
    pub(crate) fn pipe_again(&self) -> Result<Option<Arc<Q>>> {
        match &self.pipe {
            Some(pipe) => Ok(Some(Arc::try_clone(pipe)?)),
            None => Ok(None),
        }
    }
}

impl<H, E, K, V, S, P, W, A, L, Q, R, I> Shares<H, E, K, V, S, P, W, A, L, Q, R, I>
where
    H: Wait,
    E: Eviction,
    K: Key,
    V: Value,
    P: Properties,
    L: EventListener<Key = K, Value = V>,
    I: Finder<K>,
    Q: Pipe<Key = K, Value = V, Properties = P>,
{
    // The shard of a hash, locked.
    #[inline(always)]
    pub(crate) fn lock(&self, hash: u64) -> MutexGuard<'_, CountedShard<E, K, V, P, R, I>> {
        self.shared.shards.lock(hash)
    }

    // The shard of a key, locked.
    #[inline(always)]
    pub(crate) fn of(&self, key: &Hashed<'_, K>) -> MutexGuard<'_, CountedShard<E, K, V, P, R, I>> {
        self.lock(key.hash())
    }

    // The entry of a handle.
    #[inline(always)]
    pub(crate) fn entry(self, core: CoreEntry<K, V, P>) -> RawCacheEntry<H, E, K, V, S, P, W, A, L, Q, R, I> {
        RawCacheEntry::new(self, core)
    }

    // Tells one leave. No lock is held.
    #[inline]
    pub(crate) fn tell(&self, leave: Leave<K, V, P>) {
        let (event, left) = leave;
        tell(&self.shared.listener, self.pipe.as_deref(), event, left);
    }

    // Tells leaves, in order.
    #[inline]
    pub(crate) fn tell_all(&self, leaves: Vec<Leave<K, V, P>>) {
        for leave in leaves {
            self.tell(leave);
        }
    }

    // Tells what left with a call, in order.
    #[inline(always)]
    pub(crate) fn tell_leaves(&self, leaves: Leaves<K, V, P>) {
        let Leaves { first, second, more } = leaves;
        if let Some(leave) = first {
            self.tell(leave);
        }
        if let Some(leave) = second {
            self.tell(leave);
        }
        self.tell_all(more);
    }

    // Takes a handle back under its shard's lock, and then tells what left with it. A handle that the shard doesn't know is
    // discarded.
    #[inline(always)]
    pub(crate) fn give_back(&self, core: CoreEntry<K, V, P>) {
        let taken = self.lock(core.hash()).take_back(&core);
        core.discard();
        if let Ok(Some(leave)) = taken {
            self.tell(leave);
        }
    }

    // Answers those who waited: each gets a handle, or none, or all get the one refusal. A handle that nobody wants is
    // given back.
    #[inline]
    pub(crate) fn answer(&self, answers: Answers<K, V, P, Notifier<Answer<K, V, P>>>) {
        let (waiters, got) = answers.into_parts();
        match got {
            Ok(entries) => self.hand_out(waiters, entries),
            Err(error) => refuse(waiters, error),
        }
    }

    // Answers those who waited for a fetch that has ended, and then tells what left.
    #[inline]
    pub(crate) fn ended(&self, ended: RawEnded<K, V, P>) {
        let Ended { found: _, answers, leaves } = ended;
        self.answer(answers);
        self.tell_all(leaves);
    }

    // Ends a fetch with an error.
    #[inline]
    pub(crate) fn end(&self, fetch: &Fetch, key: &K, error: Error) {
        let (key, alloc) = (fetch.hashed(key), self.shared.shards.alloc);
        let ended = self.of(&key).end(alloc, key, fetch.id, error);
        self.ended(ended);
    }

    // Hands handles of one record out, one to each who waited, and none where there is none left.
    #[inline]
    fn hand_out(&self, waiters: Waiters<K, V, P>, mut entries: Vec<CoreEntry<K, V, P>>) {
        for waiting in waiters {
            let ticket = entries.pop().map(Ticket::new);
            self.send(waiting.waiter, ticket);
        }
        while let Some(core) = entries.pop() {
            self.give_back(core);
        }
        entries.destroy_empty();
    }

    // Sends an answer. A handle that comes back is given back.
    #[inline]
    fn send(&self, waiter: Notifier<Answer<K, V, P>>, answer: Answer<K, V, P>) {
        let Err(Ok(Some(ticket))) = waiter.send(Ok(answer)) else {
            return;
        };
        if let Some(core) = ticket.into_core() {
            self.give_back(core);
        }
    }

    // Tells the listener all leaves, and then hands all their pieces to the pipe, if there is one that is enabled.
    #[inline]
    pub(crate) fn flush(
        &self,
        leaves: Vec<Leave<K, V, P>>,
        mut pieces: Vec<Piece<K, V, P>>,
        done: Result<()>,
    ) -> Flush<Q::Flush> {
        for (event, left) in leaves {
            self.shared.listener.on_leave(event, left.key(), left.value());
            self.collect(&mut pieces, left);
        }
        match self.pipe.as_deref() {
            Some(pipe) if pipe.is_enabled() => Flush::new(Some(pipe.flush(pieces)), done),
            _ => Flush::new(None, done),
        }
    }

    // Appends the piece of what left. Where the room that was made for it does not suffice, the pipe gets it alone.
    #[inline]
    fn collect(&self, pieces: &mut Vec<Piece<K, V, P>>, left: Left<K, V, P>) {
        let Err(refused) = pieces.push(left.piece()) else {
            return;
        };
        if let Some(pipe) = self.pipe.as_deref() {
            if pipe.is_enabled() {
                pipe.send(refused.value);
            }
        }
    }
}
