//! Calls on all records.

// Written by rust/erase/erase.py from crates/foyer_raw/src/cache/bulk.rt: change that.
#[allow(unused_imports)]
use crate::rattle_std::prelude::*;
use super::RawCache;
use crate::proved::foyer_raw::counted::{At, Capacity};
use crate::proved::foyer_raw::fetch::FetchTypes;
use crate::proved::foyer_raw::flush::{Flush, FlushIf};
use crate::proved::foyer_raw::pipe::Pipe;
use crate::proved::foyer_core::Finder;
use crate::proved::foyer_policy::{Error, Event, EventListener, Eviction, Key, Properties, Reason, Result, Value};
use crate::rattle_std::sync::Wait;

impl<H, E, K, V, S, P, W, A, L, Q, T, I> RawCache<H, E, K, V, S, P, W, A, L, Q, T, I>
where
    H: Wait,
    E: Eviction,
    K: Key,
    V: Value,
    P: Properties,
    L: EventListener<Key = K, Value = V>,
    I: Finder<K>,
    Q: Pipe<Key = K, Value = V, Properties = P>,
    T: FetchTypes<K, V, P>,
{
    /// Removes all records, shard by shard, in the policy's order. The listener is told of each as `Clear`.
    ///
    /// # Errors
    /// F7 if memory runs out; the shards before are cleared, and their records reported.
    #[inline]
    pub fn clear(&self) -> Result<()> {
        let shards = &self.shares.shared.shards;
        let mut leaves = Vec::new(shards.alloc);
        let done = shards.clear(&mut leaves);
        self.shares.tell_all(leaves);
        done
    }

    /// Evicts all records that aren't pinned, shard by shard: those expired at `now` first, then in the policy's order.
    ///
    /// # Errors
    /// F7 if memory runs out; the evictions made so far stand and are reported.
    #[inline]
    pub fn evict_all(&self, now: u64) -> Result<()> {
        let shards = &self.shares.shared.shards;
        let mut leaves = Vec::new(shards.alloc);
        let done = shards.evict_all(At::new(now), &mut leaves);
        self.shares.tell_all(leaves);
        done
    }

    /// Sets the capacity, divides it among the shards and evicts what no longer fits, records expired at `now` first.
    ///
    /// Calls of `resize` and `configure` take turns.
    ///
    /// # Errors
    /// F7 if memory runs out; the capacity is set all the same, and the evictions made so far stand and are reported.
    #[inline]
    pub fn resize(&self, now: u64, capacity: usize) -> Result<()> {
        let shards = &self.shares.shared.shards;
        let mut leaves = Vec::new(shards.alloc);
        let done = shards.resize(At::new(now), Capacity::new(capacity), &mut leaves);
        self.shares.tell_all(leaves);
        done
    }

    /// Gives the policy another configuration, as `configure` does, if it has no fault.
    ///
    /// # Errors
    /// F17 if a shard's policy doesn't take the configuration, F2 to F6 for its first fault; nothing has changed.
    #[inline]
    pub fn reconfigure(&self, config: &E::Config) -> Result<()> {
        let shards = &self.shares.shared.shards;
        if !shards.all_take(config) {
            return Err(Error::new(Reason::WrongPolicy));
        }
        E::check(config)?;
        shards.configure(config);
        Ok(())
    }

    /// Gives each shard's policy another configuration, which has no fault, unless the policy refuses it.
    ///
    /// Later calls of `resize` use it too. No record leaves, and no memory is taken. Calls of `resize` and `configure`
    /// take turns.
    #[inline]
    pub fn configure(&self, config: &E::Config) {
        self.shares.shared.shards.configure(config);
    }

    /// Evicts all records that aren't pinned, as `evict_all` does, and hands their pieces to the pipe if it is enabled.
    ///
    /// All of that happens in this call; the future waits for the pipe.
    ///
    /// # Errors
    /// The future gives F7 if memory ran out; the evictions made until then stand and are reported.
    #[inline]
    pub fn flush(&self, now: u64) -> Flush<Q::Flush> {
        let shards = &self.shares.shared.shards;
        let mut leaves = Vec::new(shards.alloc);
        let mut pieces = Vec::new(shards.alloc);
        let done = shards.flush(At::new(now), &mut leaves, &mut pieces);
        self.shares.flush(leaves, pieces, done)
    }

    /// Evicts the records for which the predicate returns true, pinned or not, and reports them as `flush` does.
    ///
    /// The predicate is called once for each record, under its shard's lock: it must not call this cache.
    ///
    /// # Errors
    /// The future gives F7 if memory ran out; the shards before are done.
    #[inline]
    pub fn flush_if<F: Fn(&K, &V) -> bool>(&self, predicate: F) -> FlushIf<Q::Flush> {
        let shards = &self.shares.shared.shards;
        let mut leaves = Vec::new(shards.alloc);
        let mut pieces = Vec::new(shards.alloc);
        let done = shards.flush_if(&predicate, &mut leaves, &mut pieces);
        self.shares.flush(leaves, pieces, done)
    }

    /// Calls a closure with each record, expired or not: shard by shard, in the policy's order. The records of a shard are
    /// those that it had at one moment. No lock is held during a call, so the closure may use the cache. It counts as no use.
    ///
    /// # Errors
    /// F7 if memory runs out; the shards before have been visited.
    #[inline]
    pub fn for_each<F: FnMut(&K, &V)>(&self, mut visit: F) -> Result<()> {
        let shards = &self.shares.shared.shards;
        for place in 0..shards.len() {
            let pieces = shards.pieces(place)?;
            for piece in &pieces {
                visit(piece.key(), piece.value());
            }
        }
        Ok(())
    }

    /// Returns a clone of each record's key, expired or not, in the order of `for_each`.
    ///
    /// # Errors
    /// F7 if memory runs out.
    #[inline]
    pub fn keys(&self) -> Result<Vec<K>> {
        let shards = &self.shares.shared.shards;
        let mut keys = Vec::new(shards.alloc);
        for place in 0..shards.len() {
            let pieces = shards.pieces(place)?;
            keys.reserve(pieces.len())?;
            for piece in &pieces {
                keys.push(piece.key().try_clone()?)?;
            }
        }
        Ok(keys)
    }

    /// Removes each record for which a closure returns false, and tells the listener (`Remove`). The closure sees each record,
    /// expired or not, in the order of `for_each`, and may use the cache. A record that was replaced meanwhile stays.
    ///
    /// # Errors
    /// F7 if memory runs out; the shards before are done.
    #[inline]
    pub fn retain<F: FnMut(&K, &V) -> bool>(&self, mut keep: F) -> Result<()> {
        let shards = &self.shares.shared.shards;
        for place in 0..shards.len() {
            let pieces = shards.pieces(place)?;
            for piece in &pieces {
                if keep(piece.key(), piece.value()) {
                    continue;
                }
                let taken = shards.lock(piece.hash()).remove_piece(piece);
                if let Some(left) = taken {
                    self.shares.tell((Event::Remove, left));
                }
            }
        }
        Ok(())
    }
}
