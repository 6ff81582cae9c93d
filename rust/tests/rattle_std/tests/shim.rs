//! What the shim's calls do: what their namesakes do in Rust's std, and a refusal where memory runs out.

use ::std::cell::Cell;
use ::std::hash::Hasher;
use ::std::sync::atomic::{AtomicU64, Ordering::SeqCst};
use ::std::task::{Context, Poll, Waker};
use luffapricot::rattle_std::alloc::{AllocError, Allocator, Global};
use luffapricot::rattle_std::clone::TryClone;
use luffapricot::rattle_std::collections::{HashMap, HashSet, VecDeque};
use luffapricot::rattle_std::futures::future::Future;
use luffapricot::rattle_std::hash::FoldHasher;
use luffapricot::rattle_std::oneshot::{Canceled, channel};
use luffapricot::rattle_std::rt::HostRuntime;
use luffapricot::rattle_std::simd::prelude::u16x32;
use luffapricot::rattle_std::std_alloc::room::may_hold;
use luffapricot::rattle_std::string::{String, ToText};
use luffapricot::rattle_std::sync::{Arc, Mutex};
use luffapricot::rattle_std::vec::{Collect, ToVec, Vec};

// More bytes than any address space has room for.
const TOO_MUCH: usize = isize::MAX as usize / 2;

/// Counts its drops.
struct Counted<'a>(&'a Cell<u32>);

impl Drop for Counted<'_> {
    fn drop(&mut self) {
        self.0.set(self.0.get() + 1);
    }
}

#[test]
fn a_vector_keeps_what_is_pushed() {
    let mut all = Vec::new(Global);
    for it in 0..1000u64 {
        all.push(it).unwrap();
        assert_eq!((all.len() as u64, all[it as usize]), (it + 1, it));
    }
    assert_eq!(
        (all.swap_remove(0), all[0], all.remove(0), all[0], all.pop()),
        (0, 999, 999, 1, Some(998))
    );
    all.truncate(3);
    assert_eq!(all.as_slice(), [1, 2, 3]);
    all.extend_from_slice(&[7, 8]).unwrap();
    assert_eq!(all.drain(1..3).collect::<::std::vec::Vec<_>>(), [2, 3]);
    all.resize(4, 5).unwrap();
    assert_eq!(all.iter().copied().collect_with(Global).unwrap().as_slice(), [1, 7, 8, 5]);
    assert_eq!(all[1..].to_vec_with(Global).unwrap().into_std(), [7, 8, 5]);
    all.clear();
    assert_eq!(
        (all.pop(), Vec::from_elem(Global, 4, 3).unwrap().into_std()),
        (None, vec![4; 3])
    );
}

#[test]
fn a_vector_gives_its_values_up() {
    let drops = Cell::new(0);
    let mut all = Vec::with_capacity(Global, 8).unwrap();
    for _ in 0..3 {
        all.push_reserved(Counted(&drops));
    }
    let mut rest = all.into_iter();
    assert_eq!((rest.size_hint(), drops.get()), ((3, Some(3)), 0));
    drop(rest.next());
    assert_eq!((rest.size_hint(), drops.get()), ((2, Some(2)), 1));
    drop(rest);
    assert_eq!(drops.get(), 3);
    let mut none = Vec::<u64>::with_capacity(Global, 8).unwrap().into_iter();
    assert_eq!((none.size_hint(), none.next(), none.next()), ((0, Some(0)), None, None));
}

#[test]
fn a_large_block_begins_at_a_cache_line() {
    for size in [1, 65_535, 65_536, 1_000_000] {
        let block = Global.allocate(size, 8).unwrap();
        assert_eq!((block.addr() % 8, size < 65_536 || block.addr() % 64 == 0), (0, true));
        // SAFETY: the block has this size and alignment, and isn't used again.
        unsafe {
            block.write_bytes(1, size);
            Global.deallocate(block, size, 8);
        }
    }
    assert_eq!(Global.allocate(65_536, 3), Err(AllocError));
}

#[test]
fn reserved_room_is_there() {
    let mut all = Vec::with_capacity(Global, 10).unwrap();
    all.reserve(100).unwrap();
    let room = all.capacity();
    assert!(room >= 100);
    for it in 0..room {
        all.push_reserved(it);
    }
    assert_eq!((all.capacity(), all.len(), all[room - 1]), (room, room, room - 1));
    let (mut map, mut queue) = (HashMap::new(Global), VecDeque::new(Global));
    map.reserve(100).unwrap();
    queue.reserve(100).unwrap();
    let room = map.capacity();
    for it in 0..100 {
        map.insert(it, it).unwrap();
        queue.push_back_reserved(it);
    }
    assert_eq!((room >= 100, map.capacity(), queue.len()), (true, room, 100));
}

#[test]
fn what_has_no_room_is_refused() {
    let mut all = Vec::new(Global);
    all.push(1u64).unwrap();
    assert!(all.reserve(TOO_MUCH).is_err() && all.reserve(usize::MAX).is_err());
    assert!(all.resize(TOO_MUCH, 0).is_err() && Vec::<u64>::with_capacity(Global, TOO_MUCH).is_err());
    assert!(Vec::from_elem(Global, 0u64, TOO_MUCH).is_err());
    assert_eq!(all.as_slice(), [1]);
    assert!(HashMap::<u64, u64>::new(Global).reserve(TOO_MUCH).is_err());
    assert!(HashSet::<u64>::new(Global).reserve(TOO_MUCH).is_err() && VecDeque::<u64>::new(Global).reserve(TOO_MUCH).is_err());
    assert_eq!(
        (Global.allocate(TOO_MUCH, 8), Global.allocate(8, 3)),
        (Err(AllocError), Err(AllocError))
    );
    assert_eq!(
        [
            may_hold::<u64>(TOO_MUCH / 4),
            may_hold::<u64>(TOO_MUCH),
            may_hold::<()>(usize::MAX)
        ],
        [true, false, true]
    );
}

#[test]
fn a_map_has_the_last_value_of_a_key() {
    let mut map = HashMap::new(Global);
    for it in 0..1000u64 {
        assert_eq!(map.insert(it % 100, it).unwrap(), it.checked_sub(100));
    }
    assert_eq!(
        (map.len(), map.get(&7), map.get(&100), map.is_empty()),
        (100, Some(&907), None, false)
    );
    *map.get_mut(&7).unwrap() = 1;
    assert_eq!(
        (map.remove(&7), map.remove(&7), map.contains_key(&7), map.contains_key(&8)),
        (Some(1), None, false, true)
    );
    map.clear();
    assert!(map.is_empty());
}

#[test]
fn a_set_has_a_value_once() {
    let mut set = HashSet::new(Global);
    assert_eq!((set.insert(1).unwrap(), set.insert(1).unwrap(), set.len()), (true, false, 1));
    assert_eq!(
        (set.contains(&1), set.remove(&1), set.remove(&1), set.contains(&1)),
        (true, true, false, false)
    );
    set.insert(2).unwrap();
    set.clear();
    assert_eq!(set.len(), 0);
}

#[test]
fn a_queue_is_in_order() {
    let mut queue = VecDeque::new(Global);
    for it in 0..1000 {
        queue.reserve(1).unwrap();
        queue.push_back_reserved(it);
    }
    assert!((0..1000).all(|it| queue.pop_front() == Some(it)) && queue.pop_front().is_none());
}

#[test]
fn an_arc_counts_and_ends_once() {
    let drops = Cell::new(0);
    let first = Arc::new(Global, Counted(&drops)).ok().unwrap();
    let all: ::std::vec::Vec<_> = (0..9).map(|_| Arc::try_clone(&first).unwrap()).collect();
    assert_eq!((Arc::strong_count(&first), Arc::ptr_eq(&first, &all[8])), (10, true));
    drop(all);
    assert_eq!((Arc::strong_count(&first), drops.get()), (1, 0));
    let other = first.clone();
    assert!(Arc::into_inner(other).is_none());
    assert_eq!(drops.get(), 0);
    let inner = Arc::into_inner(first).unwrap();
    assert_eq!(drops.get(), 0);
    drop(inner);
    drop(Arc::new(Global, Counted(&drops)));
    assert_eq!(drops.get(), 2);
}

#[test]
fn an_arc_is_counted_by_threads() {
    static DROPS: AtomicU64 = AtomicU64::new(0);
    struct Told(::std::vec::Vec<u64>);
    impl Drop for Told {
        fn drop(&mut self) {
            DROPS.fetch_add(self.0.iter().sum::<u64>(), SeqCst);
        }
    }
    for _ in 0..50 {
        let shared = Arc::new(Global, Told(vec![1; 3])).ok().unwrap();
        ::std::thread::scope(|threads| {
            for _ in 0..4 {
                let one = Arc::try_clone(&shared).unwrap();
                threads.spawn(move || drop((0..50).map(|_| Arc::try_clone(&one).unwrap()).collect::<::std::vec::Vec<_>>()));
            }
            drop(shared);
        });
    }
    assert_eq!(DROPS.load(SeqCst), 150);
}

#[test]
fn a_locked_mutex_keeps_others_out() {
    let (count, rt) = (Mutex::new(0u64), HostRuntime);
    ::std::thread::scope(|threads| {
        for _ in 0..4 {
            threads.spawn(|| {
                for _ in 0..1000 {
                    let mut guard = count.lock(&rt);
                    let was = *guard;
                    ::std::thread::yield_now();
                    *guard = was + 1;
                }
            });
        }
    });
    assert_eq!(count.into_inner(), 4000);
}

#[test]
fn a_lock_is_tried() {
    let (count, rt) = (Mutex::new(1), HostRuntime);
    *count.try_lock().expect("a free lock") += 1;
    let guard = count.lock(&rt);
    ::std::thread::scope(|threads| {
        let tried = threads.spawn(|| count.try_lock().is_none());
        assert!(tried.join().unwrap());
    });
    drop(guard);
    assert_eq!(*count.try_lock().expect("a free lock"), 2);
}

#[test]
fn what_is_cloned_is_equal() {
    let text = String::from_str(Global, "luffa").unwrap();
    assert_eq!(
        (text.try_clone().unwrap(), &*text, 7.to_string_with(Global).unwrap().len()),
        (text.clone(), "luffa", 1)
    );
    let all = Vec::from_elem(Global, text, 3).unwrap();
    assert_eq!(all.try_clone().unwrap(), all);
}

#[test]
fn a_channel_gives_its_value_once() {
    let mut cx = Context::from_waker(Waker::noop());
    let (sender, mut receiver) = channel(Global).unwrap();
    assert!(Future::poll(&mut receiver, &mut cx).is_pending());
    assert_eq!(
        (sender.is_canceled(), receiver.try_recv(), sender.send(3)),
        (false, Ok(None), Ok(()))
    );
    assert_eq!((receiver.try_recv(), receiver.try_recv()), (Ok(Some(3)), Err(Canceled)));
    let (sender, mut receiver) = channel::<u8>(Global).unwrap();
    drop(sender);
    assert_eq!(Future::poll(&mut receiver, &mut cx), Poll::Ready(Err(Canceled)));
    let (sender, mut receiver) = channel(Global).unwrap();
    receiver.close();
    assert_eq!((sender.is_canceled(), sender.send(4)), (true, Err(4)));
}

#[test]
fn lanes_are_shifted() {
    let mut lanes = [0; 32];
    for (at, it) in lanes.iter_mut().enumerate() {
        *it = 2000 * at as u16;
    }
    let mut halves = [0; 32];
    (u16x32::from_array(lanes) >> u16x32::splat(1)).copy_to_slice(&mut halves);
    assert!(lanes.iter().zip(halves).all(|(one, half)| one / 2 == half));
}

// By the hasher's definition: the state times the factor in 128 bits, both halves by an exclusive or.
#[test]
fn a_number_is_hashed_as_its_bytes_are() {
    let step = |state: u64, word: u64, by: u64| {
        let product = u128::from(state ^ word) * u128::from(0x9e37_79b9_7f4a_7c15 ^ by);
        product as u64 ^ (product >> 64) as u64
    };
    let (mut number, mut bytes) = (FoldHasher::default(), FoldHasher::default());
    number.write_u64(1 << 40);
    bytes.write(&(1u64 << 40).to_le_bytes());
    assert_eq!(number.finish(), bytes.finish());
    assert_eq!(number.finish(), step(0x243f_6a88_85a3_08d3, 1 << 40, 16));
    bytes.write(b"abc");
    assert_eq!(bytes.finish(), step(number.finish(), 0x63_62_61, 6));
}
