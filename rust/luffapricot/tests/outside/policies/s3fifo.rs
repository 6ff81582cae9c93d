//! S3-FIFO, as upstream's tests drive it.

use super::queues::{MAIN, SMALL};

type Inner<E> = Over<super::S3Fifo, E>;

crate::upstream::policy!(S3Fifo S3FifoConfig over queues: small_queue = SMALL, main_queue = MAIN;
    small_weight_capacity: usize = |over: &Inner<Self>| over.policy.limit,
    counted: () = Self::count);

impl<K: Key, V: Value, P: Properties> S3Fifo<K, V, P> {
    // Writes the frequency of each item to its record.
    fn count(over: &Inner<Self>) {
        for (_, place, record) in &over.records {
            record.count(over.policy.queues.get(*place).state().frequency);
        }
    }
}

include!("s3fifo_tests.rs");
