//! Least recently used, as upstream's tests drive it.

use super::pools::{HIGH, LOW, PIN};

type Inner<E> = Over<super::Lru, E>;

crate::upstream::policy!(Lru LruConfig over lists: list = LOW, high_priority_list = HIGH, pin_list = PIN;
    high_priority_weight: usize = |over: &Inner<Self>| over.policy.high_weight,
    high_priority_weight_capacity: usize = |over: &Inner<Self>| over.policy.limit);

include!("lru_tests.rs");
