//! First in, first out, as upstream's tests drive it.

crate::upstream::policy!(Fifo FifoConfig over queue: queue = 0;);

include!("fifo_tests.rs");
