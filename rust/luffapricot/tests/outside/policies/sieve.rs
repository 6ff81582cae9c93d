//! Sieve, as upstream's tests drive it.

crate::upstream::policy!(Sieve SieveConfig over queue: queue = 0;);

include!("sieve_tests.rs");
