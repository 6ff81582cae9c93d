//! Configurations that are written and read.

use luffapricot::*;

#[test]
fn configurations_are_read_as_they_were_written() {
    let mut all: Vec<EvictionConfig> = ["fifo", "lru", "lfu", "s3fifo", "sieve"].map(|name| name.parse().unwrap()).into();
    all.push(LruConfig { high_priority_pool_ratio: 0.123_456_789 }.into());
    for config in all {
        let text = serde_json::to_string(&config).unwrap();
        assert_eq!(serde_json::from_str::<EvictionConfig>(&text).unwrap(), config, "{text}");
    }
    let text = r#"{"Lru":{"high_priority_pool_ratio":0.5}}"#;
    assert_eq!(serde_json::from_str::<EvictionConfig>(text).unwrap(), LruConfig { high_priority_pool_ratio: 0.5 }.into());
    assert!(serde_json::from_str::<EvictionConfig>(r#"{"Lru":{}}"#).is_err());
    assert!(serde_json::from_str::<EvictionConfig>(r#"{"Random":{}}"#).is_err());
}
