// The caches that the tests compare, by their names.
#pragma once
#include "../luffa_cache.h"
#include <iterator>

// LRUCache, HyperClock, or a policy's name, in 2 to the power of bits shards.
inline std::shared_ptr<rocksdb::Cache> MakeCache(const std::string &name, size_t capacity, int bits) {
    static const char *const names[] = {"fifo", "lru", "lfu", "s3fifo", "sieve"}; // LUFFA_FIFO to LUFFA_SIEVE
    if (name == "LRUCache")
        return rocksdb::NewLRUCache(capacity, bits, false, 0.5, nullptr, rocksdb::kDefaultToAdaptiveMutex,
                                    rocksdb::kDontChargeCacheMetadata);
    if (name == "HyperClock")
        return rocksdb::HyperClockCacheOptions(capacity, 4096, bits, false, nullptr, rocksdb::kDontChargeCacheMetadata)
            .MakeSharedCache();
    const auto *found = std::find(std::begin(names), std::end(names), name);
    auto policy = static_cast<uint32_t>(found - std::begin(names));
    return LuffaCache::Make(policy, capacity, size_t{1} << bits);
}
