// lookups CACHE COUNT: 10,000 blocks, and then COUNT pairs of Lookup and Release. For callgrind.
#include "caches.h"
#include <cstdio>
#include <cstdlib>

namespace {

void Keep(const rocksdb::Slice & /*key*/, void * /*value*/) {}

// Keys of 16 bytes, as RocksDB has them.
struct Key {
    explicit Key(uint64_t number) {
        words[0] = number * 0x9E3779B97F4A7C15U;
        words[1] = (words[0] ^ words[0] >> 29) * 0xBF58476D1CE4E5B9U;
    }
    rocksdb::Slice Text() const { return {reinterpret_cast<const char *>(words), sizeof words}; }
    uint64_t words[2];
};

} // namespace

int main(int count, char **words) {
    if (count < 3)
        return 2;
    auto cache = MakeCache(words[1], size_t{100} << 20, 4);
    int value = 0, hits = 0, lookups = std::atoi(words[2]);
    for (uint64_t i = 0; i < 10000; i++)
        if (!cache->Insert(Key(i).Text(), &value, 4096, Keep).ok())
            return 1;
    for (int i = 0; i < lookups; i++) {
        rocksdb::Cache::Handle *handle = cache->Lookup(Key(static_cast<uint64_t>(i) * 7 % 10000).Text());
        if (handle != nullptr) {
            hits++;
            cache->Release(handle);
        }
    }
    std::printf("%d hits\n", hits);
    return 0;
}
