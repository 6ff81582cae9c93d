// threads CACHE CALLS [strict]: eight threads make random calls. Each value carries its key and a sum, which each
// handle's holder checks; each is deleted once. With a strict limit the usage stays within the capacity.
#include "caches.h"
#include <cstdio>
#include <cstdlib>
#include <thread>

using rocksdb::Cache;
using rocksdb::Slice;

namespace {

constexpr size_t kThreads = 8, kCapacity = 20000, kCharge = 100;
constexpr uint64_t kKeys = 600, kMagic = 0x9E3779B97F4A7C15U;

struct Value {
    uint64_t key;
    uint64_t sum;
};

std::atomic<int64_t> alive{0};
std::atomic<uint64_t> refused{0};

void Expect(bool is_so, const char *what) {
    if (!is_so) {
        std::fprintf(stderr, "failed: %s\n", what);
        std::abort();
    }
}

void Delete(const Slice &key, void *given) {
    auto *value = static_cast<Value *>(given);
    Expect(std::to_string(value->key) == key.ToString() && value->sum == value->key * kMagic + 1,
           "a value is deleted once");
    value->sum = 0;
    delete value;
    alive--;
}

struct Random {
    uint64_t state;
    uint64_t Below(uint64_t limit) {
        state ^= state << 13;
        state ^= state >> 7;
        state ^= state << 17;
        return (state >> 20) % limit;
    }
};

void Check(Cache &cache, Cache::Handle *handle, uint64_t key) {
    auto *value = static_cast<Value *>(cache.Value(handle));
    Expect(value->key == key && value->sum == key * kMagic + 1, "a handle shows its value");
}

Cache::Handle *InsertValue(Cache &cache, uint64_t key, bool is_held) {
    Cache::Handle *handle = nullptr;
    auto *value = new Value{key, key * kMagic + 1};
    alive++;
    std::string name = std::to_string(key);
    if (!cache.Insert(name, value, kCharge, Delete, is_held ? &handle : nullptr).ok()) {
        refused++;
        Delete(name, value);
    }
    return handle;
}

// Up to 16 handles are held at once, so that items leave while they have some.
void Work(Cache &cache, uint64_t seed, int calls) {
    Random random{seed * kMagic + 1};
    std::vector<std::pair<uint64_t, Cache::Handle *>> held;
    for (int i = 0; i < calls; i++) {
        uint64_t key = random.Below(kKeys), what = random.Below(100);
        Cache::Handle *handle = nullptr;
        if (what < 50)
            handle = cache.Lookup(std::to_string(key));
        if (handle == nullptr && what < 80)
            handle = InsertValue(cache, key, what % 8 != 0);
        else if (what >= 80 && what < 85)
            cache.Erase(std::to_string(key));
        else if (what == 85)
            cache.ApplyToAllEntries(
                [](const Slice &, void *value, size_t charge, Cache::DeleterFn) {
                    Expect(static_cast<Value *>(value)->sum != 0 && charge == kCharge, "an entry");
                },
                {});
        else if (what == 86)
            cache.SetCapacity(kCapacity - random.Below(2) * kCharge);
        if (handle != nullptr)
            held.emplace_back(key, handle);
        if (!held.empty() && (held.size() == 16 || what >= 87)) {
            size_t at = random.Below(held.size());
            Check(cache, held[at].second, held[at].first);
            cache.Release(held[at].second, random.Below(4) == 0);
            held[at] = held.back();
            held.pop_back();
        }
        size_t in_flight = kThreads * kCharge;
        Expect(!cache.HasStrictCapacityLimit() || cache.GetUsage() <= kCapacity + in_flight, "the limit is strict");
    }
    for (auto &it : held) {
        Check(cache, it.second, it.first);
        cache.Release(it.second);
    }
}

// Erases an item while another thread inserts one under its key, which stays.
void EraseThis(Cache &cache, int turns) {
    for (int i = 0; i < turns; i++) {
        Cache::Handle *handle = InsertValue(cache, kKeys, true);
        std::atomic<int> ready{0};
        auto meet = [&] {
            ready++;
            while (ready < 2)
                std::this_thread::yield();
        };
        std::thread other([&] {
            meet();
            InsertValue(cache, kKeys, false);
        });
        meet();
        cache.Release(handle, true);
        other.join();
        handle = cache.Lookup(std::to_string(kKeys));
        Expect(handle != nullptr, "the other item stays");
        Check(cache, handle, kKeys);
        cache.Release(handle, true);
        Expect(cache.Lookup(std::to_string(kKeys)) == nullptr, "the last item is erased");
    }
}

} // namespace

int main(int count, char **words) {
    if (count < 3)
        return 2;
    auto cache = MakeCache(words[1], kCapacity, 2);
    EraseThis(*cache, std::atoi(words[2]));
    cache->SetStrictCapacityLimit(count > 3);
    std::vector<std::thread> threads;
    for (size_t i = 0; i < kThreads; i++)
        threads.emplace_back(Work, std::ref(*cache), i, std::atoi(words[2]));
    for (auto &it : threads)
        it.join();
    Expect(cache->GetPinnedUsage() == 0 && cache->GetUsage() <= kCapacity, "nothing is held");
    Expect(refused == 0 || count > 3, "without a strict limit no insert fails");
    uint64_t entries = 0;
    cache->ApplyToAllEntries([&](const Slice &, void *, size_t, Cache::DeleterFn) { entries++; }, {});
    Expect(static_cast<int64_t>(entries) == alive && cache->GetUsage() == entries * kCharge,
           "the entries are all there is");
    cache = nullptr;
    Expect(alive == 0, "each value is deleted");
    return 0;
}
