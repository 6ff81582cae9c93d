// calls CACHE [REFUSE]: what each call of rocksdb::Cache does. The same holds for RocksDB's own LRUCache (CACHE is
// LRUCache), so these are the interface's rules and not this cache's.
#include "caches.h"
#include <cstdio>
#include <cstdlib>
#include <map>
#include <set>

using rocksdb::Cache;
using rocksdb::Slice;

namespace {

std::map<std::string, int> deleted; // how often each value was

void Delete(const Slice &key, void *value) {
    auto *text = static_cast<std::string *>(value);
    deleted[key.ToString() + "=" + *text]++;
    delete text;
}

void Expect(bool is_so, const char *what) {
    if (!is_so) {
        std::printf("failed: %s\n", what);
        std::exit(1);
    }
}

std::string *New(const char *text) { return new std::string(text); }

bool Insert(Cache &cache, const std::string &key, const char *text, size_t charge) {
    return cache.Insert(key, New(text), charge, Delete).ok();
}

Cache::Handle *InsertHeld(Cache &cache, const std::string &key, const char *text, size_t charge) {
    Cache::Handle *handle = nullptr;
    std::string *value = New(text);
    if (!cache.Insert(key, value, charge, Delete, &handle).ok()) {
        Expect(handle == nullptr, "an insert that fails gives no handle");
        delete value;
    }
    return handle;
}

std::string Read(Cache &cache, const std::string &key) {
    Cache::Handle *handle = cache.Lookup(key);
    if (handle == nullptr)
        return "";
    std::string text = *static_cast<std::string *>(cache.Value(handle));
    cache.Release(handle);
    return text;
}

void Values(const std::string &name) {
    auto cache = MakeCache(name, 1000, 0);
    Expect(Read(*cache, "a").empty(), "a key that wasn't inserted is missed");
    Expect(Insert(*cache, "a", "1", 10) && Insert(*cache, "b", "2", 20), "an insert succeeds");
    Expect(Read(*cache, "a") == "1" && Read(*cache, "b") == "2", "a lookup finds the value");
    Expect(cache->GetUsage() == 30 && cache->GetPinnedUsage() == 0, "the usage is the sum of the charges");
    Expect(Insert(*cache, "a", "3", 5) && Read(*cache, "a") == "3", "an insert replaces");
    Expect(deleted["a=1"] == 1 && cache->GetUsage() == 25, "the replaced value is deleted at once");
    cache->Erase("b");
    Expect(Read(*cache, "b").empty() && deleted["b=2"] == 1 && cache->GetUsage() == 5, "an erased value is deleted");
    cache->Erase("b");
    Expect(cache->NewId() != cache->NewId(), "the ids differ");
    cache = nullptr;
    Expect(deleted["a=3"] == 1, "the end of the cache deletes the values");
}

void Handles(const std::string &name) {
    auto cache = MakeCache(name, 1000, 0);
    Cache::Handle *handle = InsertHeld(*cache, "c", "1", 100);
    Expect(cache->GetPinnedUsage() == 100 && cache->GetCharge(handle) == 100, "a handle pins");
    Expect(cache->GetDeleter(handle) == Delete, "the deleter is that of the insert");
    cache->Erase("c");
    Expect(cache->GetUsage() == 100 && cache->GetPinnedUsage() == 100, "an erased item counts while it has a handle");
    Expect(cache->Lookup("c") == nullptr && deleted["c=1"] == 0, "it isn't found, and its value stays");
    Expect(*static_cast<std::string *>(cache->Value(handle)) == "1", "the value is readable");
    Expect(cache->Ref(handle) && !cache->Release(handle), "a second reference keeps it");
    Expect(cache->Release(handle) && deleted["c=1"] == 1, "the last handle deletes it");
    Expect(cache->GetUsage() == 0 && cache->GetPinnedUsage() == 0, "nothing is left");
    handle = InsertHeld(*cache, "c", "2", 100);
    Expect(Insert(*cache, "c", "3", 50) && cache->GetUsage() == 150, "a replaced item counts while it has a handle");
    Expect(Read(*cache, "c") == "3" && cache->Release(handle) && deleted["c=2"] == 1, "and is freed with it");
    Expect(!cache->Release(cache->Lookup("c")) && Read(*cache, "c") == "3", "a release alone doesn't erase");
    cache->SetCapacity(0);
    Expect(cache->GetCapacity() == 0, "the capacity is what was set");
}

void EraseIfLast(const std::string &name) {
    auto cache = MakeCache(name, 1000, 0);
    Cache::Handle *first = InsertHeld(*cache, "d", "1", 10), *second = cache->Lookup("d");
    Expect(!cache->Release(first, true) && deleted["d=1"] == 0, "not the last handle: nothing is erased");
    Expect(Read(*cache, "d") == "1", "it is still found");
    Expect(cache->Release(second, true) && deleted["d=1"] == 1, "the last handle erases the item");
    Expect(cache->Lookup("d") == nullptr && cache->GetUsage() == 0, "it isn't found any more");
    first = InsertHeld(*cache, "d", "2", 10);
    Expect(Insert(*cache, "d", "3", 10) && cache->Release(first, true), "the last handle of a replaced item");
    Expect(Read(*cache, "d") == "3", "leaves the new one alone");
}

void Evictions(const std::string &name) {
    auto cache = MakeCache(name, 1000, 0);
    Cache::Handle *held = InsertHeld(*cache, "held", "1", 300);
    for (int i = 0; i < 1000; i++) {
        Expect(Insert(*cache, "e" + std::to_string(i), "x", 10), "an insert succeeds");
        Expect(cache->GetUsage() <= 1000, "the capacity bounds the usage, with what is held");
    }
    Expect(cache->GetUsage() >= 900, "and it is used");
    Expect(*static_cast<std::string *>(cache->Value(held)) == "1" && deleted["held=1"] == 0, "a held value stays");
    cache->Release(held);
    cache->SetCapacity(100);
    Expect(cache->GetUsage() <= 100, "a smaller capacity evicts");
    Cache::Handle *large = InsertHeld(*cache, "large", "1", 500);
    Expect(large != nullptr && cache->GetUsage() >= 500, "without a strict limit a held item may be larger");
    cache->Release(large, true);
    Expect(cache->GetUsage() <= 100, "until it is released");
    cache->EraseUnRefEntries();
    Expect(cache->GetUsage() == 0, "all items that aren't held are erased");
}

void Strict(const std::string &name) {
    auto cache = MakeCache(name, 1000, 0);
    cache->SetStrictCapacityLimit(true);
    Expect(cache->HasStrictCapacityLimit(), "the limit is strict");
    for (int i = 0; i < 200; i++)
        Expect(Insert(*cache, "f" + std::to_string(i), "x", 10), "what isn't held is evicted for a new item");
    std::set<Cache::Handle *> held;
    Cache::Handle *handle = nullptr;
    for (int i = 0; (handle = InsertHeld(*cache, "g" + std::to_string(i), "y", 90)) != nullptr; i++) {
        held.insert(handle);
        Expect(cache->GetUsage() <= 1000, "no more than the capacity is used");
    }
    Expect(held.size() == 11 && cache->GetPinnedUsage() == 990, "as many items are held as fit");
    Expect(cache->Lookup("g11") == nullptr, "an item that was refused isn't found");
    int before = deleted["h=z"];
    Expect(Insert(*cache, "h", "z", 90) && deleted["h=z"] == before + 1, "without a handle its value is deleted");
    Expect(cache->Release(*held.begin(), true), "one is released");
    held.erase(held.begin());
    Expect((handle = InsertHeld(*cache, "i", "y", 90)) != nullptr, "and there is room for another");
    held.insert(handle);
    for (Cache::Handle *it : held)
        cache->Release(it);
    Expect(cache->GetPinnedUsage() == 0 && cache->GetUsage() <= 1000, "nothing is held any more");
}

// An item may be larger than its shard's part of the capacity. (For LRUCache it may not.)
void StrictShards(const std::string &name) {
    auto cache = MakeCache(name, 1000, name == "LRUCache" ? 0 : 2);
    cache->SetStrictCapacityLimit(true);
    for (int i = 0; i < 50; i++) {
        Cache::Handle *handle = InsertHeld(*cache, "j" + std::to_string(i), "x", 400);
        Expect(cache->GetUsage() <= 1000, "no more than the capacity is used by large items");
        if (handle != nullptr)
            cache->Release(handle);
    }
}

void AllEntries(const std::string &name) {
    auto cache = MakeCache(name, 1000000, 2);
    std::map<std::string, size_t> inserted, found;
    for (int i = 0; i < 500; i++) {
        std::string key = "key" + std::to_string(i) + std::string(static_cast<size_t>(i % 17), 'k');
        Expect(Insert(*cache, key, "x", static_cast<size_t>(i)), "an insert succeeds");
        inserted[key] = static_cast<size_t>(i);
    }
    Cache::Handle *erased = cache->Lookup("key0");
    cache->Erase("key0");
    inserted.erase("key0");
    cache->ApplyToAllEntries(
        [&](const Slice &key, void *value, size_t charge, Cache::DeleterFn deleter) {
            Expect(*static_cast<std::string *>(value) == "x" && deleter == Delete, "each item is as it was inserted");
            Expect(found.emplace(key.ToString(), charge).second, "each item is there once");
        },
        {});
    Expect(found == inserted, "all items are there, and no erased one");
    Expect(cache->GetPinnedUsage() == 0, "none of them is held afterwards");
    cache->Release(erased);
}

} // namespace

int main(int count, char **words) {
    if (count < 2)
        return 2;
    for (auto *test : {Values, Handles, EraseIfLast, Evictions, Strict, StrictShards, AllEntries})
        test(words[1]);
    return 0;
}
