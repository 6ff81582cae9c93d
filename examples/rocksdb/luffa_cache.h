// A block cache for RocksDB 7.8 over luffapricot.
//
// The library has a record of each item under its key, with its address as the value; its policy decides which item
// leaves, and its listener says so. An item that leaves while it has handles is freed with the last of them, and until
// then the library's capacity is lower by its charge. The mutex of an item's stripe guards what changes of it.
#pragma once
#include <luffapricot.h>
#include <rocksdb/cache.h>
#include <algorithm>
#include <atomic>
#include <cstring>
#include <iterator>
#include <memory>
#include <mutex>
#include <new>
#include <unordered_set>
#include <vector>

class LuffaCache : public rocksdb::Cache {
  public:
    // A cache of so many bytes, or nullptr if there is no memory or no such policy (LUFFA_FIFO to LUFFA_SIEVE).
    static std::shared_ptr<LuffaCache> Make(uint32_t policy, size_t size, size_t shards = 16, bool is_strict = false) {
        std::shared_ptr<LuffaCache> cache(new (std::nothrow) LuffaCache(size, is_strict));
        luffa_config config = luffa_config_default(policy);
        config.capacity = size;
        config.shards = shards;
        config.listener = Left;
        config.listener_context = cache.get();
        return cache != nullptr && luffa_create(&config, &cache->records_) == LUFFA_OK ? cache : nullptr;
    }

    ~LuffaCache() override { luffa_destroy(records_); }
    const char *Name() const override { return "LuffaCache"; }

    using Cache::Insert;
    using Cache::Lookup;
    using Cache::Release;

    // The priority is ignored. With a strict limit the item is hidden until it is known to fit.
    rocksdb::Status Insert(const rocksdb::Slice &key, void *value, size_t charge, DeleterFn deleter, Handle **handle,
                           Priority /*priority*/) override {
        bool is_strict = is_strict_;
        auto guard = is_strict ? std::unique_lock(strict_) : std::unique_lock<std::recursive_mutex>();
        if (is_strict && GetPinnedUsage() + charge > capacity_)
            return Refuse(key, value, deleter, handle);
        Item *item = new (std::nothrow) Item{{}, StripeOf(key), key.ToString(), value, charge, deleter, !is_strict};
        if (item == nullptr || !Add(item) || (is_strict && !Show(item)))
            return Refuse(key, value, deleter, handle);
        if (handle != nullptr)
            *handle = item;
        else
            Release(item, false);
        return rocksdb::Status::OK();
    }

    Handle *Lookup(const rocksdb::Slice &key, rocksdb::Statistics * /*statistics*/) override {
        Item *item = nullptr;
        size_t len = 0;
        Stripe &stripe = StripeOf(key);
        std::lock_guard<std::mutex> guard(stripe.mutex); // keeps an item that leaves from being freed
        if (luffa_get(records_, 0, key.data(), key.size(), &item, sizeof item, &len) != LUFFA_OK || !item->is_shown)
            return nullptr;
        Pin(item);
        return item;
    }

    bool Ref(Handle *handle) override {
        Item *item = Of(handle);
        std::lock_guard<std::mutex> guard(item->stripe.mutex);
        item->handles++;
        return true;
    }

    bool Release(Handle *handle, bool is_erased_if_last) override {
        Item *item = Of(handle);
        std::unique_lock<std::mutex> guard(item->stripe.mutex);
        if (item->handles == 1 && item->is_in && is_erased_if_last) {
            item->is_shown = false; // from now on no thread gets a handle
            guard.unlock();
            luffa_entry entry = {};
            if (luffa_get_entry(records_, 0, item->key.data(), item->key.size(), &entry) == LUFFA_OK &&
                std::memcmp(entry.value, &item, sizeof item) == 0) // and no newer item
                luffa_remove_this(&entry);
            luffa_release(&entry);
            guard.lock();
        }
        if (--item->handles == 0) {
            item->stripe.pinned -= item->charge;
            left_ -= item->is_in ? 0 : item->charge;
        }
        return FreeIfUnused(item, guard);
    }

    void *Value(Handle *handle) override { return Of(handle)->value; }
    void Erase(const rocksdb::Slice &key) override { luffa_remove(records_, key.data(), key.size()); }
    uint64_t NewId() override { return ids_.fetch_add(1) + 1; }
    void SetCapacity(size_t capacity) override { capacity_ = capacity, SetLibraryCapacity(); }
    void SetStrictCapacityLimit(bool is_strict) override { is_strict_ = is_strict; }
    bool HasStrictCapacityLimit() const override { return is_strict_; }
    size_t GetCapacity() const override { return capacity_; }
    size_t GetUsage() const override { return usage_; }
    size_t GetOccupancyCount() const override { return luffa_entries(records_); }
    size_t GetUsage(Handle *handle) const override { return Of(handle)->charge; }
    size_t GetCharge(Handle *handle) const override { return Of(handle)->charge; }
    DeleterFn GetDeleter(Handle *handle) const override { return Of(handle)->deleter; }
    void EraseUnRefEntries() override { luffa_evict_all(records_, 0); }

    size_t GetPinnedUsage() const override {
        size_t sum = 0;
        for (const Stripe &stripe : stripes_) {
            std::lock_guard<std::mutex> guard(stripe.mutex);
            sum += stripe.pinned;
        }
        return sum;
    }

    void ApplyToAllEntries(const std::function<void(const rocksdb::Slice &, void *, size_t, DeleterFn)> &callback,
                           const ApplyToAllEntriesOptions & /*options*/) override {
        for (Stripe &stripe : stripes_) {
            std::vector<Item *> items;
            std::unique_lock<std::mutex> guard(stripe.mutex);
            std::copy_if(stripe.items.begin(), stripe.items.end(), std::back_inserter(items), IsShown);
            std::for_each(items.begin(), items.end(), Pin);
            guard.unlock();
            for (Item *item : items) {
                callback(item->key, item->value, item->charge, item->deleter);
                Release(item, false);
            }
        }
    }

  private:
    struct Item;
    struct alignas(64) Stripe {
        mutable std::mutex mutex;
        std::unordered_set<Item *> items; // those that the library has
        size_t pinned = 0;                // charges of the items that have handles
    };
    struct Item : Handle {
        Stripe &stripe;
        const std::string key;
        void *const value;
        const size_t charge;
        DeleterFn deleter; // nullptr once the value is the caller's again
        bool is_shown;     // lookups find it
        size_t handles = 0;
        bool is_in = true; // the library has it
    };

    LuffaCache(size_t size, bool is_strict) : capacity_(size), library_capacity_(size), is_strict_(is_strict) {}

    static Item *Of(Handle *handle) { return static_cast<Item *>(handle); }
    Stripe &StripeOf(const rocksdb::Slice &key) {
        uint64_t word = 0;
        size_t len = std::min(key.size(), sizeof word);
        std::memcpy(&word, key.data() + (key.size() - len), len);
        return stripes_[(word * 0x9E3779B97F4A7C15U) >> 58];
    }

    static size_t Difference(size_t from, size_t part) { return from - std::min(from, part); }
    static bool IsShown(const Item *item) { return item->is_shown; }
    static void Pin(Item *item) { item->stripe.pinned += item->handles++ == 0 ? item->charge : 0; }

    // Gives a new item to the library; the caller has its only handle. Without memory the item is deleted.
    bool Add(Item *item) {
        usage_ += item->charge;
        std::unique_lock<std::mutex> guard(item->stripe.mutex);
        Pin(item);
        item->stripe.items.insert(item);
        guard.unlock();
        const std::string &key = item->key;
        luffa_status status = luffa_insert(records_, 0, key.data(), key.size(), &item, sizeof item, item->charge, 0);
        SetLibraryCapacity();
        if (status == LUFFA_OK)
            return true;
        item->deleter = nullptr;
        Left(this, 0, nullptr, 0, &item, sizeof item);
        Release(item, false);
        return false;
    }

    // Lets lookups find an item if the limit permits it, and else erases it without its value.
    bool Show(Item *item) {
        std::unique_lock<std::mutex> guard(item->stripe.mutex);
        item->is_shown = usage_ <= capacity_;
        if (item->is_shown)
            return true;
        item->deleter = nullptr;
        guard.unlock();
        Release(item, true);
        return false;
    }

    // Without a handle the item counts as inserted and evicted at once.
    static rocksdb::Status Refuse(const rocksdb::Slice &key, void *value, DeleterFn deleter, Handle **handle) {
        if (handle == nullptr) {
            deleter(key, value);
            return rocksdb::Status::OK();
        }
        *handle = nullptr;
        return rocksdb::Status::MemoryLimit("the item doesn't fit beside those that have handles");
    }

    // Frees an item, without the lock of its stripe, if it has no handle and has left the library.
    bool FreeIfUnused(Item *item, std::unique_lock<std::mutex> &guard) {
        if (item->handles != 0 || item->is_in)
            return false;
        guard.unlock();
        usage_ -= item->charge;
        if (item->deleter != nullptr)
            item->deleter(item->key, item->value);
        delete item;
        return true;
    }

    // An item left the library.
    static void Left(void *context, int, const void *, size_t, const void *value, size_t) {
        auto *cache = static_cast<LuffaCache *>(context);
        Item *item = nullptr;
        std::memcpy(&item, value, sizeof item);
        std::unique_lock<std::mutex> guard(item->stripe.mutex);
        item->stripe.items.erase(item);
        item->is_in = false;
        cache->left_ += item->handles != 0 ? item->charge : 0;
        cache->FreeIfUnused(item, guard);
    }

    // Gives the library the capacity that the items which left it and have handles leave.
    void SetLibraryCapacity() {
        for (size_t wanted; (wanted = Difference(capacity_, left_)) != library_capacity_;) {
            if (is_setting_.exchange(true))
                return; // another thread does it
            library_capacity_ = wanted;
            luffa_resize(records_, 0, wanted);
            is_setting_ = false;
        }
    }

    luffa_cache *records_ = nullptr;
    Stripe stripes_[64];
    std::recursive_mutex strict_; // one insert at a time if the limit is strict
    std::atomic<size_t> capacity_;
    std::atomic<size_t> library_capacity_;
    std::atomic<size_t> usage_{0}; // charges of all items
    std::atomic<size_t> left_{0};  // of those that left the library and have handles
    std::atomic<uint64_t> ids_{0};
    std::atomic<bool> is_strict_;
    std::atomic<bool> is_setting_{false};
};
