// reads FOLDER fill ROWS: makes a database of so many rows of 200 bytes.
// reads FOLDER CACHE MEGABYTES THREADS READS SCAN_EVERY: reads rows by a Zipf law with the exponent 0.99, and 2,000
// rows in order after each SCAN_EVERY reads of a thread, through a block cache. A quarter of the reads goes before the
// count. reads FOLDER CACHE MEGABYTES THREADS READS SCAN_EVERY write: another thread writes, flushes and compacts
// meanwhile. Prints the blocks that RocksDB found in the cache, those that it read, and a sum of all values that were
// read.
#include "caches.h"
#include <rocksdb/db.h>
#include <rocksdb/statistics.h>
#include <rocksdb/table.h>
#include <cmath>
#include <cstdio>
#include <cstdlib>
#include <thread>

namespace {

constexpr uint64_t kRows = 1000000;
uint64_t rows = kRows;
std::vector<double> sums; // of the weights of the ranks
std::unique_ptr<rocksdb::DB> db;

void Expect(const rocksdb::Status &status) {
    if (!status.ok()) {
        std::fprintf(stderr, "failed: %s\n", status.ToString().c_str());
        std::abort();
    }
}

std::string KeyOf(uint64_t number) {
    char text[24];
    std::snprintf(text, sizeof text, "%016llu", static_cast<unsigned long long>(number));
    return text;
}

// The same for each writing of a row.
std::string ValueOf(uint64_t number) { return std::string(200, static_cast<char>('a' + number % 26)); }

struct Random {
    uint64_t state;
    double Next() {
        state ^= state << 13;
        state ^= state >> 7;
        state ^= state << 17;
        return static_cast<double>(state >> 11) * 0x1p-53;
    }
};

uint64_t SumOf(const rocksdb::Slice &key, const rocksdb::Slice &value) {
    uint64_t number = std::strtoull(key.ToString().c_str(), nullptr, 10);
    if (value != ValueOf(number))
        Expect(rocksdb::Status::Corruption("a row has the value of another"));
    return number % 1000;
}

uint64_t Scan(uint64_t from) {
    uint64_t sum = 0;
    std::unique_ptr<rocksdb::Iterator> it(db->NewIterator(rocksdb::ReadOptions()));
    int count = 0;
    for (it->Seek(KeyOf(from)); it->Valid() && count < 2000; it->Next(), count++)
        sum += SumOf(it->key(), it->value());
    Expect(it->status());
    return sum;
}

void Read(uint64_t seed, int reads, int every, uint64_t *sum) {
    Random random{88172645463325252U + 7919U * seed};
    std::string value;
    for (int i = 0; i < reads; i++) {
        auto rank = std::lower_bound(sums.begin(), sums.end(), random.Next() * sums.back()) - sums.begin();
        std::string key = KeyOf(static_cast<uint64_t>(rank) * 2654435761U % rows);
        Expect(db->Get(rocksdb::ReadOptions(), key, &value));
        *sum += SumOf(key, value);
        if (every != 0 && i % every == 0)
            *sum += Scan(static_cast<uint64_t>(random.Next() * static_cast<double>(rows)));
    }
}

// Each thread's part of the reads. Returns the sum of what they read.
uint64_t ReadAll(uint64_t salt, int threads, int reads, int every) {
    std::vector<std::thread> all;
    std::vector<uint64_t> found(static_cast<size_t>(threads));
    for (size_t i = 0; i < found.size(); i++)
        all.emplace_back(Read, i + salt, reads / threads, every, &found[i]);
    for (auto &it : all)
        it.join();
    uint64_t sum = 0;
    for (uint64_t it : found)
        sum += it;
    return sum;
}

void Write(uint64_t count) {
    rocksdb::WriteOptions options;
    options.disableWAL = true;
    for (uint64_t i = 0; i < count; i++) {
        uint64_t number = i * 7368787 % rows;
        Expect(db->Put(options, KeyOf(number), ValueOf(number)));
    }
    Expect(db->Flush(rocksdb::FlushOptions()));
    Expect(db->CompactRange(rocksdb::CompactRangeOptions(), nullptr, nullptr));
}

rocksdb::Options OptionsOf(const std::shared_ptr<rocksdb::Cache> &cache) {
    rocksdb::Options options;
    rocksdb::BlockBasedTableOptions table;
    table.block_cache = cache;
    options.create_if_missing = true;
    options.compression = rocksdb::kNoCompression;
    options.statistics = rocksdb::CreateDBStatistics();
    options.table_factory.reset(rocksdb::NewBlockBasedTableFactory(table));
    return options;
}

void Open(const rocksdb::Options &options, const char *folder) {
    rocksdb::DB *made = nullptr;
    Expect(rocksdb::DB::Open(options, folder, &made));
    db.reset(made);
}

void CountRows() {
    std::unique_ptr<rocksdb::Iterator> it(db->NewIterator(rocksdb::ReadOptions()));
    it->SeekToLast();
    rows = it->Valid() ? std::strtoull(it->key().ToString().c_str(), nullptr, 10) + 1 : 0;
    double sum = 0;
    for (uint64_t i = 0; i < rows; i++)
        sums.push_back(sum += std::pow(static_cast<double>(i + 1), -0.99));
}

} // namespace

int main(int count, char **words) {
    if (count == 4 && std::string(words[2]) == "fill") {
        Open(OptionsOf(rocksdb::NewLRUCache(8 << 20)), words[1]);
        rows = std::strtoull(words[3], nullptr, 10);
        Write(rows);
        db.reset();
        return 0;
    }
    if (count < 7)
        return 2;
    int threads = std::atoi(words[4]), reads = std::atoi(words[5]), every = std::atoi(words[6]);
    auto cache = MakeCache(words[2], static_cast<size_t>(std::atof(words[3]) * (1 << 20)), 4);
    rocksdb::Options options = OptionsOf(cache);
    Open(options, words[1]);
    CountRows();
    ReadAll(100, threads, reads / 4, every);
    Expect(options.statistics->Reset());
    std::thread writer;
    if (count > 7)
        writer = std::thread(Write, rows / 4);
    uint64_t sum = ReadAll(0, threads, reads, every);
    if (writer.joinable())
        writer.join();
    uint64_t hits = options.statistics->getTickerCount(rocksdb::BLOCK_CACHE_HIT);
    uint64_t misses = options.statistics->getTickerCount(rocksdb::BLOCK_CACHE_MISS);
    std::printf("found %llu read %llu usage %zu pinned %zu sum %llu\n", static_cast<unsigned long long>(hits),
                static_cast<unsigned long long>(misses), cache->GetUsage(), cache->GetPinnedUsage(),
                static_cast<unsigned long long>(sum));
    db.reset();
    return cache->GetPinnedUsage() == 0 ? 0 : 1;
}
