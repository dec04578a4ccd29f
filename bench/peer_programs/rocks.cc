// Transfers between accounts of RocksDB's OptimisticTransactionDB: reads of both balances, writes
// of both, again after a conflict. No log is written ahead, so nothing is kept but in memory.
//     rocks FOLDER THREADS ACCOUNTS < TRANSFERS
// A line of TRANSFERS is two numbers of accounts. It prints transfers, tries refused, seconds,
// total.
#include <rocksdb/db.h>
#include <rocksdb/options.h>
#include <rocksdb/utilities/optimistic_transaction_db.h>
#include <rocksdb/utilities/transaction.h>

#include <atomic>
#include <chrono>
#include <cstdio>
#include <cstdlib>
#include <memory>
#include <string>
#include <thread>
#include <utility>
#include <vector>

using rocksdb::OptimisticTransactionDB;
using rocksdb::Status;

static const rocksdb::WriteOptions unlogged = [] {
    rocksdb::WriteOptions options;
    options.disableWAL = true;
    return options;
}();

static std::string account(int n) {
    char name[16];
    std::snprintf(name, sizeof name, "a%05d", n);
    return name;
}

// A try: false where another transaction was first.
static bool transfer(OptimisticTransactionDB* db, const std::string& from, const std::string& to) {
    rocksdb::OptimisticTransactionOptions options;
    options.set_snapshot = true;
    std::unique_ptr<rocksdb::Transaction> txn(db->BeginTransaction(unlogged, options));
    rocksdb::ReadOptions at;
    at.snapshot = txn->GetSnapshot();
    std::string mine, theirs;
    if (!txn->GetForUpdate(at, from, &mine).ok() || !txn->GetForUpdate(at, to, &theirs).ok()) return false;
    if (std::atol(mine.c_str()) < 1) return true;
    txn->Put(from, std::to_string(std::atol(mine.c_str()) - 1));
    txn->Put(to, std::to_string(std::atol(theirs.c_str()) + 1));
    return txn->Commit().ok();
}

int main(int count, char** words) {
    if (count != 4) return 2;
    const int threads = std::atoi(words[2]), accounts = std::atoi(words[3]);
    rocksdb::Options options;
    options.create_if_missing = true;
    OptimisticTransactionDB* db = nullptr;
    if (!OptimisticTransactionDB::Open(options, words[1], &db).ok()) return 1;
    for (int n = 0; n < accounts; ++n) db->Put(unlogged, account(n), "100");
    std::vector<std::pair<std::string, std::string>> all;
    for (int from, to; std::scanf("%d %d", &from, &to) == 2;) all.emplace_back(account(from), account(to));
    std::atomic<long> refused{0};
    const auto began = std::chrono::steady_clock::now();
    std::vector<std::thread> workers;
    for (int t = 0; t < threads; ++t)
        workers.emplace_back([&, t] {
            for (size_t i = t; i < all.size(); i += threads)
                while (!transfer(db, all[i].first, all[i].second)) ++refused;
        });
    for (auto& worker : workers) worker.join();
    const std::chrono::duration<double> took = std::chrono::steady_clock::now() - began;
    long total = 0;
    for (int n = 0; n < accounts; ++n) {
        std::string value;
        if (db->Get(rocksdb::ReadOptions(), account(n), &value).ok()) total += std::atol(value.c_str());
    }
    std::printf("%zu %ld %.6f %ld\n", all.size(), refused.load(), took.count(), total);
    delete db;
}
