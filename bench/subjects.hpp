// Stores as bench/stall.cpp and bench/ycsb.cpp call them, each set to keep what it is asked to keep. One of COLA and what
// bench/peers.cpp takes is defined.
//
// What a store keeps, from NOTHING on: nothing is promised where the process dies; PROCESS: each answered put outlives the process
// (SIGKILL); MACHINE: the same, and what was answered before the last sync outlives the machine, with a sync each second.
#ifndef SUBJECTS_HPP
#define SUBJECTS_HPP

enum Keeps { NOTHING, PROCESS, MACHINE };

#ifdef COLA
#include <cstdio>
#include <cstdlib>
#include <string>
#include <string_view>
#include "cola_file.h"
using std::string;
using std::string_view;

// A resident store, for more than NOTHING with a log.
struct Subject {
    cola_file file = COLA_FILE_INIT;

    Subject(const char *path, size_t keys, Keeps keeps) {
        check(cola_file_create(path, keys, 5, 2));
        check(cola_file_open_as(&file, path, keeps == NOTHING ? COLA_RESIDENT : COLA_LOGGED));
    }
    ~Subject() { check(cola_file_close(&file)); }
    static void check(int32_t answer) {
        if (answer == COLA_OK) return;
        fprintf(stderr, "cola: %s\n", cola_strerror(answer));
        exit(5);
    }
    void put(string_view key, string_view value) { check(cola_put(&file.store, key.data(), key.size(), value.data(), value.size(), nullptr)); }
    void remove(string_view key) { check(cola_delete(&file.store, key.data(), key.size())); }
    bool get(string_view key, string &value) {
        char bytes[COLA_VALUE_MAX];
        size_t length;
        int32_t answer = cola_get(&file.store, key.data(), key.size(), bytes, &length);
        if (answer == COLA_NONE) return false;
        check(answer);
        value.assign(bytes, length);
        return true;
    }
    // How many rows there are from `low` on, at most `most`; each is read.
    size_t scan(string_view low, size_t most) {
        static cola_row rows[128];
        cola_cursor cursor;
        size_t given = 0;
        check(cola_seek(&cursor, low.data(), low.size(), nullptr, 0));
        int32_t answer = cola_next(&file.store, &cursor, rows, most, &given);
        if (answer != COLA_NONE) check(answer);
        return answer == COLA_NONE ? 0 : given;
    }
    void sync() { check(cola_file_sync(&file)); }
};
#else
#define main main_of_lines
#include "peers.cpp"
#undef main
#ifdef LEVELDB
#include <leveldb/write_batch.h>
#endif

// What a peer is set to: a sync each second is a call of its own, by the thread that puts.
struct Subject : Store {
    Keeps keeps;

#if defined(LEVELDB)
    // (a batch is seen by no get before it is written, and there is no put without the log: NOTHING is as PROCESS)
    Subject(const char *path, size_t, Keeps keeps) : Store(path, 1), keeps(keeps) {}
#elif defined(LMDB) || defined(SQLITE)
    // NOTHING: a thousand changes are one transaction. MACHINE: one transaction for each second, synced: what is not synced may lie on
    // the disk in any order, so that nothing of the file would be kept. The last second is lost where the process dies, too.
    Subject(const char *path, size_t, Keeps keeps) : Store(path, keeps == NOTHING ? 1000 : keeps == PROCESS ? 1 : 50000), keeps(keeps) {
#ifdef LMDB
        if (keeps == MACHINE) check(mdb_env_set_flags(env, MDB_NOSYNC, 0));
#else
        if (keeps == MACHINE) run("pragma synchronous=full");
#endif
    }
#else
    Subject(const char *path, size_t, Keeps keeps) : Store(path, 1), keeps(keeps) {}
#endif
    size_t scan(string_view low, size_t most) {
        size_t count = rows(low, nullptr, most);
        replies.clear();
        return count;
    }
#if defined(ROCKSDB)
    void put(string_view key, string_view value) {
        rocksdb::WriteOptions options;
        options.disableWAL = keeps == NOTHING;
        check(db->Put(options, slice(key), slice(value)));
    }
    void remove(string_view key) {
        rocksdb::WriteOptions options;
        options.disableWAL = keeps == NOTHING;
        check(db->Delete(options, slice(key)));
    }
    void sync() { check(db->SyncWAL()); }
#elif defined(LEVELDB)
    void sync() {
        leveldb::WriteOptions options;
        options.sync = true;
        leveldb::WriteBatch nothing;
        check(db->Write(options, &nothing));
    }
#elif defined(LMDB)
    void put(string_view key, string_view value) {
        prepare();
        Store::put(key, value);
    }
    void remove(string_view key) {
        prepare();
        Store::remove(key);
    }
    void sync() {
        if (writing) commit();
    }
#elif defined(SQLITE)
    void sync() {
        if (pending) run("commit");
        pending = 0;
    }
#else
    void sync() { db.Synchronize(true).OrDie(); }
#endif
};
#endif

#include <algorithm>
#include <chrono>
#include <cinttypes>
#include <cmath>
#include <vector>

static uint64_t now() {
    return uint64_t(std::chrono::duration_cast<std::chrono::nanoseconds>(std::chrono::steady_clock::now().time_since_epoch()).count());
}

// Numbers from a seed, the same on each machine.
struct Random {
    uint64_t state;

    uint64_t next() {
        state ^= state << 13, state ^= state >> 7, state ^= state << 17;
        return state * 0x2545F4914F6CDD1Du;
    }
    uint64_t below(uint64_t count) { return next() % count; }
    double unit() { return double(next() >> 11) / double(1ull << 53); }
};

// The times of calls of one kind, in nanoseconds.
struct Calls {
    const char *name;
    std::vector<uint32_t> times;

    void add(uint64_t time) { times.push_back(uint32_t(std::min<uint64_t>(time, ~0u))); }
    // The time that so large a part of the calls takes at most, in microseconds; infinite where there is no call.
    double percentile(double part) {
        if (times.empty()) return INFINITY;
        if (!std::is_sorted(times.begin(), times.end())) std::sort(times.begin(), times.end());
        return double(times[size_t(double(times.size() - 1) * part)]) / 1e3;
    }
    // A line: the name, how many, the median, the 99.9th and the 99.99th percentile, and the worst, in microseconds.
    void show() {
        if (times.empty()) return;
        printf("%s %zu %.2f %.2f %.2f %.2f\n", name, times.size(), percentile(0.5), percentile(0.999), percentile(0.9999), percentile(1));
    }
};
#endif
