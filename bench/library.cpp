// Measures one store by its calls, in a process of its own, for bench/library.sh, which compiles it once for each store, with
// COLA or what bench/peers.cpp takes.
//
//     library FILE COUNT ROUNDS ORDER BATCH WORK [FLAGS]
//
// ROUNDS times: it makes the store anew, puts COUNT keys of 11 bytes in the order (random or rising) with values of up to 12
// bytes, closes it, opens it, gets each key in another order, and closes it. A call's time is the least over the rounds, and
// so are the seconds of a round's puts with their closing and of its gets with their opening and closing, and the seconds of
// processor, of all threads. BATCH is a number of puts in one transaction, where the store has any, or the block of COLA.
// WORK is what a put does: "blind" is a put alone, and with "looked" a peer looks the key up before, as a put of COLA does by
// itself; "many" are calls of COLA with ROWS rows (1,000), each timed as one. FLAGS are those of cola_file_open_as, 0 where none are given.
// It prints: seconds, of processor, median, 99.9th and 99.99th percentile and worst in nanoseconds, of puts and then of gets; the most memory in KiB above
// that before the first store; and a sum over the values that were got.
//
// With WORK "rows" it puts the keys once, each alone, and then reads all rows ROUNDS times, forwards and backwards (COLA, LEVELDB
// and LMDB). It prints the least seconds of each. With WORK "replay" it puts the keys in a COLA with a log, each alone, and opens that
// anew without a checkpoint: the least seconds of the puts, and of the opening, which makes them again.
#include <algorithm>
#include <cstddef>
#ifndef ROWS
#define ROWS 1000
#endif
enum : size_t { MANY = ROWS }; // rows that are put, got, or read in order, by one call of COLA
#ifdef COLA
#include <cstdio>
#include <cstdlib>
#include <cstring>
#include <string>
#include <string_view>
#include "cola_file.h"
using std::string;
using std::string_view;
static size_t keys_in_all;
static uint32_t flags;
struct Store {
    cola_file file = COLA_FILE_INIT;

    Store(const char *path, unsigned block) {
        int32_t answer = cola_file_create(path, keys_in_all, uint8_t(block), 1);
        if (answer != COLA_NOT_EMPTY) check(answer);
        check(cola_file_open_as(&file, path, flags));
    }
    ~Store() { check(cola_file_close(&file)); }
    static void check(int32_t answer) {
        if (answer == COLA_OK) return;
        fprintf(stderr, "library: %s\n", cola_strerror(answer));
        exit(5);
    }
    void put(string_view key, string_view value) { check(cola_put(&file.store, key.data(), key.size(), value.data(), value.size(), nullptr)); }
    bool get(string_view key, string &value) {
        char bytes[COLA_VALUE_MAX];
        size_t length;
        int32_t answer = cola_get(&file.store, key.data(), key.size(), bytes, &length);
        if (answer == COLA_NONE) return false;
        check(answer);
        value.assign(bytes, length);
        return true;
    }
    void put_many(const cola_row *rows, size_t count) {
        size_t done;
        check(cola_put_many(&file.store, rows, count, nullptr, &done));
    }
    bool get_many(cola_row *rows, size_t count) {
        static bool there[MANY];
        size_t done;
        check(cola_get_many(&file.store, rows, count, there, &done));
        return std::all_of(there, there + count, [](bool is) { return is; });
    }
    // Calls with each key, by rising keys or by falling ones.
    template <typename F> void walk(bool falls, F with) {
        static cola_row rows[MANY];
        cola_cursor cursor;
        size_t given;
        check(falls ? cola_seek_last(&cursor, nullptr, 0) : cola_seek(&cursor, nullptr, 0, nullptr, 0));
        for (int32_t answer; (answer = (falls ? cola_prev : cola_next)(&file.store, &cursor, rows, MANY, &given)) != COLA_NONE;) {
            check(answer);
            for (size_t at = 0; at < given; at++) with(string_view(reinterpret_cast<char *>(rows[at].key), rows[at].key_len));
        }
    }
};
static void prepare(Store &) {}
#else
#define main main_of_lines
#include "peers.cpp"
#undef main
static size_t keys_in_all;
#endif
#include <chrono>
#include <cinttypes>
#include <filesystem>
#include <memory>
#include <vector>
#include <sys/resource.h>

using std::vector;

static uint64_t now() {
    return uint64_t(std::chrono::duration_cast<std::chrono::nanoseconds>(std::chrono::steady_clock::now().time_since_epoch()).count());
}

// The numbers below COUNT in an order made from a seed.
static vector<uint32_t> shuffled(size_t count, uint64_t seed) {
    vector<uint32_t> order(count);
    for (size_t at = 0; at < count; at++) order[at] = uint32_t(at);
    for (size_t at = count; at > 1; at--) {
        seed ^= seed << 13, seed ^= seed >> 7, seed ^= seed << 17;
        std::swap(order[at - 1], order[(seed >> 11) % at]);
    }
    return order;
}

// The processor's seconds that this process took, all threads.
static double processor() {
    struct rusage used;
    getrusage(RUSAGE_SELF, &used);
    return double(used.ru_utime.tv_sec + used.ru_stime.tv_sec) + double(used.ru_utime.tv_usec + used.ru_stime.tv_usec) / 1e6;
}

struct Times {
    vector<uint32_t> least;
    double seconds = 1e9, processor_seconds = 1e9;

    explicit Times(size_t count) : least(count, ~0u) {}
    void show() {
        std::sort(least.begin(), least.end());
        size_t count = least.size();
        auto at = [&](double part) { return least[size_t(double(count - 1) * part)]; };
        printf("%.3f %.3f %u %u %u %u ", seconds, processor_seconds, least[count / 2], at(0.999), at(0.9999), least[count - 1]);
    }
};

static long memory() {
    struct rusage used;
    getrusage(RUSAGE_SELF, &used);
    return used.ru_maxrss;
}

static string_view name_of(char *bytes, const char *form, uint32_t number) {
    return string_view(bytes, size_t(snprintf(bytes, 32, form, number)));
}

[[noreturn]] static void refuse(const char *why) {
    fprintf(stderr, "library: %s\n", why);
    exit(1);
}

static uint64_t sum; // over the values that were got
static void add(string_view it) {
    for (char byte : it) sum = (sum ^ uint64_t(static_cast<unsigned char>(byte))) * 1099511628211u;
}

// The least time of a call over the rounds, of which this is one that began then.
static void reach(uint32_t &least, uint64_t start) { least = std::min(least, uint32_t(std::min<uint64_t>(now() - start, ~0u))); }

static void put_each(Store &store, const vector<uint32_t> &order, bool looks, Times &times) {
    char key[32], value[32];
    string had;
    for (size_t at = 0; at < order.size(); at++) {
        string_view name = name_of(key, "k%010u", order[at]), bytes = name_of(value, "value%u", order[at]);
        uint64_t start = now();
        prepare(store);
        if (looks && store.get(name, had)) refuse("a key is there before its put");
        store.put(name, bytes);
        reach(times.least[at], start);
    }
}

static void get_each(Store &store, const vector<uint32_t> &order, Times &times) {
    char key[32];
    string got;
    for (size_t at = 0; at < order.size(); at++) {
        string_view name = name_of(key, "k%010u", order[at]);
        uint64_t start = now();
        bool found = store.get(name, got);
        reach(times.least[at], start);
        if (!found) refuse("a key is lost");
        add(got);
    }
}

#ifdef COLA
static cola_row rows[MANY];

// The next rows, with their keys alone or with their values too; how many they are.
static size_t fill(const vector<uint32_t> &order, size_t from, bool has_values) {
    char bytes[32];
    size_t count = std::min<size_t>(MANY, order.size() - from);
    for (size_t at = 0; at < count; at++) {
        string_view key = name_of(bytes, "k%010u", order[from + at]);
        memcpy(rows[at].key, key.data(), rows[at].key_len = uint8_t(key.size()));
        string_view value = has_values ? name_of(bytes, "value%u", order[from + at]) : string_view();
        memcpy(rows[at].value, value.data(), rows[at].value_len = uint8_t(value.size()));
    }
    return count;
}

static void put_many(Store &store, const vector<uint32_t> &order, Times &times) {
    for (size_t from = 0, count; from < order.size(); from += count) {
        count = fill(order, from, true);
        uint64_t start = now();
        store.put_many(rows, count);
        reach(times.least[from / MANY], start);
    }
}

static void get_many(Store &store, const vector<uint32_t> &order, Times &times) {
    for (size_t from = 0, count; from < order.size(); from += count) {
        count = fill(order, from, false);
        uint64_t start = now();
        bool found = store.get_many(rows, count);
        reach(times.least[from / MANY], start);
        if (!found) refuse("a key is lost");
        for (size_t at = 0; at < count; at++) add(string_view(reinterpret_cast<char *>(rows[at].value), rows[at].value_len));
    }
}
#else
static void put_many(Store &, const vector<uint32_t> &, Times &) { refuse("many rows at once are for COLA alone"); }
static void get_many(Store &, const vector<uint32_t> &, Times &) {}
#endif

#if defined(COLA)
template <typename F> static void walk(Store &store, bool falls, F with) { store.walk(falls, with); }
#elif defined(LEVELDB)
template <typename F> static void walk(Store &store, bool falls, F with) {
    std::unique_ptr<lib::Iterator> at(store.db->NewIterator(lib::ReadOptions()));
    for (falls ? at->SeekToLast() : at->SeekToFirst(); at->Valid(); falls ? at->Prev() : at->Next()) with(string_view(at->key().data(), at->key().size()));
    Store::check(at->status());
}
#elif defined(LMDB)
template <typename F> static void walk(Store &store, bool falls, F with) {
    MDB_cursor *cursor;
    MDB_val key, value;
    Store::check(mdb_cursor_open(store.view(), store.dbi, &cursor));
    int status = mdb_cursor_get(cursor, &key, &value, falls ? MDB_LAST : MDB_FIRST);
    for (; status == 0; status = mdb_cursor_get(cursor, &key, &value, falls ? MDB_PREV : MDB_NEXT))
        with(string_view(static_cast<char *>(key.mv_data), key.mv_size));
    if (status != MDB_NOTFOUND) Store::check(status);
    mdb_cursor_close(cursor);
    store.end_view();
}
#else
template <typename F> static void walk(Store &, bool, F) { refuse("rows in order are for COLA, LEVELDB and LMDB"); }
#endif

// The seconds that all rows take in that direction, of which each has to lie behind the one before.
static double walk_seconds(Store &store, bool falls) {
    string before;
    size_t rows_in_all = 0;
    uint64_t begun = now();
    walk(store, falls, [&](string_view key) {
        if (rows_in_all++ > 0 && (falls ? key >= before : key <= before)) refuse("two rows are not in order");
        before = key;
    });
    double seconds = double(now() - begun) / 1e9;
    if (rows_in_all != keys_in_all) refuse("a row is lost");
    return seconds;
}

static void read_rows(const char *file, unsigned batch, int rounds) {
    double least[2] = {1e9, 1e9};
    Store store(file, batch);
    for (int round = 0; round < 2 * rounds; round++) least[round % 2] = std::min(least[round % 2], walk_seconds(store, round % 2 == 1));
    printf("%.6f %.6f\n", least[0], least[1]);
}

static void remove_file(const string &file) {
    for (const char *end : {"", "-wal", "-shm", "-lock", "-log", "-journal"}) std::filesystem::remove_all(file + end);
}

// Times what is done with a store that is opened for it, and then closed.
template <typename F> static void timed(Times &times, const char *file, unsigned batch, F with) {
    uint64_t begun = now();
    double used = processor();
    {
        Store store(file, batch);
        with(store);
    }
    times.seconds = std::min(times.seconds, double(now() - begun) / 1e9);
    times.processor_seconds = std::min(times.processor_seconds, processor() - used);
}

#ifdef COLA
// The seconds of puts in a store with a log, and of an opening that makes them again.
static void replay(const char *file, unsigned block, int rounds, const vector<uint32_t> &order) {
    double least[2] = {1e9, 1e9};
    for (int round = 0; round < rounds; round++) {
        Times puts(order.size());
        remove_file(file);
        uint64_t begun;
        {
            Store store(file, block);
            begun = now();
            put_each(store, order, false, puts);
            least[0] = std::min(least[0], double(now() - begun) / 1e9);
            Store::check(cola_file_discard(&store.file));
            begun = now();
            Store::check(cola_file_open_as(&store.file, file, flags));
            least[1] = std::min(least[1], double(now() - begun) / 1e9);
        }
    }
    printf("%.6f %.6f\n", least[0], least[1]);
}
#endif

int main(int count, char **words) {
    if (count != 7 && count != 8) return fprintf(stderr, "library FILE COUNT ROUNDS ORDER BATCH WORK [FLAGS]\n"), 2;
    const char *file = words[1];
    size_t keys = keys_in_all = size_t(atol(words[2]));
    unsigned batch = unsigned(atoi(words[5]));
    string_view order = words[4], work = words[6];
    vector<uint32_t> put_order = shuffled(keys, 20261128), get_order = shuffled(keys, 7);
    if (order == "rising") {
        std::sort(put_order.begin(), put_order.end());
        std::sort(get_order.begin(), get_order.end());
    }
#ifdef COLA
    flags = count == 8 ? uint32_t(atoi(words[7])) : 0;
    if (work == "replay") return replay(file, batch, atoi(words[3]), put_order), 0;
#endif
    bool is_many = work == "many";
    size_t calls = is_many ? (keys + MANY - 1) / MANY : keys;
    Times puts(calls), gets(calls);
    long before = memory();
    if (work == "rows") {
        remove_file(file);
        timed(puts, file, batch, [&](Store &store) { put_each(store, put_order, false, puts); });
        return read_rows(file, batch, atoi(words[3])), 0;
    }
    for (int round = 0; round < atoi(words[3]); round++) {
        remove_file(file);
        timed(puts, file, batch, [&](Store &store) { is_many ? put_many(store, put_order, puts) : put_each(store, put_order, work == "looked", puts); });
        timed(gets, file, batch, [&](Store &store) { is_many ? get_many(store, get_order, gets) : get_each(store, get_order, gets); });
    }
    long most = memory() - before;
    puts.show();
    gets.show();
    printf("%ld %016" PRIx64 "\n", most, sum);
    return 0;
}
