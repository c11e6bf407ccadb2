// One of cola's peers behind cola's lines: reads commands from standard input, carries them out on a store of another
// library, and writes the replies that `cola run` writes to the same lines. bench/store.sh compiles it once for each library,
// with one of LEVELDB, ROCKSDB, LMDB, SQLITE, TKRZW, MAP (std::map, no file) or ECHO (no store: each put is new, each get none).
//
//     peer FILE [BATCH]        FILE is a file or a folder that the library makes; BATCH puts are one transaction (LMDB, SQLite)
//
// Lines are put, get, del, range and scan, with the limits of format One. Replies wait together and are written before more is
// read, as those of cola. No put is synced, unless SYNCED is 1: a closed store may need the system to write its pages still.
#include <cstdio>
#include <cstdlib>
#include <cstring>
#include <string>
#include <string_view>
#include <unistd.h>

#ifndef SYNCED
#define SYNCED 0 // with 1 a put, or a transaction of puts, is on the disk when it ends
#endif

using std::string;
using std::string_view;

[[noreturn]] static void fail(const string &what) {
    fprintf(stderr, "peer: %s\n", what.c_str());
    exit(5);
}

static string replies;

[[maybe_unused]] static void row(string_view key, string_view value) {
    replies += "row ";
    replies += key;
    replies += ' ';
    replies += value;
    replies += '\n';
}

#if defined(LEVELDB) || defined(ROCKSDB)
#ifdef LEVELDB
#include <leveldb/db.h>
#include <leveldb/filter_policy.h>
#include <leveldb/write_batch.h>
namespace lib = leveldb;
#else
#include <rocksdb/db.h>
#include <rocksdb/filter_policy.h>
#include <rocksdb/table.h>
#include <rocksdb/write_batch.h>
namespace lib = rocksdb;
#endif
// The library's defaults, with a Bloom filter of 10 bits a key, as a put looks its key up. The log is on. BATCH puts are written at once.
struct Store {
    lib::DB *db = nullptr;
    lib::Iterator *at = nullptr;
    lib::WriteBatch puts;
    unsigned batch, pending = 0;

    Store(const char *file, unsigned batch) : batch(batch) {
        lib::Options options;
        options.create_if_missing = true;
#ifdef LEVELDB
        options.filter_policy = leveldb::NewBloomFilterPolicy(10);
#else
        rocksdb::BlockBasedTableOptions table;
        table.filter_policy.reset(rocksdb::NewBloomFilterPolicy(10));
        options.table_factory.reset(rocksdb::NewBlockBasedTableFactory(table));
#endif
        check(lib::DB::Open(options, file, &db));
    }
    ~Store() {
        if (pending) write();
        delete db;
    }
    static lib::WriteOptions kept() {
        lib::WriteOptions options;
        options.sync = SYNCED;
        return options;
    }
    void write() {
        check(db->Write(kept(), &puts));
        puts.Clear();
        pending = 0;
    }
    static void check(const lib::Status &status) {
        if (!status.ok()) fail(status.ToString());
    }
    static lib::Slice slice(string_view it) { return lib::Slice(it.data(), it.size()); }
    bool get(string_view key, string &value) {
        lib::Status status = db->Get(lib::ReadOptions(), slice(key), &value);
        if (!status.IsNotFound()) check(status);
        return status.ok();
    }
    void put(string_view key, string_view value) {
        if (batch <= 1) return check(db->Put(kept(), slice(key), slice(value)));
        puts.Put(slice(key), slice(value));
        if (++pending >= batch) write();
    }
    void remove(string_view key) { check(db->Delete(kept(), slice(key))); }
    // Writes the rows from `low` on, below `high` where it is given, and at most `most`.
    unsigned long rows(string_view low, const string_view *high, unsigned long most) {
        unsigned long count = 0;
        at = db->NewIterator(lib::ReadOptions());
        for (at->Seek(slice(low)); count < most && at->Valid(); at->Next(), count++) {
            string_view key(at->key().data(), at->key().size());
            if (high && key >= *high) break;
            row(key, string_view(at->value().data(), at->value().size()));
        }
        check(at->status());
        delete at;
        return count;
    }
};

#elif defined(LMDB)
#include <lmdb.h>
// A file of its own, mapped for writing too; a commit is synced only with SYNCED. BATCH puts and deletes are one transaction.
struct Store {
    MDB_env *env;
    MDB_txn *writing = nullptr, *reading = nullptr;
    MDB_dbi dbi;
    unsigned batch, pending = 0;

    Store(const char *file, unsigned batch) : batch(batch) {
        check(mdb_env_create(&env));
        check(mdb_env_set_mapsize(env, size_t(4) << 30));
        check(mdb_env_open(env, file, MDB_NOSUBDIR | (SYNCED ? 0 : MDB_NOSYNC) | MDB_WRITEMAP, 0666));
        begin();
        check(mdb_dbi_open(writing, nullptr, 0, &dbi));
        commit();
    }
    ~Store() {
        if (writing) commit();
        if (reading) mdb_txn_abort(reading);
        mdb_env_close(env);
    }
    static void check(int status) {
        if (status) fail(mdb_strerror(status));
    }
    static MDB_val val(string_view it) { return MDB_val{it.size(), const_cast<char *>(it.data())}; }
    void begin() {
        if (!writing) check(mdb_txn_begin(env, nullptr, 0, &writing));
    }
    void commit() {
        check(mdb_txn_commit(writing));
        writing = nullptr;
        pending = 0;
    }
    void changed() {
        if (++pending >= batch) commit();
    }
    MDB_txn *view() {
        if (writing) return writing;
        if (reading) check(mdb_txn_renew(reading));
        else check(mdb_txn_begin(env, nullptr, MDB_RDONLY, &reading));
        return reading;
    }
    void end_view() {
        if (!writing) mdb_txn_reset(reading);
    }
    static bool find(MDB_txn *txn, MDB_dbi dbi, string_view key, string &value) {
        MDB_val k = val(key), v;
        int status = mdb_get(txn, dbi, &k, &v);
        if (status == MDB_NOTFOUND) return false;
        check(status);
        value.assign(static_cast<char *>(v.mv_data), v.mv_size);
        return true;
    }
    bool get(string_view key, string &value) {
        bool found = find(view(), dbi, key, value);
        end_view();
        return found;
    }
    // A put or a delete looks its key up in the same transaction.
    void prepare() { begin(); }
    void put(string_view key, string_view value) {
        MDB_val k = val(key), v = val(value);
        check(mdb_put(writing, dbi, &k, &v, 0));
        changed();
    }
    void remove(string_view key) {
        MDB_val k = val(key);
        check(mdb_del(writing, dbi, &k, nullptr));
        changed();
    }
    void unchanged() {
        if (pending == 0) commit();
    }
    unsigned long rows(string_view low, const string_view *high, unsigned long most) {
        unsigned long count = 0;
        MDB_cursor *cursor;
        check(mdb_cursor_open(view(), dbi, &cursor));
        MDB_val k = val(low), v;
        int status = mdb_cursor_get(cursor, &k, &v, MDB_SET_RANGE);
        for (; count < most && status == 0; count++, status = mdb_cursor_get(cursor, &k, &v, MDB_NEXT)) {
            string_view key(static_cast<char *>(k.mv_data), k.mv_size);
            if (high && key >= *high) break;
            row(key, string_view(static_cast<char *>(v.mv_data), v.mv_size));
        }
        if (status && status != MDB_NOTFOUND) check(status);
        mdb_cursor_close(cursor);
        end_view();
        return count;
    }
};

#elif defined(SQLITE)
#include <sqlite3.h>
// A table without rowids, a write-ahead log; a commit is synced only with SYNCED. BATCH puts and deletes are one transaction.
struct Store {
    sqlite3 *db;
    sqlite3_stmt *find, *insert, *erase, *some, *most_of;
    unsigned batch, pending = 0;

    Store(const char *file, unsigned batch) : batch(batch) {
        check(sqlite3_open(file, &db));
        run("pragma journal_mode=wal");
        run(SYNCED ? "pragma synchronous=full" : "pragma synchronous=off");
        run("create table if not exists pairs (k blob primary key, v blob) without rowid");
        find = made("select v from pairs where k = ?1");
        insert = made("insert into pairs values (?1, ?2) on conflict (k) do update set v = excluded.v");
        erase = made("delete from pairs where k = ?1");
        some = made("select k, v from pairs where k >= ?1 and k < ?2 order by k");
        most_of = made("select k, v from pairs where k >= ?1 order by k limit ?2");
    }
    ~Store() {
        if (pending) run("commit");
        for (sqlite3_stmt *it : {find, insert, erase, some, most_of}) sqlite3_finalize(it);
        sqlite3_close(db);
    }
    void check(int status) {
        if (status != SQLITE_OK && status != SQLITE_DONE && status != SQLITE_ROW) fail(sqlite3_errmsg(db));
    }
    void run(const char *words) { check(sqlite3_exec(db, words, nullptr, nullptr, nullptr)); }
    sqlite3_stmt *made(const char *words) {
        sqlite3_stmt *it;
        check(sqlite3_prepare_v3(db, words, -1, SQLITE_PREPARE_PERSISTENT, &it, nullptr));
        return it;
    }
    void bind(sqlite3_stmt *it, int place, string_view bytes) {
        check(sqlite3_bind_blob(it, place, bytes.empty() ? "" : bytes.data(), int(bytes.size()), SQLITE_STATIC));
    }
    static string_view column(sqlite3_stmt *it, int place) {
        return string_view(static_cast<const char *>(sqlite3_column_blob(it, place)), size_t(sqlite3_column_bytes(it, place)));
    }
    bool get(string_view key, string &value) {
        bind(find, 1, key);
        int status = sqlite3_step(find);
        check(status);
        if (status == SQLITE_ROW) value = column(find, 0);
        sqlite3_reset(find);
        return status == SQLITE_ROW;
    }
    void change(sqlite3_stmt *it) {
        if (batch > 1 && pending == 0) run("begin");
        check(sqlite3_step(it));
        sqlite3_reset(it);
        if (batch > 1 && ++pending >= batch) {
            run("commit");
            pending = 0;
        }
    }
    void put(string_view key, string_view value) {
        bind(insert, 1, key);
        bind(insert, 2, value);
        change(insert);
    }
    void remove(string_view key) {
        bind(erase, 1, key);
        change(erase);
    }
    unsigned long rows(string_view low, const string_view *high, unsigned long most) {
        unsigned long count = 0;
        sqlite3_stmt *it = high ? some : most_of;
        bind(it, 1, low);
        if (high) bind(it, 2, *high);
        else check(sqlite3_bind_int64(it, 2, sqlite3_int64(most)));
        int status;
        for (; (status = sqlite3_step(it)) == SQLITE_ROW; count++) row(column(it, 0), column(it, 1));
        check(status);
        sqlite3_reset(it);
        return count;
    }
};

#elif defined(TKRZW)
#include <tkrzw_dbm_tree.h>
// A file of a B+ tree, with the library's defaults.
struct Store {
    tkrzw::TreeDBM db;

    Store(const char *file, unsigned) { db.Open(file, true).OrDie(); }
    ~Store() { db.Close().OrDie(); }
    bool get(string_view key, string &value) {
        tkrzw::Status status = db.Get(key, &value);
        if (status != tkrzw::Status::NOT_FOUND_ERROR) status.OrDie();
        return status.IsOK();
    }
    void put(string_view key, string_view value) { db.Set(key, value).OrDie(); }
    void remove(string_view key) { db.Remove(key).OrDie(); }
    unsigned long rows(string_view low, const string_view *high, unsigned long most) {
        unsigned long count = 0;
        auto at = db.MakeIterator();
        at->Jump(low).OrDie();
        string key, value;
        for (; count < most && at->Get(&key, &value).IsOK(); at->Next(), count++) {
            if (high && string_view(key) >= *high) break;
            row(key, value);
        }
        return count;
    }
};

#elif defined(MAP)
#include <map>
struct Store {
    std::map<string, string, std::less<>> map;

    Store(const char *, unsigned) {}
    bool get(string_view key, string &value) {
        auto at = map.find(key);
        if (at == map.end()) return false;
        value = at->second;
        return true;
    }
    void put(string_view key, string_view value) { map.insert_or_assign(string(key), value); }
    void remove(string_view key) { map.erase(map.find(key)); }
    unsigned long rows(string_view low, const string_view *high, unsigned long most) {
        unsigned long count = 0;
        for (auto at = map.lower_bound(low); count < most && at != map.end() && !(high && at->first >= *high); ++at, count++)
            row(at->first, at->second);
        return count;
    }
};

#elif defined(ECHO)
struct Store {
    Store(const char *, unsigned) {}
    bool get(string_view, string &) { return false; }
    void put(string_view, string_view) {}
    void remove(string_view) {}
    unsigned long rows(string_view, const string_view *, unsigned long) { return 0; }
};
#else
#error "one of LEVELDB, ROCKSDB, LMDB, SQLITE, TKRZW, MAP and ECHO is to be defined"
#endif

#ifndef LMDB
static void prepare(Store &) {}
static void unchanged(Store &) {}
#else
static void prepare(Store &store) { store.prepare(); }
static void unchanged(Store &store) { store.unchanged(); }
#endif

static bool is_key(string_view it) { return 1 <= it.size() && it.size() <= 24; }

// The number of 1 to 10 decimal digits, or none.
static bool number(string_view it, unsigned long &value) {
    value = 0;
    if (it.empty() || it.size() > 10) return false;
    for (char digit : it) {
        if (digit < '0' || digit > '9') return false;
        value = 10 * value + unsigned(digit - '0');
    }
    return true;
}

// Adds the replies to a line to `replies`.
static void carry_out(Store &store, string_view line) {
    static string value;
    string_view word[3];
    int words = 0;
    for (size_t from = 0;; ) {
        size_t to = line.find(' ', from);
        if (words == 3) {
            words = 4;
            break;
        }
        word[words++] = line.substr(from, to == string_view::npos ? to : to - from);
        if (to == string_view::npos) break;
        from = to + 1;
    }
    unsigned long most;
    bool good = line.find('\0') == string_view::npos && words >= 2 && is_key(word[1]);
    if (good && words == 3 && word[0] == "put" && word[2].size() <= 32) {
        prepare(store);
        if (store.get(word[1], value)) replies += "old " + value + "\n";
        else replies += "new\n";
        store.put(word[1], word[2]);
    } else if (good && words == 2 && word[0] == "get") {
        if (store.get(word[1], value)) replies += "val " + value + "\n";
        else replies += "none\n";
    } else if (good && words == 2 && word[0] == "del") {
        prepare(store);
        if (store.get(word[1], value)) {
            replies += "gone " + value + "\n";
            store.remove(word[1]);
        } else {
            replies += "none\n";
            unchanged(store);
        }
    } else if (good && words == 3 && word[0] == "range" && is_key(word[2])) {
        unsigned long count = store.rows(word[1], &word[2], ~0ul);
        replies += "end " + std::to_string(count) + "\n";
    } else if (good && words == 3 && word[0] == "scan" && number(word[2], most)) {
        unsigned long count = store.rows(word[1], nullptr, most);
        replies += "end " + std::to_string(count) + "\n";
    } else {
        replies += "bad\n";
    }
}

static void write_replies() {
    for (size_t done = 0; done < replies.size();) {
        ssize_t wrote = write(1, replies.data() + done, replies.size() - done);
        if (wrote <= 0) exit(4);
        done += size_t(wrote);
    }
    replies.clear();
}

int main(int count, char **words) {
    if (count < 2) fail("wants a file");
    Store store(words[1], count > 2 ? unsigned(atoi(words[2])) : 1);
    static char room[1 << 16];
    string rest;
    auto line = [&](string_view it) {
        bool fits = it.size() <= 160;
        if (!it.empty() && it.back() == '\r') it.remove_suffix(1);
        if (it.empty()) return;
        if (fits) carry_out(store, it);
        else replies += "bad\n";
        if (replies.size() >= sizeof room) write_replies();
    };
    for (;;) {
        write_replies();
        ssize_t got = read(0, room, sizeof room);
        if (got < 0) return 3;
        if (got == 0) break;
        string_view left(room, size_t(got));
        for (size_t to; (to = left.find('\n')) != string_view::npos; left.remove_prefix(to + 1)) {
            if (rest.empty()) line(left.substr(0, to));
            else {
                rest += left.substr(0, to);
                line(rest);
                rest.clear();
            }
        }
        rest += left;
    }
    if (!rest.empty()) line(rest);
    write_replies();
    return 0;
}
