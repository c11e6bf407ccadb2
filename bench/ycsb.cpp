// The core workloads of YCSB (Cooper, Silberstein, Tam, Ramakrishnan and Sears, Benchmarking cloud serving systems with YCSB, SoCC
// 2010) on one store, by its calls, in a process of its own, for bench/stall.sh, which compiles it once for each store.
//
//     ycsb FILE RECORDS CALLS WORKLOADS KEEPS      (WORKLOADS: of A to F; KEEPS: 0, 1 or 2, as bench/subjects.hpp says)
//
// The records are loaded, and then the workloads run one after the other, each of so many calls. YCSB's pages run A, B, C, F and D
// behind one load, and E behind another.
//
// Keys are `user` and the decimal number of a hash, as YCSB's core workload makes them; a record is one field of 64 bytes. The
// choosers are YCSB's: zipfian with the constant 0.99, scattered by the hash, and latest, by which new records are asked most.
// Scans have from 1 to 100 records, all lengths alike. It prints, each behind its letter, a workload's calls a second and then a line
// for each kind of call.
#include "subjects.hpp"
#include <cstring>

// FNV-1a over the eight bytes of a number, as YCSB has it.
static uint64_t hash(uint64_t number) {
    uint64_t sum = 0xCBF29CE484222325u;
    for (int byte = 0; byte < 8; byte++, number >>= 8) sum = (sum ^ (number & 255)) * 1099511628211u;
    return sum & 0x7FFFFFFFFFFFFFFFu;
}

// Numbers below a growing count, of which the n-th is chosen in proportion to 1 / n^0.99 (Gray and others, Quickly generating
// billion-record synthetic databases, SIGMOD 1994).
struct Zipfian {
    static constexpr double theta = 0.99;
    uint64_t count = 0;
    double zeta = 0;

    explicit Zipfian(uint64_t wanted) { grow(wanted); }
    void grow(uint64_t wanted) {
        for (; count < wanted; count++) zeta += 1 / std::pow(double(count + 1), theta);
    }
    uint64_t next(Random &random) const {
        double unit = random.unit(), place = unit * zeta;
        if (place < 1) return 0;
        if (place < 1 + std::pow(0.5, theta)) return 1;
        double eta = (1 - std::pow(2.0 / double(count), 1 - theta)) / (1 - (1 + std::pow(0.5, theta)) / zeta);
        return std::min(count - 1, uint64_t(double(count) * std::pow(eta * unit - eta + 1, 1 / (1 - theta))));
    }
};

struct Workload {
    char name;
    double reads, updates, inserts, scans; // the rest reads, changes and writes
    bool latest;
};
static const Workload workloads[] = {
    {'A', 0.5, 0.5, 0, 0, false},  {'B', 0.95, 0.05, 0, 0, false}, {'C', 1, 0, 0, 0, false},
    {'D', 0.95, 0, 0.05, 0, true}, {'E', 0, 0, 0.05, 0.95, false}, {'F', 0.5, 0, 0, 0, false},
};

struct Records {
    Subject &store;
    Keeps keeps;
    Random random{88172645463325252u};
    uint64_t count = 0;
    char room[32], bytes[64];
    string_view key, field; // the record that is asked for, and what is to be written
    string got;

    Records(Subject &store, Keeps keeps) : store(store), keeps(keeps) {}
    void choose(uint64_t number) {
        key = string_view(room, size_t(snprintf(room, sizeof room, "user%" PRIu64, hash(number))));
        for (size_t at = 0; at < sizeof bytes; at += 8) {
            uint64_t some = random.next();
            memcpy(bytes + at, &some, 8);
        }
        field = string_view(bytes, sizeof bytes);
    }
    void write() { store.put(key, field); }
    void read() {
        if (!store.get(key, got) || got.size() != field.size()) fprintf(stderr, "ycsb: a record is lost\n"), exit(1);
    }
    void scan(size_t most) {
        if (store.scan(key, most) == 0) fprintf(stderr, "ycsb: a scan gave nothing\n"), exit(1);
    }
};

// One workload on the records that are there, and its lines.
static void run(Records &all, const Workload &mix, uint64_t calls) {
    Zipfian zipfian(all.count);
    Random random{88172645463325252u};
    Calls reads{"read", {}}, updates{"update", {}}, inserts{"insert", {}}, scans{"scan", {}}, changes{"read-modify-write", {}};
    uint64_t begun = now(), synced = begun;
    for (uint64_t at = 0; at < calls; at++) {
        double kind = random.unit();
        bool is_new = kind >= mix.reads + mix.updates && kind < mix.reads + mix.updates + mix.inserts;
        uint64_t place = zipfian.next(random);
        all.choose(is_new ? all.count : mix.latest ? all.count - 1 - place : hash(place) % all.count);
        size_t most = 1 + random.below(100);
        uint64_t start = now();
        if (kind < mix.reads) all.read(), reads.add(now() - start);
        else if (kind < mix.reads + mix.updates) all.write(), updates.add(now() - start);
        else if (is_new) all.write(), inserts.add(now() - start), zipfian.grow(++all.count);
        else if (mix.scans > 0) all.scan(most), scans.add(now() - start);
        else all.read(), all.write(), changes.add(now() - start);
        if (all.keeps == MACHINE && now() - synced >= 1000000000u) all.store.sync(), synced = now();
    }
    printf("%c calls %.0f\n", mix.name, double(calls) / (double(now() - begun) / 1e9));
    for (Calls *kind : {&reads, &updates, &inserts, &scans, &changes}) {
        if (kind->times.empty()) continue;
        printf("%c ", mix.name);
        kind->show();
    }
    fflush(stdout);
}

int main(int count, char **words) {
    if (count != 6) return fprintf(stderr, "ycsb FILE RECORDS CALLS WORKLOADS KEEPS\n"), 2;
    uint64_t records = uint64_t(atoll(words[2])), calls = uint64_t(atoll(words[3]));
    string wanted = words[4];
    if (records < 2 || wanted.find_first_not_of("ABCDEF") != string::npos)
        return fprintf(stderr, "ycsb: workloads are A to F, on two records at least\n"), 2;
    Keeps keeps = Keeps(atoi(words[5]));
    // (of the calls of D and of E a twentieth are new records)
    Subject store(words[1], records + calls / 10 + 1000, keeps);
    Records all(store, keeps);
    for (; all.count < records; all.count++) all.choose(all.count), all.write();
    for (char name : wanted) run(all, workloads[name - 'A'], calls);
    return 0;
}
