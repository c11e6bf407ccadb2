// The longest wait under load, of one store in a process of its own, for bench/stall.sh, which compiles it once for each store.
//
//     stall FILE KEYS RATE SECONDS KEEPS      (KEEPS: 0, 1 or 2, as bench/subjects.hpp says)
//
// A log collector: lines come from 200 hosts at a fixed rate, whether or not the store is ready for them. Each is put under the
// key of its host and its number; once there are KEYS of them the oldest one of that host is taken out. Each tenth line is
// followed by a get of some line that is there, each hundredth by a range of twenty lines of a host. A call's time begins when its
// line was due, so that a stall is charged to each call behind it. The store is filled with KEYS lines before.
// It prints a line for each kind of call, one for all, and one for the machine, as Calls::show says. The last has the waits of lines
// that were due while the loop that awaits the next one got no processor: what they would have waited for with no store at all. Two
// lines more, all-quietest and machine-quietest, are of the quarter of the run in which that was least, by its 99.99th percentile.
#include "subjects.hpp"

static const size_t hosts = 200;

struct Collector {
    Subject &store;
    size_t each;                       // lines that are kept of a host
    std::vector<uint64_t> next;        // the number of each host's next line
    char room[32];
    string got;

    Collector(Subject &store, size_t keys) : store(store), each(keys / hosts), next(hosts, 0) {}

    string_view key(size_t host, uint64_t number) {
        return string_view(room, size_t(snprintf(room, sizeof room, "host%03zu/%012" PRIu64, host, number)));
    }
    static string value(size_t host, uint64_t number) {
        char text[80];
        return string(text, size_t(snprintf(text, sizeof text, "%03zu %012" PRIu64 " GET /index.html 200 5120", host, number)));
    }
    void put(size_t host) {
        store.put(key(host, next[host]), value(host, next[host]));
        next[host]++;
    }
    void drop(size_t host) { store.remove(key(host, next[host] - each - 1)); }
    void get(size_t host, uint64_t back) {
        uint64_t number = next[host] - 1 - back;
        if (!store.get(key(host, number), got) || got != value(host, number)) fprintf(stderr, "stall: a line is lost\n"), exit(1);
    }
    void range(size_t host, uint64_t back) {
        if (store.scan(key(host, next[host] - 1 - back), 20) != 20) fprintf(stderr, "stall: a range is short\n"), exit(1);
    }
};

// Waits until a line is due, and adds what it waited for the machine alone, and what the lines behind it did that were due before the
// loop went on. A line that was due while a call ran is not counted.
static void await(uint64_t due, uint64_t gap, Calls &waits) {
    if (now() >= due) return;
    uint64_t at;
    while ((at = now()) < due) {}
    for (; due <= at; due += gap) waits.add(at - due);
}

int main(int count, char **words) {
    if (count != 6) return fprintf(stderr, "stall FILE KEYS RATE SECONDS KEEPS\n"), 2;
    size_t keys = size_t(atol(words[2])) / hosts * hosts;
    uint64_t gap = uint64_t(1e9 / atof(words[3])), lines = uint64_t(atof(words[3]) * atof(words[4]));
    Keeps keeps = Keeps(atoi(words[5]));
    if (keys < 30 * hosts) return fprintf(stderr, "stall: a host keeps 30 lines at least\n"), 2;
    Subject store(words[1], keys + 1, keeps);
    Collector collector(store, keys);
    for (size_t at = 0; at < keys; at++) collector.put(at % hosts);
    Calls puts{"put", {}}, drops{"delete", {}}, gets{"get", {}}, ranges{"range", {}}, all{"all", {}};
    for (Calls *it : {&puts, &drops, &all}) it->times.reserve(3 * lines);
    enum { PARTS = 4 };
    Calls part[PARTS], waits[PARTS];
    for (int it = 0; it < PARTS; it++) part[it].times.reserve(lines), waits[it].times.reserve(lines / 2);
    Random random{88172645463325252u};
    uint64_t begun = now(), synced = begun;
    for (uint64_t line = 0; line < lines; line++) {
        uint64_t due = begun + line * gap;
        size_t at = line * PARTS / lines;
        await(due, gap, waits[at]);
        auto done = [&](Calls &kind) {
            uint64_t took = now() - due;
            kind.add(took), all.add(took), part[at].add(took);
        };
        size_t host = random.below(hosts);
        collector.put(host), done(puts);
        collector.drop(host), done(drops);
        if (line % 10 == 0) collector.get(random.below(hosts), random.below(collector.each)), done(gets);
        if (line % 100 == 0) collector.range(random.below(hosts), 20 + random.below(collector.each - 20)), done(ranges);
        if (keeps == MACHINE && now() - synced >= 1000000000u) store.sync(), synced = now();
    }
    Calls all_waits{"machine", {}};
    for (Calls &it : waits) all_waits.times.insert(all_waits.times.end(), it.times.begin(), it.times.end());
    for (Calls *it : {&puts, &drops, &gets, &ranges, &all, &all_waits}) it->show();
    size_t quietest = 0;
    for (size_t it = 1; it < PARTS; it++)
        if (waits[it].percentile(0.9999) < waits[quietest].percentile(0.9999)) quietest = it;
    part[quietest].name = "all-quietest", waits[quietest].name = "machine-quietest";
    for (Calls *it : {&part[quietest], &waits[quietest]}) it->show();
    return 0;
}
