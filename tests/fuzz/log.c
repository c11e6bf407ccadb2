/* A hostile log beside a store's file, which is opened in each way, with the journal of its next checkpoint beside it or not: whatever
 * the bytes are, the store has the map of its last checkpoint behind the front of calls that the format's page says they are, computed
 * here by other means; none, where they follow another file. One that an earlier library wrote, which follows the header alone, and a file
 * that can be no log are answered and left. Where a write, a cut
 * or a sync is refused meanwhile, that is answered, and the next opening finds the same map. The store takes calls then, keeps them,
 * and is sound as it is closed.
 *
 * An input is five bytes, which say how it is opened, and then the log, as it is, or record by record, with the sums made right. */
#include "hostile.h"

enum { ROOM = 1 << 20, BODY = 11, JOURNAL_HEAD = 16 };

static const known *it;      /* the store */
static const image *holds;   /* the file of its last checkpoint */
static image file_then, log_then;
static plain map;            /* what the store is to have */

/* What the format's page says of the log. */

typedef struct told {
    bool follows, is_earlier; /* the first page; the header alone, with a call */
    int calls;
    size_t whole; /* bytes, up to the first record that does not bear its sum */
} told;

static void first_sum(const uint8_t *page, size_t length, uint8_t sum[SUM]) { sha256("COLA-LOG", 8, page, length, sum); }

static bool begins_with(const image *log, const uint8_t sum[SUM]) { return log->length >= SUM && memcmp(log->bytes, sum, SUM) == 0; }

/* The length of the record that stands at a place, behind a sum, which becomes its own; 0 where there is none. */
static size_t record_at(const image *log, size_t at, uint8_t chain[SUM]) {
    uint8_t sum[SUM];
    const uint8_t *body = log->bytes + at;
    size_t left = log->length - at;
    if (left < BODY + SUM || left < BODY + SUM + (size_t)body[1] + body[2]) return 0;
    size_t size = BODY + (size_t)body[1] + body[2];
    uint64_t seen = number_at(body + 3, 8);
    sha256(chain, SUM, body, size, sum);
    if (memcmp(body + size, sum, SUM) != 0) return 0;
    if (body[0] != 2 && !(seen == 0 && (body[0] == 1 || (body[0] == 3 && body[2] == 0)))) return 0;
    memcpy(chain, sum, SUM);
    return size + SUM;
}

/* The call of a record on the map, which refuses it or not. */
static void make_call(const uint8_t *body) {
    bool was;
    uint64_t stamp;
    const uint8_t *key = body + BODY, *value = key + body[1];
    if (body[0] == 1) plain_put(&map, key, body[1], value, body[2], &was);
    else if (body[0] == 2) plain_put_if(&map, false, key, body[1], number_at(body + 3, 8), value, body[2], &was, &stamp);
    else plain_delete(&map, key, body[1]);
}

static told read_log(const image *log) {
    uint8_t chain[SUM];
    told of = {false, false, 0, 0};
    first_sum(holds->bytes, HEADER, chain);
    of.is_earlier = begins_with(log, chain) && record_at(log, SUM, chain) > 0;
    first_sum(holds->bytes, PAGE, chain);
    of.follows = begins_with(log, chain);
    if (!of.follows) return of;
    of.whole = SUM;
    for (size_t size; (size = record_at(log, of.whole, chain)) > 0; of.calls++) {
        make_call(log->bytes + of.whole);
        of.whole += size;
    }
    return of;
}

/* Making the files of the input. */

/* The journal of the next checkpoint's pages, in a file, whole or not. */
static void make_journal(const image *behind, bool is_whole) {
    static image journal;
    uint8_t sum[SUM];
    size_t length = behind->length - GUARD;
    journal.length = 0;
    add(&journal, it->files[0].bytes, PAGE); /* (which it follows) */
    sha256("COLA-LOG", 8, journal.bytes, PAGE, sum);
    add(&journal, sum, SUM);
    add(&journal, "COLAJRNL", 8);
    add_number(&journal, length / PAGE, 8);
    for (size_t place = 0; place < length; place += PAGE) {
        add_number(&journal, place, 8);
        add_number(&journal, PAGE, 8);
        add(&journal, behind->bytes + place, PAGE);
    }
    sha256(journal.bytes + PAGE + SUM, journal.length - PAGE - SUM, NULL, 0, sum);
    add(&journal, sum, SUM);
    if (!is_whole) journal.length -= 1000;
    write_file(journal_path, &journal);
}

static void make_file(unsigned how) {
    it = &stores[how % SHAPES];
    how /= SHAPES;
    unsigned at = how & 1, journal = how >> 1 & 3;
    copy_image(&file_then, &it->files[at]);
    holds = &it->files[journal == 1 ? 1 : at];
    map.limit = it->keys, map.key_max = it->maps[0].key_max, map.value_max = it->maps[0].value_max, map.has_stamps = it->maps[0].has_stamps;
    copy_map(&map, &it->maps[journal == 1 ? 1 : at]);
    unlink(journal_path);
    if (journal != 0) make_journal(&it->files[1], journal == 1);
    if (journal == 1 && (how & 8) != 0) file_then.bytes[STATE] = 1;
    write_file(store_path, &file_then);
}

static void add_record(image *to, uint8_t chain[SUM], const uint8_t *body, size_t size, const uint8_t *breaks) {
    sha256(chain, SUM, body, size, chain);
    add(to, body, size);
    add(to, chain, SUM);
    if (breaks != NULL) to->bytes[to->length - 1 - breaks[0] % SUM] ^= (uint8_t)(1u << breaks[1] % 8);
}

/* A call of the input as what stands in front of its sum. */
static size_t make_body(input *in, unsigned kind, uint8_t body[BODY + 512]) {
    unsigned key = next(in), value = kind == 3 ? 0 : next(in);
    uint64_t seen = kind == 2 ? next_number(in, value % 2 == 0 ? 1 : 8) : 0;
    size_t length = key < 128 ? 3 : key - 128;
    memset(body, 'x', BODY + 512);
    body[0] = (uint8_t)kind, body[1] = (uint8_t)length, body[2] = (uint8_t)value;
    for (int at = 0; at < 8; at++) body[3 + at] = (uint8_t)(seen >> 8 * at);
    if (key < 128) snprintf((char *)body + BODY, 8, "k%02u", key % 100);
    return BODY + length + value;
}

/* Record by record: calls, any bytes as a record, torn ones, and bytes that are others behind their sum. */
static void make_records(input *in, image *to) {
    uint8_t chain[SUM], body[BODY + 512], page[PAGE], breaks[2];
    unsigned how = next(in), from = how % 4;
    memcpy(page, from == 1 ? it->files[holds == it->files].bytes : holds->bytes, PAGE);
    if (from == 2) page[STATE] = 1;
    first_sum(page, how / 4 % 4 == 3 ? HEADER : PAGE, chain);
    if (from < 3) add(to, chain, SUM);
    while (!is_over(in) && to->length < MOST / 4) {
        unsigned what = next(in), least = next(in);
        switch (what % 8) {
        case 0:
        case 1:
        case 2:
        case 3:
            in->at--;
            add_record(to, chain, body, make_body(in, what % 8 < 2 ? 1 : what % 8, body), NULL);
            break;
        case 4: /* any body of the right length */
            for (int at = 0; at < BODY; at++) body[at] = next(in);
            for (int at = BODY; at < BODY + body[1] + body[2]; at++) body[at] = next(in);
            add_record(to, chain, body, BODY + (size_t)body[1] + body[2], NULL);
            break;
        case 5: /* a sum that is another, and behind it they go on as if it were not */
            breaks[0] = (uint8_t)least, breaks[1] = next(in);
            add_record(to, chain, body, make_body(in, 1 + what / 8 % 3, body), breaks);
            break;
        case 6:
            least |= (unsigned)next(in) << 8;
            if (to->length > 0) to->bytes[least % to->length] ^= next(in);
            break;
        default:
            if (what < 128) to->length -= least < to->length ? least : to->length;
            else for (body[0] = next(in), what = 0; what < 16 * least; what++) add(to, body, 1);
        }
    }
}

static void make_log(input *in, unsigned form) {
    log_then.length = 0;
    if (form % 2 == 0) add(&log_then, in->bytes + in->at, in->length - in->at);
    else make_records(in, &log_then);
}

/* A file that can be no log: none of its bytes is zero. */
static bool is_text(const image *log) { return log->length > SUM && memchr(log->bytes, 0, log->length) == NULL; }

/* What is done to the store. */

/* The file is opened, recovered, checked or grown, and left as it is: the answer. */
static int32_t does(int way) {
    cola_file file = COLA_FILE_INIT;
    cola_verdict verdict = {0};
    uint64_t rows = 0;
    bool found, log;
    if (way == RECOVERED) return cola_file_settle(store_path, &found, &log);
    int32_t answer = way == CHECKED ? cola_file_check(store_path, &verdict)
                     : way == GROWN ? cola_file_grow(store_path, it->keys, 3, &rows)
                                    : cola_file_open_as(&file, store_path, flags_of(way));
    refused_at = 0;
    if (answer != COLA_OK) return HOLDS(file.bytes == NULL), answer;
    if (way == CHECKED) HOLDS(verdict.flaw == COLA_SOUND && verdict.count == map.count);
    if (way == GROWN) HOLDS(rows == map.count);
    if (opens(way)) HOLDS(has_map(&file.store, &map) && cola_file_discard(&file) == COLA_OK);
    return answer;
}

/* The calls of a log of version 1 may give the first page that it follows: then a log alone has them. */
static bool is_kept_by_log(int32_t answer, int error, const told *of) {
    return answer == COLA_UNFINISHED && error == EEXIST && it->version == 1 && of->calls > 0;
}

/* What an opening with a log leaves of it: its whole records, and zeros, or nothing, where there are none. */
static void look_at_log(const told *of) {
    static image now;
    HOLDS(is_there(log_path) == (of->whole > SUM));
    if (of->whole <= SUM) return;
    HOLDS(read_file(log_path, &now) && now.length >= of->whole && memcmp(now.bytes, log_then.bytes, of->whole) == 0 && has_zeros(&now, of->whole));
}

/* More calls, and an opening behind them; the close has them all in the file, or a log that follows it. */
static void goes_on(int way, unsigned calls) {
    cola_file file = COLA_FILE_INIT;
    cola_verdict verdict;
    HOLDS(cola_file_open_as(&file, store_path, flags_of(way)) == COLA_OK && has_map(&file.store, &map));
    for (unsigned number = 0; number < calls; number++) step(&file.store, &map, number + 5000);
    HOLDS(cola_file_sync(&file) == COLA_OK && cola_file_discard(&file) == COLA_OK);
    HOLDS(does(LOGGED) == COLA_OK && cola_file_open_as(&file, store_path, COLA_LOGGED) == COLA_OK && cola_file_close(&file) == COLA_OK);
    if (is_there(log_path)) HOLDS(it->version == 1 && does(LOGGED) == COLA_OK);
    else HOLDS(cola_file_check(store_path, &verdict) == COLA_OK && verdict.count == map.count && does(MAPPED) == COLA_OK);
}

int LLVMFuzzerTestOneInput(const uint8_t *bytes, size_t length) {
    input in = {bytes, length, 0};
    begin_once();
    if (map.pairs == NULL) map = plain_new(256, 2);
    int way = next(&in) % WAYS, fails_at = next(&in) % 32;
    unsigned how = next(&in), calls = next(&in) % 32, form = next(&in);
    make_file(how);
    make_log(&in, form);
    write_file(log_path, &log_then);
    told of = read_log(&log_then);
    bool is_refused = !of.follows && !of.is_earlier && is_text(&log_then), is_broken = false;
    int held = descriptors();
    int32_t known = of.is_earlier ? COLA_UNFINISHED : is_logged(way) && is_refused ? COLA_SYSTEM : COLA_OK;
    if (fails_at > 0) {
        refuse(fails_at);
        int32_t answer = does(way);
        int error = errno;
        is_broken = was_refused;
        refused_at = 0, is_torn = false;
        HOLDS(answer == known || is_kept_by_log(answer, error, &of) || (was_refused && (answer == COLA_SYSTEM || answer == COLA_UNFINISHED)));
    }
    errno = 0;
    int32_t answer = does(way);
    int error = errno;
    bool is_kept = is_kept_by_log(answer, error, &of);
    HOLDS(answer == known || is_kept);
    HOLDS(descriptors() == held && (way == READ || way == CHECKED || !is_there(journal_path)));
    reaches((unsigned)way * 4 + (of.is_earlier ? 3u : of.follows * 2u + is_refused), of.calls < 3 ? (unsigned)of.calls : 3, (unsigned)(of.calls * 3 + fails_at));
    if (is_refused) HOLDS((!is_logged(way) || error == EEXIST) && has_file(log_path, &log_then));
    if (of.is_earlier) HOLDS(error == ENOTSUP && has_file(log_path, &log_then) && has_file(store_path, holds));
    if (!is_broken && is_logged(way) && !is_refused && !of.is_earlier) look_at_log(&of), HOLDS(has_file(store_path, holds));
    if (!is_broken && !is_logged(way) && of.calls == 0)
        HOLDS(has_file(log_path, &log_then) && ((way == GROWN && !of.is_earlier) || has_file(store_path, holds)));
    if (!is_broken && !is_logged(way) && of.calls > 0) HOLDS(is_there(log_path) == (is_kept || (way == RECOVERED && it->version == 1 && is_there(log_path))));
    if (is_refused || of.is_earlier) unlink(log_path);
    goes_on(calls % 2 == 0 ? LOGGED : SYNCED, calls);
    HOLDS(descriptors() == held && !is_there(journal_path));
    look_at_folder();
    return 0;
}
