/* A hostile journal beside a store's file, which is opened in each way: whatever the bytes are, the file has what the format's page
 * says of them, computed here by other means: the pieces of a whole journal that follows the file's first page, which lie in it and rise, or
 * else what it had; a store opens then as one of these bytes does in memory, with the map that is known of it; and such a journal with
 * other pieces is answered as such, with nothing written. Where a write or a sync is refused meanwhile, that is answered, and the next
 * opening makes the same file.
 *
 * An input is five bytes, which say how it is opened and which page stands in front of the journal, and then the journal, as it is, or
 * with its sum made right, or piece by piece. */
#include "hostile.h"

enum { HEAD = 16, LEAST = HEAD + SUM, FRONT = PAGE + SUM };

static const known *it;                 /* the store */
static image before, journal, written;  /* its file, the journal behind its front, and with it */

/* Making the file and the journal of the input. */

/* The file of the last checkpoint, with some pages of the next, marked to be in use or not, or cut. */
static void make_file(input *in) {
    unsigned pages = next(in), how = next(in);
    it = &stores[how % SHAPES];
    how /= SHAPES;
    copy_image(&before, &it->files[0]);
    for (size_t page = 0; page < 8; page++) {
        size_t from = page == 0 ? HEADER : page * PAGE, until = (page + 1) * PAGE;
        if ((pages >> page & 1) == 0 || until > before.length) continue;
        memcpy(before.bytes + from, it->files[1].bytes + from, until - from);
    }
    if ((how & 1) != 0) before.bytes[STATE] = 1;
    if ((how & 2) != 0) memcpy(before.bytes, it->files[1].bytes, HEADER);
    if ((how & 48) == 48) memcpy(before.bytes, it->files[1].bytes, 2u * next(in)); /* (a header that is torn) */
    if ((how & 12) == 12) before.length = before.length * next(in) / 255;
}

/* A head that says how many pieces there are, and the sum of all. */
static void seal(image *to, uint64_t count) {
    static image pieces;
    copy_image(&pieces, to);
    to->length = 0;
    add(to, "COLAJRNL", 8);
    add_number(to, count, 8);
    add(to, pieces.bytes, pieces.length);
    uint8_t sum[SUM];
    sha256(to->bytes, to->length, NULL, 0, sum);
    add(to, sum, SUM);
}

/* The bytes of the input are pieces, up to the last, whose length is made right; each takes its bytes from here, or, where its place
 * has its highest bit, from the store's next checkpoint. */
static uint64_t add_pieces(input *in, image *to) {
    uint64_t count = 0;
    while (!is_over(in) && to->length < MOST / 2) {
        uint64_t place = next_number(in, 8), length = next_number(in, 8), left = in->length - in->at;
        bool is_known = place >> 63 != 0;
        if (is_known) place = place & 0xffffff;
        if (is_known && (place > it->files[1].length || length > it->files[1].length - place)) length = 0;
        if (!is_known && length > left) length = left;
        add_number(to, place, 8);
        add_number(to, length, 8);
        if (is_known) add(to, it->files[1].bytes + (length == 0 ? 0 : place), length);
        else add(to, in->bytes + in->at, length), in->at += length;
        count++;
    }
    return count;
}

static void add_piece(image *to, uint64_t place, uint64_t length, const uint8_t *bytes) {
    add_number(to, place, 8);
    add_number(to, length, 8);
    add(to, bytes, length);
}

/* Piece by piece: pages of both checkpoints, others, and what is wrong with them, in front of the sum or behind it. */
static void make_pieces(input *in, image *to) {
    uint64_t count = 0;
    size_t most = it->files[1].length;
    bool is_sealed = false;
    while (!is_over(in) && to->length < MOST / 4) {
        unsigned what = next(in);
        size_t place = what % 8 < 2 ? next(in) % 8u * PAGE : (size_t)next_number(in, 2) % most, length = what % 8 < 2 ? PAGE : (size_t)next_number(in, 2);
        if (place >= most) place = 0;
        if (length > most - place) length = most - place;
        switch (what % 8) {
        case 0: /* a page of the next checkpoint, and of the last one */
        case 1: add_piece(to, place, length, it->files[1 - what % 8].bytes + place), count++; break;
        case 2: add_piece(to, place, length, it->files[1].bytes + place), count++; break;
        case 3: add_piece(to, next_number(in, 8), length, it->files[1].bytes + place), count++; break;
        case 4: /* a length that is none */
            add_number(to, place, 8);
            add_number(to, next_number(in, 8), 8);
            count++;
            break;
        case 5: /* a byte is another */
            if (to->length > 0) to->bytes[(place << 8 | length) % to->length] ^= next(in);
            break;
        case 6: to->length -= length < to->length ? length : to->length; break;
        default:
            if (!is_sealed) seal(to, count + next(in)), is_sealed = true;
            else add(to, &(uint8_t){(uint8_t)place}, 1);
        }
    }
    if (!is_sealed) seal(to, count);
}

static void sum_of_page(const uint8_t *page, uint8_t sum[SUM]) { sha256("COLA-LOG", 8, page, PAGE, sum); }

/* What stands in front: the first page of the last checkpoint, with another byte or not, that of the next one, or bytes of the input. */
static void make_front(input *in, unsigned kind) {
    size_t left = in->length - in->at, place = kind == 1 ? next_number(in, 2) % FRONT : FRONT;
    uint8_t sum[SUM], by = kind == 1 ? next(in) : 0;
    written.length = 0;
    if (kind == 3) {
        if (left > 0) add(&written, in->bytes + in->at, left < FRONT ? left : FRONT), in->at += written.length;
        return;
    }
    add(&written, it->files[kind / 2].bytes, PAGE);
    if (place < PAGE) written.bytes[place] ^= by;
    sum_of_page(written.bytes, sum);
    add(&written, sum, SUM);
    if (place >= PAGE && place < FRONT) written.bytes[place] ^= by;
}

static void make_journal(input *in, unsigned form) {
    journal.length = 0;
    make_front(in, form / 3 % 4);
    if (form % 3 == 0) add(&journal, in->bytes + in->at, in->length - in->at);
    else if (form % 3 == 1) seal(&journal, add_pieces(in, &journal));
    else make_pieces(in, &journal);
    add(&written, journal.bytes, journal.length);
    journal.length = written.length < FRONT ? 0 : written.length - FRONT; /* (a front of the input may be short) */
    memcpy(journal.bytes, written.bytes + FRONT, journal.length);
}

/* What the format's page says of it. */

enum verdict { DROPPED, APPLIED, OTHERS };

/* The pieces of a whole journal: how many bytes of it they are; 0: it is not whole. */
static size_t pieces_of(void) {
    uint8_t sum[SUM];
    size_t at = HEAD, most = HEAD + (before.length + PAGE - 1) / PAGE * (HEAD + PAGE) + SUM;
    if (journal.length < LEAST || journal.length > most || memcmp(journal.bytes, "COLAJRNL", 8) != 0) return 0;
    size_t end = journal.length - SUM;
    sha256(journal.bytes, end, NULL, 0, sum);
    if (memcmp(sum, journal.bytes + end, SUM) != 0) return 0;
    for (uint64_t count = number_at(journal.bytes + 8, 8); count > 0; count--) {
        if (end - at < HEAD || number_at(journal.bytes + at + 8, 8) > end - at - HEAD) return 0;
        at += HEAD + number_at(journal.bytes + at + 8, 8);
    }
    bool has_header = end > HEAD && number_at(journal.bytes + HEAD, 8) == 0 && number_at(journal.bytes + HEAD + 8, 8) >= HEADER;
    return at == end && has_header ? end - HEAD : 0;
}

/* Whether a whole journal follows the file: each byte of its first page is that of the front, or what the pieces that rise from its
 * beginning make of it, but for the mark of use. */
static bool follows(size_t end) {
    uint8_t after[PAGE], sum[SUM];
    sum_of_page(written.bytes, sum);
    if (before.length < PAGE || memcmp(sum, written.bytes + PAGE, SUM) != 0) return false;
    memcpy(after, written.bytes, PAGE);
    for (size_t at = HEAD; at < HEAD + end;) {
        uint64_t place = number_at(journal.bytes + at, 8), length = number_at(journal.bytes + at + 8, 8);
        if (place >= PAGE) break;
        for (uint64_t byte = 0; byte < length && place + byte < PAGE; byte++) after[place + byte] = journal.bytes[at + HEAD + byte];
        at += HEAD + length;
    }
    for (int at = 0; at < PAGE; at++)
        if (at != STATE && before.bytes[at] != written.bytes[at] && before.bytes[at] != after[at]) return false;
    return true;
}

/* Whether the first piece has the header of a closed store as this one, and each lies in it, behind the one before. */
static bool is_of_store(size_t end) {
    uint64_t stored, from = 0;
    const uint8_t *header = journal.bytes + 2 * HEAD;
    if (before.length < HEADER || memcmp(header, before.bytes, STATE) != 0 || memcmp(header + 15, before.bytes + 15, 9) != 0) return false;
    if (cola_stored_size(header, HEADER, before.length, &stored) != COLA_OK) return false;
    for (size_t at = HEAD; at < HEAD + end;) {
        uint64_t place = number_at(journal.bytes + at, 8), length = number_at(journal.bytes + at + 8, 8);
        if (place < from || place > stored || length > stored - place) return false;
        from = place + length;
        at += HEAD + length;
    }
    return true;
}

/* The file behind an opening. */
static enum verdict make_behind(image *behind) {
    size_t end = pieces_of();
    copy_image(behind, &before);
    if (end == 0 || !follows(end)) return DROPPED;
    if (!is_of_store(end)) return OTHERS;
    for (size_t at = HEAD; at < HEAD + end; at += HEAD + number_at(journal.bytes + at + 8, 8))
        memcpy(behind->bytes + number_at(journal.bytes + at, 8), journal.bytes + at + HEAD, number_at(journal.bytes + at + 8, 8));
    return APPLIED;
}

/* What is done to the store, and what the same in memory answers. */

/* The map of a file that is known. */
static const plain *map_of(const image *file) {
    for (int at = 0; at < 2; at++)
        if (is_same(file, &it->files[at])) return &it->maps[at];
    return NULL;
}

/* What a store in these bytes of memory answers as it is opened; it is closed again: one that is known is as it was. */
static int32_t answers_in_memory(const image *file, image *closed) {
    cola store = COLA_INIT;
    uint64_t stored = 0;
    const plain *map = map_of(file);
    copy_image(closed, file);
    int32_t answer = cola_stored_size(closed->bytes, closed->length < HEADER ? closed->length : HEADER, closed->length, &stored);
    if (answer == COLA_OK) answer = cola_open(&store, closed->bytes, stored);
    if (answer != COLA_OK) return answer;
    HOLDS(map == NULL || has_map(&store, map));
    HOLDS(cola_close(&store) == COLA_OK && (map == NULL || is_same(closed, file)));
    return answer;
}

static int32_t checks_in_memory(const image *file, cola_verdict *verdict) {
    static image bytes;
    uint64_t stored = 0;
    copy_image(&bytes, file);
    int32_t answer = cola_stored_size(bytes.bytes, bytes.length < HEADER ? bytes.length : HEADER, bytes.length, &stored);
    return answer == COLA_OK ? cola_check(bytes.bytes, stored, verdict) : answer;
}

/* The file that growing makes. */
static int32_t grows_in_memory(const image *file, image *grown, uint64_t *rows) {
    static image bytes;
    uint64_t stored = 0, length = 0;
    copy_image(&bytes, file);
    int32_t answer = cola_stored_size(bytes.bytes, bytes.length < HEADER ? bytes.length : HEADER, bytes.length, &stored);
    if (answer == COLA_OK) answer = cola_size(100, 3, bytes.bytes[8], &length);
    if (answer != COLA_OK) return answer;
    memset(grown->bytes, 0, length);
    grown->length = length;
    return cola_grow(bytes.bytes, stored, grown->bytes, length, 100, 3, rows);
}

static bool is_same_verdict(const cola_verdict *one, const cola_verdict *other) {
    return one->flaw == other->flaw && one->count == other->count && one->level == other->level && one->cell == other->cell;
}

/* The file is opened, recovered, checked or grown, and closed again: the answer. *behind is the file behind its journal. */
static int32_t does(int way, const image *behind) {
    cola_file file = COLA_FILE_INIT;
    cola_verdict verdict = {0}, mine = {0};
    const plain *map = map_of(behind);
    uint64_t rows = 0;
    bool found, log;
    int32_t answer, known;
    if (way == RECOVERED) return cola_file_settle(store_path, &found, &log);
    if (way == CHECKED) {
        answer = cola_file_check(store_path, &verdict);
        known = checks_in_memory(behind, &mine);
        HOLDS((answer != COLA_OK && answer != COLA_BROKEN) || (known == answer && is_same_verdict(&verdict, &mine)));
        return answer;
    }
    if (way == GROWN) {
        answer = cola_file_grow(store_path, 100, 3, &rows);
        HOLDS(answer != COLA_OK || map == NULL || rows == map->count);
        return answer;
    }
    answer = cola_file_open_as(&file, store_path, flags_of(way));
    refused_at = 0; /* (what a close does on a disk that fails other tests say) */
    if (answer != COLA_OK) return HOLDS(file.bytes == NULL), answer;
    HOLDS(map == NULL || has_map(&file.store, map));
    HOLDS(cola_file_close(&file) == COLA_OK);
    return answer;
}

/* What it is to answer, where the file is that, and the file that it leaves. */
static int32_t known_answer(int way, const image *behind, image *left) {
    static image grown, closed;
    cola_verdict verdict = {0};
    uint64_t rows;
    copy_image(left, behind);
    if (way == RECOVERED) return COLA_OK;
    if (way == CHECKED) return checks_in_memory(behind, &verdict);
    int32_t answer = way == GROWN ? grows_in_memory(behind, &grown, &rows) : answers_in_memory(behind, &closed);
    if (answer == COLA_OK && way != READ) copy_image(left, way == GROWN ? &grown : &closed);
    return answer;
}

/* A test of the file: a known one is sound. */
static void look_at_file(const image *behind) {
    cola_verdict verdict = {0}, mine = {0};
    int32_t answer = cola_file_check(store_path, &verdict), known = checks_in_memory(behind, &mine);
    HOLDS(answer == known && is_same_verdict(&verdict, &mine));
    HOLDS(map_of(behind) == NULL || (answer == COLA_OK && verdict.count == map_of(behind)->count));
}

/* A disk that fails: what it answers then, and what is left, is made good by the next opening. *behind is the file behind both. */
static void on_a_failing_disk(int way, int at, image *behind, enum verdict verdict) {
    static image left;
    int32_t known = known_answer(way, behind, &left);
    refuse(at);
    int32_t answer = does(way, behind);
    refused_at = 0, is_torn = false;
    HOLDS(was_refused ? verdict != OTHERS : answer == (verdict == OTHERS ? COLA_UNFINISHED : known));
    HOLDS(answer == known || answer == COLA_SYSTEM || answer == COLA_UNFINISHED);
    if (answer == COLA_OK) copy_image(behind, &left);
}

/* Whether the journal is gone, or left by one that reads alone: as it is not whole, or as a recovery that failed has emptied it. */
static bool is_left(int way, enum verdict verdict, bool failed) {
    struct stat about;
    bool is_there = stat(journal_path, &about) == 0, reads = way == READ || way == CHECKED;
    if (reads && verdict == DROPPED) return has_file(journal_path, &written);
    return !is_there || (reads && failed && about.st_size == 0);
}

int LLVMFuzzerTestOneInput(const uint8_t *bytes, size_t length) {
    static image behind, left;
    input in = {bytes, length, 0};
    begin_once();
    int way = next(&in) % WAYS, fails_at = next(&in) % 32;
    unsigned form = next(&in);
    make_file(&in);
    make_journal(&in, form);
    write_file(store_path, &before);
    write_file(journal_path, &written);
    unlink(log_path);
    int held = descriptors();
    enum verdict verdict = make_behind(&behind);
    if (fails_at > 0) on_a_failing_disk(way, fails_at, &behind, verdict);
    errno = 0;
    int32_t known = known_answer(way, &behind, &left), answer = does(way, &behind);
    HOLDS(descriptors() == held);
    reaches((unsigned)way * 3 + verdict, (unsigned)answer, (unsigned)fails_at);
    if (verdict == OTHERS) {
        HOLDS(answer == COLA_UNFINISHED && has_file(store_path, &before) && has_file(journal_path, &written));
    } else {
        HOLDS(answer == known && !is_there(log_path) && is_left(way, verdict, fails_at > 0));
        HOLDS(has_file(store_path, &left));
        if (answer == COLA_OK || answer == COLA_BROKEN) look_at_file(&left);
    }
    look_at_folder();
    return 0;
}
