/* What a machine that stops may leave of a file:
 *
 *     stops BEFORE LOG BROKEN    (the file before, the calls that changed it as calls.c notes them, and where to put a broken one)
 *
 * Behind each call, what was not synced yet is in the file or not, in any order: each sector of the first page for itself, and each
 * further page. Of up to ten such pieces every choice is made, of more some that are drawn, and all with one piece alone there, or
 * missing. A file whose header says that it is closed has to be whole: as the program left it behind one of its calls, or found
 * it. Others are refused.
 * It prints how many files it made, and of these the refused, the whole and the broken. The status is 0 where none is broken. */
#include <inttypes.h>
#include <stdio.h>
#include <stdlib.h>
#include <string.h>

enum { SECTOR = 512, PAGE = 4096, MOST = 1 << 20, DRAWN = 100 };

struct piece {
    char letter;           /* W, or T for a cut */
    uint64_t place, count; /* of a cut the size */
    unsigned char *bytes;
};

struct file {
    unsigned char bytes[MOST];
    uint64_t size;
};

static struct piece pieces[4096];
static size_t waits; /* pieces that are not synced */
static struct file synced, now, made, wholes[64];
static size_t whole_files;
static uint64_t full; /* the size of a whole file */
static unsigned long files, refused, whole, broken;
static const char *broken_name;

static void fail(const char *why) {
    fprintf(stderr, "stops: %s\n", why);
    exit(2);
}

static void apply(struct file *to, const struct piece *it) {
    if (it->letter == 'T') {
        if (it->place < to->size) memset(to->bytes + it->place, 0, to->size - it->place);
        to->size = it->place;
        return;
    }
    memcpy(to->bytes + it->place, it->bytes, it->count);
    if (it->place + it->count > to->size) to->size = it->place + it->count;
}

static int says_closed(const unsigned char *header) {
    return memcmp(header, "COLASTOR", 8) == 0 && header[14] == 0;
}

static int is_same(const struct file *one, const struct file *other) {
    return one->size == other->size && memcmp(one->bytes, other->bytes, one->size) == 0;
}

/* Keeps the file as the program sees it, where it says that it is closed. */
static void keep(void) {
    if (now.size < full || !says_closed(now.bytes)) return;
    if (whole_files > 0 && is_same(&wholes[whole_files - 1], &now)) return;
    if (whole_files == sizeof wholes / sizeof *wholes) fail("too many closed files");
    wholes[whole_files++] = now;
}

/* The header that the chosen pieces leave. */
static int leaves_closed(const unsigned char *chosen) {
    unsigned char header[SECTOR];
    memcpy(header, synced.bytes, SECTOR);
    for (size_t at = 0; at < waits; at++) {
        if (!chosen[at]) continue;
        if (pieces[at].letter == 'T' && pieces[at].place == 0) memset(header, 0, SECTOR);
        if (pieces[at].letter == 'W' && pieces[at].place < SECTOR) memcpy(header + pieces[at].place, pieces[at].bytes, pieces[at].count);
    }
    return says_closed(header);
}

static void judge(const unsigned char *chosen) {
    files++;
    if (!leaves_closed(chosen)) {
        refused++;
        return;
    }
    made = synced;
    for (size_t at = 0; at < waits; at++)
        if (chosen[at]) apply(&made, &pieces[at]);
    if (made.size < full) {
        refused++;
        return;
    }
    for (size_t at = whole_files; at-- > 0;)
        if (is_same(&wholes[at], &made)) {
            whole++;
            return;
        }
    if (broken++ == 0) {
        FILE *out = fopen(broken_name, "wb");
        if (!out || fwrite(made.bytes, 1, made.size, out) != made.size || fclose(out) != 0) fail("the broken file cannot be written");
    }
}

static int draw(void) {
    static uint64_t state = 7;
    state = state * 6364136223846793005u + 1442695040888963407u;
    return (int)(state >> 63);
}

/* The files that the pieces which wait may leave. */
static void stop(void) {
    static unsigned char chosen[4096];
    if (waits <= 10) {
        for (unsigned choice = 0; choice < 1u << waits; choice++) {
            for (size_t at = 0; at < waits; at++) chosen[at] = choice >> at & 1;
            judge(chosen);
        }
        return;
    }
    for (int drawn = 0; drawn < DRAWN; drawn++) {
        for (size_t at = 0; at < waits; at++) chosen[at] = (unsigned char)draw();
        judge(chosen);
    }
    for (unsigned char others = 0; others < 2; others++) {
        memset(chosen, others, waits);
        judge(chosen);
        for (size_t at = 0; at < waits; at++) {
            chosen[at] = !others;
            judge(chosen);
            chosen[at] = others;
        }
    }
}

static void add(char letter, uint64_t place, uint64_t count, unsigned char *bytes) {
    if (waits == sizeof pieces / sizeof *pieces) fail("too many writes between two syncs");
    pieces[waits] = (struct piece){letter, place, count, bytes};
    apply(&now, &pieces[waits++]);
}

static void write_in_pieces(uint64_t place, uint64_t count, unsigned char *bytes) {
    while (count > 0) {
        uint64_t unit = place < PAGE ? SECTOR : PAGE, part = unit - place % unit;
        if (part > count) part = count;
        add('W', place, part, bytes);
        place += part;
        bytes += part;
        count -= part;
    }
}

int main(int words, char **word) {
    FILE *in;
    char letter;
    uint64_t place, count;
    int found, pass;
    if (words != 4) fail("three words are wanted");
    broken_name = word[3];
    /* The first pass finds the full size, the second makes the files. */
    for (pass = 0; pass < 2; pass++) {
        memset(&synced, 0, sizeof synced);
        if ((in = fopen(word[1], "rb"))) {
            synced.size = fread(synced.bytes, 1, MOST, in);
            fclose(in);
        }
        if (synced.size > full) full = synced.size;
        now = synced;
        if (pass == 1) keep();
        if (!(in = fopen(word[2], "rb"))) fail("no log");
        while ((found = fscanf(in, " %c %" SCNu64 " %" SCNu64, &letter, &place, &count)) == 3) {
            unsigned char *bytes = NULL;
            if (place > MOST || count > MOST - place) fail("a file that is too large");
            if (count > 0 && !(bytes = malloc(count))) fail("no memory");
            for (uint64_t at = 0; at < count; at++)
                if (fscanf(in, "%2hhx", &bytes[at]) != 1) fail("a log that is cut");
            if (letter != 'S' && place + count > full) full = place + count;
            if (pass == 0) continue;
            if (letter == 'T') add('T', place, 0, NULL);
            if (letter == 'W') write_in_pieces(place, count, bytes);
            if (letter == 'S') {
                synced = now;
                waits = 0;
            }
            keep();
            stop();
        }
        if (found != EOF) fail("a log that is cut");
        fclose(in);
    }
    printf("%lu files: %lu refused, %lu whole, %lu broken\n", files, refused, whole, broken);
    return broken > 0 || waits > 0 || whole == 0;
}
