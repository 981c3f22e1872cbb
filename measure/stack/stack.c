/* The stack that each call through the C interface takes, on a table of 64 pairs. The call runs on a stack of its own that was filled with one octet,
 * and what it changed is counted; then it runs again on a stack as large as its limit, below which lies a page that nobody may touch. Table, message,
 * reply and answer lie elsewhere. The octets at the top that makecontext takes for itself are within the limit and not in the figure. Ends with 1
 * where a call takes its limit or more, or does not do its work.
 *
 *   stack CHAIN RECORDS QUESTIONS: files with the generator's worst messages, in hexadecimal */
#define _GNU_SOURCE
#include <stdio.h>
#include <stdlib.h>
#include <string.h>
#include <sys/mman.h>
#include <ucontext.h>
#include <unistd.h>

#include "luffcringle.h"

enum { FILL = 0xa5, STACK = 1 << 20, ORDINARY = 4096, MOST = 20480, MESSAGE = 65535, NOW = 1000 };
enum { DIFFIE_HELLMAN = 4097, BY_SERVER = 4098, BY_RESOLVER = 4099, ADOPTION = 4100 };
enum { COUNT = 1, FLOOR = 2, MAP = 3, ROWS = 67, ROW_WORDS = 16, NEXT_SERIAL = 4, KEYS = 5, ADOPTED = 6 };

static uint8_t stack[STACK] __attribute__((aligned(64))), message[MESSAGE], reply[MESSAGE], text[LUFFCRINGLE_LISTING_OCTETS];
static struct luffcringle_table almost, full, renewed, table;
static uint64_t answer[LUFFCRINGLE_ANSWER_WORDS], items[LUFFCRINGLE_ITEMS_WORDS], answers[LUFFCRINGLE_ANSWERS_WORDS];
static uint64_t named[2 * 64], told[LUFFCRINGLE_MENDING_WORDS], length;
static size_t size, base;
static int failed;
static ucontext_t here, there;

/* The first pair's suffix, which is the generator's, and one that is not enrolled. */
static const uint8_t suffix[] = {1, 'a', 0}, other[] = {3, 'a', 'a', 'a', 0}, offer[] = {0xde, 0xad, 0xbe, 0xef};
/* The server's own KEY, for renewals by Diffie-Hellman. */
static const uint8_t record[] = {1, 's', 0, 0, 25, 0, 1, 0, 0, 0, 0, 0, 4, 2, 0, 3, 2};

/* ---- The calls, each on the table as it is then ---- */

static void nothing(void) {}
static void make_new(void) { luffcringle_new_table(table.words, table.suffixes, NOW, answer); }
static void enrol(void) { luffcringle_enrol(table.words, table.suffixes, NOW, other, sizeof other, 600, 400, 256, answer); }
static void issue(void) { luffcringle_issue(table.words, table.suffixes, NOW, 1, 512, answer); }
static void close_first(void) { luffcringle_close(table.words, table.suffixes, NOW, 1, answer); }
static void revoke_early(void) { luffcringle_revoke(table.words, table.suffixes, NOW, 1, answer); }
static void look(void) { luffcringle_look(table.words, table.suffixes, message, size, answer); }
static void judge(void) {
    luffcringle_message(table.words, table.suffixes, NOW, true, message, size, offer, sizeof offer, true, record, sizeof record, reply, sizeof reply,
                        answer);
}

/* 64 items with the same message; the last one's answer is looked at. */
static void queue(void) {
    luffcringle_batch(table.words, table.suffixes, LUFFCRINGLE_MOST_ITEMS, items, message, size, answers, reply, sizeof reply);
    memcpy(answer, answers + LUFFCRINGLE_ANSWERS_WORDS - LUFFCRINGLE_ANSWER_WORDS, sizeof answer);
}

/* The listing of a full table; mending is given one pair more, with the first one's suffix. */
static void list(void) { answer[LUFFCRINGLE_NUMBER] = luffcringle_list(table.words, table.suffixes, text, sizeof text, &length); }
static void load(void) { answer[LUFFCRINGLE_NUMBER] = luffcringle_load(table.words, table.suffixes, text, length, told); }
static void mend(void) { answer[LUFFCRINGLE_NUMBER] = luffcringle_mend(table.words, table.suffixes, text, length, named, sizeof named / 8, told); }

/* ---- What a call did, beside being done ---- */

static const uint64_t *first_row(void) { return table.words + ROWS + ROW_WORDS * table.words[MAP]; }

static bool is_empty(void) { return table.words[COUNT] == 0; }
static bool is_listed(void) { return length > 64 * 60 && text[length - 1] == '\n'; }
static bool is_full(void) { return table.words[COUNT] == 64; }
static bool is_mended(void) { return is_full() && told[LUFFCRINGLE_MENDING_DROPPED] == 1 && named[1] == LUFFCRINGLE_TWIN; }
static bool is_64th(void) { return table.words[COUNT] == 64 && answer[LUFFCRINGLE_PAIR] == 64; }
static bool is_second(void) { return answer[LUFFCRINGLE_PAIR] == 1 && answer[LUFFCRINGLE_SERIAL] == 2; }
static bool is_signed(void) { return answer[LUFFCRINGLE_PAIR] == 1 && answer[LUFFCRINGLE_SERIAL] == 1 && answer[LUFFCRINGLE_LENGTH] == 0; }
static bool is_replied(void) { return answer[LUFFCRINGLE_PAIR] == 1 && answer[LUFFCRINGLE_LENGTH] > 0 && answer[LUFFCRINGLE_ERROR] == 0; }
static bool is_granted(void) { return is_replied() && first_row()[KEYS] == 2 && first_row()[NEXT_SERIAL] == 3; }
static bool is_adopted(void) { return is_replied() && first_row()[KEYS] == 1 && first_row()[ADOPTED] == 2; }
/* A name of 255 octets was written out. */
static bool is_granted_long(void) { return is_granted() && answer[LUFFCRINGLE_LENGTH] > 255; }
static bool is_replied_long(void) { return is_replied() && answer[LUFFCRINGLE_LENGTH] > 255; }

/* ---- Measuring ---- */

static void run(void (*call)(void), uint8_t *bottom, size_t octets) {
    getcontext(&there);
    there.uc_stack.ss_sp = bottom;
    there.uc_stack.ss_size = octets;
    there.uc_link = &here;
    makecontext(&there, call, 0);
    swapcontext(&here, &there);
}

static size_t taken(void (*call)(void)) {
    memset(stack, FILL, STACK);
    run(call, stack, STACK);
    size_t untouched = 0;
    while (untouched < STACK && stack[untouched] == FILL) untouched++;
    return STACK - untouched;
}

/* On so many octets, below which nobody may write. */
static void run_guarded(void (*call)(void), size_t octets) {
    size_t page = (size_t)sysconf(_SC_PAGESIZE);
    uint8_t *all = mmap(NULL, page + octets, PROT_READ | PROT_WRITE, MAP_PRIVATE | MAP_ANONYMOUS, -1, 0);
    if (all == MAP_FAILED || mprotect(all, page, PROT_NONE) != 0) perror("mmap"), exit(2);
    run(call, all + page, octets);
    munmap(all, page + octets);
}

static bool is_63(void) { return table.words[COUNT] == 63 && table.words[FLOOR] == 2; }
static bool is_done(bool (*expected)(void)) { return answer[LUFFCRINGLE_NUMBER] == LUFFCRINGLE_DONE && expected(); }

static void show(const char *what, const struct luffcringle_table *from, void (*call)(void), bool (*expected)(void), size_t limit) {
    table = *from;
    size_t all = taken(call);
    bool done = is_done(expected), fits = all < limit;
    printf("%-72s %6zu octets%s%s\n", what, all - base, fits ? "" : ": too many", done ? "" : ": its work is not done");
    fflush(stdout);
    if (done && fits) {
        table = *from;
        run_guarded(call, limit);
        done = is_done(expected);
    }
    if (!done || !fits) failed = 1;
}

/* ---- Messages ---- */

static void put(int octet) { message[size++] = (uint8_t)octet; }
static void put16(size_t n) { put((int)(n / 256)), put((int)(n % 256)); }
static void put_all(const void *octets, size_t length) { memcpy(message + size, octets, length), size += length; }
static void head(size_t flags, size_t questions, size_t answers, size_t authority, size_t additional) {
    size = 0, put16(4660), put16(flags), put16(questions), put16(answers), put16(authority), put16(additional);
}
static void front(size_t type, size_t class, size_t length) { put16(type), put16(class), put16(0), put16(0), put16(length); }
static void algorithm(void) { put_all("\13hmac-sha256", 13); }
static void key_name(char serial) { put(1), put(serial), put_all(suffix, sizeof suffix); }
static void point(size_t place) { put16(0xc000 + place); }

/* TSIG of the first pair's first key. */
static void sign(void) {
    key_name('1'), front(250, 255, 61), algorithm(), put16(0), put16(0), put16(NOW), put16(300), put16(32);
    for (int i = 0; i < 32; i++) put(170);
    put16(4660), put16(0), put16(0);
}

/* What follows the owner name of a TKEY: its other data is the name and the algorithm of the first key. */
static void tkey(size_t mode) {
    size_t old = 5 + 13;
    front(249, 255, 29 + old), algorithm(), put16(0), put16(1000), put16(0), put16(2000), put16(mode), put16(0), put16(0), put16(old);
    key_name('1'), algorithm();
}

/* What follows the owner name of a KEY. */
static void key(void) { front(25, 1, 6), put_all("\2\0\3\2\11\11", 6); }

/* One address for a zone. */
static void update(void) {
    head(0x2800, 1, 0, 1, 1), put_all("\1z\7example", 11), put16(6), put16(1);
    put_all("\7counter", 8), point(12), front(1, 1, 4), put_all("\300\0\2\1", 4), sign();
}

static void renewal(size_t mode) {
    head(0, 1, 0, 0, 3), put_all("\1q", 3), put16(249), put16(255);
    put_all("\3new", 5), tkey(mode), put_all("\6client", 8), key(), sign();
}

static void adoption(void) {
    head(0, 1, 0, 0, 2), put_all("\1q", 3), put16(249), put16(255);
    key_name('2'), tkey(ADOPTION), sign();
}

/* A TKEY of a mode and a KEY, whose owner names are the deepest: 127 runs of a label and a pointer, which lie in a record of other octets. */
static void deepest(size_t mode) {
    head(0, 1, 1, 0, 3), put_all("\1q", 3), put16(249), put16(255);
    put(0), front(16, 1, 3 + 126 * 4);
    size_t before = size;
    put(1), put('a'), put(0);
    for (int i = 0; i < 126; i++) {
        size_t run_at = size;
        put(1), put('a'), point(before);
        before = run_at;
    }
    point(before), tkey(mode), point(before), key(), sign();
}

static int digit(int c) { return c <= '9' ? c - '0' : c - 'a' + 10; }

static bool generated(const char *path) {
    FILE *file = fopen(path, "r");
    if (file == NULL) return perror(path), false;
    int high, low;
    for (size = 0; size < MESSAGE && (high = getc(file)) > ' ' && (low = getc(file)) > ' ';) put(16 * digit(high) + digit(low));
    fclose(file);
    return size > 0;
}

static void show_generated(const char *what, const char *path) {
    if (generated(path)) show(what, &full, judge, is_signed, MOST);
    else failed = 1;
}

/* A table of so many pairs. */
static void enrol_all(uint64_t count) {
    luffcringle_new_table(table.words, table.suffixes, NOW, answer);
    luffcringle_enrol(table.words, table.suffixes, NOW, suffix, sizeof suffix, 600, 400, 256, answer);
    for (uint64_t i = 1; i < count; i++) {
        const uint8_t more[] = {2, (uint8_t)('a' + i / 8), (uint8_t)('a' + i % 8), 0};
        luffcringle_enrol(table.words, table.suffixes, NOW, more, sizeof more, 600, 400, 256, answer);
    }
}

static void fill_queue(void) {
    for (size_t i = 0; i < LUFFCRINGLE_MOST_ITEMS; i++) {
        uint64_t *item = items + LUFFCRINGLE_ITEM_WORDS * i;
        item[LUFFCRINGLE_ITEM_TIME] = NOW, item[LUFFCRINGLE_ITEM_GOOD] = 1, item[LUFFCRINGLE_ITEM_MESSAGE_SIZE] = size;
    }
}

int main(int argc, char **argv) {
    if (argc != 4) return fputs("stack CHAIN RECORDS QUESTIONS\n", stderr), 2;
    enrol_all(63), almost = table;
    enrol_all(64), full = table;
    renewal(BY_SERVER), judge(), renewed = table;
    base = taken(nothing);
    printf("%-72s %6zu octets\n", "(makecontext)", base);
    show("new table", &full, make_new, is_empty, MOST);
    show("enrol", &almost, enrol, is_64th, MOST);
    show("close", &full, close_first, is_63, MOST);
    show("issue", &full, issue, is_second, MOST);
    show("revoke", &full, revoke_early, is_signed, MOST);
    show("list", &full, list, is_listed, MOST);
    show("load", &almost, load, is_full, MOST);
    length += (uint64_t)sprintf((char *)text + length, "pair\t016100\t1\t2\t1\n");
    show("mend", &almost, mend, is_mended, MOST);
    update();
    show("look", &full, look, is_signed, MOST);
    show("message: an ordinary update", &full, judge, is_signed, ORDINARY);
    fill_queue(), show("batch: 64 of them", &full, queue, is_signed, MOST);
    renewal(DIFFIE_HELLMAN), show("message: a renewal by Diffie-Hellman that is granted", &full, judge, is_granted, MOST);
    renewal(BY_SERVER), show("message: a renewal by server assignment that is granted", &full, judge, is_granted, MOST);
    renewal(BY_RESOLVER), show("message: a renewal by resolver assignment that is granted", &full, judge, is_granted, MOST);
    adoption(), show("message: an adoption", &renewed, judge, is_adopted, MOST);
    deepest(DIFFIE_HELLMAN), show("message: a renewal that is granted, the deepest names of TKEY and KEY", &full, judge, is_granted_long, MOST);
    deepest(ADOPTION), show("message: an adoption of the deepest name, which is no key's", &full, judge, is_replied_long, MOST);
    show_generated("message: a name at the end of the longest chain of pointers", argv[1]);
    show_generated("message: full of records with such names", argv[2]);
    show_generated("message: full of questions with such names", argv[3]);
    if (!failed) printf("an ordinary message below %d octets, every call below %d, makecontext's included\n", ORDINARY, MOST);
    return failed;
}
