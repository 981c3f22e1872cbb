/* Calls every function of luffcringle.h on what chance makes: messages of real clients and of both halves' own exchange, damaged; tables, listings and
 * states, damaged; any lengths and numbers. Each thing that is lent lies between two pages that nobody may touch, flush with one of them, so that an octet
 * read or written outside it ends the run; and after each call it is tested that
 *   - the number is one of those that the header lists for the call,
 *   - what is const is as it was, and so is what a refusal may not change,
 *   - a listing that loads is the loaded table's, and mending drops lines of just those that do not load.
 * At the end every number of every call, and every reason for a dropped line, must have been seen.
 *
 *   gcc -std=gnu11 -g -fsanitize=address,undefined -Iinclude bindings/c/fuzz.c target/staticlib/libluffcringle.a -o fuzz && ./fuzz SEED CALLS FILE..
 *
 * The files are hexadecimal, a message to a line; lines that begin with # are left out. */
#include <inttypes.h>
#include <stdarg.h>
#include <stdio.h>
#include <stdlib.h>
#include <string.h>
#include <sys/mman.h>

#include "luffcringle.h"

enum { PAGE = 4096, MOST = 70000, MOST_LENT = 9, MOST_SEEDS = 400, MOST_NUMBERS = 22 };

/* ---- Chance ---- */

static uint64_t state, calls_made;

static uint64_t chance(void) {
    uint64_t mixed = state += 0x9e3779b97f4a7c15;
    mixed = (mixed ^ mixed >> 30) * 0xbf58476d1ce4e5b9;
    mixed = (mixed ^ mixed >> 27) * 0x94d049bb133111eb;
    return mixed ^ mixed >> 31;
}

static size_t below(size_t limit) { return chance() % limit; }

static bool one_in(size_t count) { return below(count) == 0; }

/* ---- What is lent ---- */

struct lent {
    uint8_t *pages; /* of which the first and the last are guards */
    uint8_t *at;
    size_t size;
    uint8_t before[MOST];
};
static struct lent lent[MOST_LENT];
static size_t lent_count;

static void make_pages(void) {
    size_t size = 2 * PAGE + (MOST + PAGE - 1) / PAGE * PAGE;
    for (int i = 0; i < MOST_LENT; i++) {
        lent[i].pages = mmap(NULL, size, PROT_READ | PROT_WRITE, MAP_PRIVATE | MAP_ANONYMOUS, -1, 0);
        if (lent[i].pages == MAP_FAILED || mprotect(lent[i].pages, PAGE, PROT_NONE) || mprotect(lent[i].pages + size - PAGE, PAGE, PROT_NONE))
            abort();
    }
}

/* A place for so many octets, beside one of the guards, with this in it; chance where there is none to copy. */
static void *lend(const void *from, size_t size) {
    struct lent *l = &lent[lent_count++];
    size_t room = (MOST + PAGE - 1) / PAGE * PAGE;
    l->size = size;
    l->at = one_in(2) ? l->pages + PAGE : l->pages + PAGE + room - size;
    if (from)
        memcpy(l->at, from, size);
    else
        memset(l->at, (int)chance(), size);
    memcpy(l->before, l->at, size);
    return l->at;
}

static bool kept_from(const void *at, size_t skipped) {
    for (size_t i = 0; i < lent_count; i++)
        if (lent[i].at == at)
            return lent[i].size <= skipped || memcmp(lent[i].at + skipped, lent[i].before + skipped, lent[i].size - skipped) == 0;
    abort();
}

static bool kept(const void *at) { return kept_from(at, 0); }

/* ---- What is seen ---- */

enum call {
    NEW, ENROL, CLOSE, ISSUE, REVOKE, LOOK, MESSAGE, BATCH, LIST, LOAD, MEND, DROPPED, COMPARE, TEST, PAIR_OF_SUFFIX, PAIR_OF_KEY, KEY_NAME, PAIR, ASKS,
    DIGEST_REQUEST, DIGEST_REPLY, DIGEST_LATER, FINISH, READ_TSIG, REMOVE, RECEIVED_REQUEST, RECEIVED_REPLY, RECEIVED_LATER,
    HOLD, RENEWAL, ADOPTION, DELETION, REPLY, CALLS
};
static const struct {
    const char *name;
    const char *numbers; /* as the header lists them, DONE first; of a line that mending drops, its reasons */
} listed[CALLS] = {
    [NEW] = {"new_table", "0 2"},
    [ENROL] = {"enrol", "0 1 2 3 11 12 13 14 15"},
    [CLOSE] = {"close", "0 1 2 3 9"},
    [ISSUE] = {"issue", "0 1 2 3 9 11 13"},
    [REVOKE] = {"revoke", "0 1 2 3 9 10"},
    [LOOK] = {"look", "0 1 4 6 7"},
    [MESSAGE] = {"message", "0 1 2 3 4 5 6 7 8 19"},
    [BATCH] = {"batch", "0 1 17"},
    [LIST] = {"list", "0 1 8"},
    [LOAD] = {"load", "0 1 18"},
    [MEND] = {"mend", "0 1 8 18"},
    [DROPPED] = {"mend, dropped", "1 14 15 18"},
    [COMPARE] = {"compare", "0 1 4 6 18 21"},
    [TEST] = {"test", "0 1"},
    [PAIR_OF_SUFFIX] = {"pair_of_suffix", "0 1 9"},
    [PAIR_OF_KEY] = {"pair_of_key", "0 1 9 12"},
    [KEY_NAME] = {"key_name", "0 1 8 9 10"},
    [PAIR] = {"pair", "0 1 9"},
    [ASKS] = {"asks", "0 4 6 7"},
    [DIGEST_REQUEST] = {"digest_request", "0 2 4 6 8 12"},
    [DIGEST_REPLY] = {"digest_reply", "0 2 4 6 8 12 16"},
    [DIGEST_LATER] = {"digest_later", "0 2 4 6 8 16"},
    [FINISH] = {"finish", "0 2 4 6 8 12 16"},
    [READ_TSIG] = {"read_tsig", "0 4 6"},
    [REMOVE] = {"remove", "0 4 6 8"},
    [RECEIVED_REQUEST] = {"received_request", "0 4 6 8"},
    [RECEIVED_REPLY] = {"received_reply", "0 4 6 8 16"},
    [RECEIVED_LATER] = {"received_later", "0 4 6 8 16"},
    [HOLD] = {"resolver_hold", "0 6"},
    [RENEWAL] = {"resolver_renewal", "0 5 6"},
    [ADOPTION] = {"resolver_adoption", "0 5 6"},
    [DELETION] = {"resolver_deletion", "0 5 6"},
    [REPLY] = {"resolver_reply", "0 1 2 3 4"},
};
static uint64_t seen[CALLS][MOST_NUMBERS];

static void fail(enum call call, const char *what) {
    fprintf(stderr, "luffcringle_%s, call %" PRIu64 ": %s\n", listed[call].name, calls_made, what);
    exit(1);
}

static bool is_listed(enum call call, uint64_t number) {
    for (const char *at = listed[call].numbers; *at; at++) {
        if (*at < '0' || *at > '9')
            continue;
        char *end;
        if (strtoull(at, &end, 10) == number)
            return true;
        at = end - 1;
    }
    return false;
}

static void check(enum call call, uint64_t number) {
    calls_made++;
    if (!is_listed(call, number))
        fail(call, "a number that is not listed");
    seen[call][number]++;
}

static void must(enum call call, bool holds, const char *what) {
    if (!holds)
        fail(call, what);
}

static bool zeros(const uint64_t *words, size_t count) {
    for (size_t i = 0; i < count; i++)
        if (words[i])
            return false;
    return true;
}

/* ---- Messages ---- */

static struct {
    uint8_t octets[MOST];
    size_t size;
} seeds[MOST_SEEDS], made;
static uint8_t spare[MOST];
static size_t seed_count;

static void read_seeds(const char *path) {
    static char line[2 * MOST + 2];
    FILE *file = fopen(path, "r");
    if (!file) {
        perror(path);
        exit(1);
    }
    while (seed_count < MOST_SEEDS && fgets(line, sizeof line, file)) {
        size_t size = 0;
        unsigned octet;
        if (line[0] == '#')
            continue;
        while (sscanf(line + 2 * size, "%2x", &octet) == 1)
            seeds[seed_count].octets[size++] = (uint8_t)octet;
        seeds[seed_count].size = size;
        seed_count += size > 0;
    }
    fclose(file);
}

/* One that was read, or the last that was made, most often damaged. */
static void pick_message(void) {
    static uint8_t octets[MOST];
    size_t which = below(seed_count), size;
    if (!one_in(3)) {
        size = seeds[which].size;
        memcpy(octets, seeds[which].octets, size);
    } else {
        size = made.size;
        memcpy(octets, made.octets, size);
    }
    for (size_t at = one_in(6) ? 0 : size; at + 1 < size; at++)
        if (octets[at] == 0x10 && octets[at + 1] == 2) /* mode 4098: another way to renew */
            octets[at + 1] = (uint8_t)(1 + below(4));
    for (size_t count = below(4); size && count > 0 && !one_in(3); count--) {
        size_t at = one_in(3) ? below(size < 12 ? size : 12) : below(size);
        switch (below(5)) {
        case 0: octets[at] ^= (uint8_t)(1 << below(8)); break;
        case 1: octets[at] = (uint8_t)chance(); break;
        case 2: octets[at] = 0xc0; break;
        case 3: size = at; break;
        default: octets[at] = 0; break;
        }
    }
    if (one_in(40))
        size = one_in(2) ? below(12) : 65535 + below(3);
    memcpy(made.octets, octets, size);
    made.size = size;
}

/* ---- The table ---- */

static struct luffcringle_table table;
static uint64_t now;

static const uint8_t suffix_a[] = "\1a\7example";

static size_t pick_suffix(uint8_t *suffix) {
    memcpy(suffix, suffix_a, sizeof suffix_a);
    if (!one_in(4))
        suffix[1] = (uint8_t)chance();
    if (one_in(8))
        suffix[below(sizeof suffix_a)] = (uint8_t)chance();
    return one_in(8) ? below(sizeof suffix_a) : sizeof suffix_a;
}

static uint64_t pick_time(void) {
    now += below(3);
    return one_in(20) ? chance() : one_in(20) ? now - 9 : now;
}

static uint64_t pick_algorithm(void) { return one_in(8) ? chance() : 256 + 128 * below(3); }

static bool is_damaged;

/* The table's words, and now and then others. What a call makes of those is not kept. */
static uint64_t *lend_words(void) {
    uint64_t *words = lend(&table.words, sizeof table.words);
    is_damaged = one_in(30);
    if (is_damaged)
        words[below(LUFFCRINGLE_TABLE_WORDS)] = one_in(2) ? chance() : below(130);
    memcpy(lent[lent_count - 1].before, words, sizeof table.words);
    return words;
}

static void keep(const uint64_t *words) {
    if (!is_damaged)
        memcpy(&table.words, words, sizeof table.words);
}

static void new_table(void) {
    uint64_t *words = lend(&table.words, sizeof table.words), *answer = lend(NULL, 8 * LUFFCRINGLE_ANSWER_WORDS);
    uint8_t *suffixes = lend(&table.suffixes, sizeof table.suffixes);
    uint64_t number = luffcringle_new_table(words, suffixes, one_in(10) ? chance() : now, answer);
    check(NEW, number);
    must(NEW, kept(suffixes) && (!number || kept(words)) && zeros(answer + 1, 6), "what is kept");
    memcpy(&table.words, words, sizeof table.words);
}

static void enrol(void) {
    uint8_t name[sizeof suffix_a];
    size_t size = pick_suffix(name);
    uint64_t *words = lend_words(), *answer = lend(NULL, 8 * LUFFCRINGLE_ANSWER_WORDS);
    uint8_t *suffixes = lend(&table.suffixes, sizeof table.suffixes), *suffix = lend(name, size);
    uint64_t fresh = one_in(8) ? chance() : 1 + below(400), number;
    number = luffcringle_enrol(words, suffixes, pick_time(), suffix, size, one_in(8) ? chance() : 401 + below(400), fresh, pick_algorithm(), answer);
    check(ENROL, number);
    must(ENROL, kept(suffix) && (!number || (kept_from(words, 8) && kept(suffixes))), "what is kept");
    keep(words);
    if (!is_damaged)
        memcpy(&table.suffixes, suffixes, sizeof table.suffixes);
}

static void close_pair(void) {
    uint64_t *words = lend_words(), *answer = lend(NULL, 8 * LUFFCRINGLE_ANSWER_WORDS);
    uint8_t *suffixes = lend(&table.suffixes, sizeof table.suffixes);
    uint64_t number = luffcringle_close(words, suffixes, pick_time(), one_in(8) ? chance() : below(66), answer);
    check(CLOSE, number);
    must(CLOSE, zeros(answer + 1, 6) && (!number || (kept_from(words, 8) && kept(suffixes))), "what is kept");
    keep(words);
    if (!is_damaged)
        memcpy(&table.suffixes, suffixes, sizeof table.suffixes);
}

static void issue_or_revoke(bool issue) {
    uint64_t *words = lend_words(), *answer = lend(NULL, 8 * LUFFCRINGLE_ANSWER_WORDS);
    uint8_t *suffixes = lend(&table.suffixes, sizeof table.suffixes);
    uint64_t pair = one_in(8) ? chance() : below(5), number;
    number = issue ? luffcringle_issue(words, suffixes, pick_time(), pair, pick_algorithm(), answer)
                   : luffcringle_revoke(words, suffixes, one_in(8) ? now += 900 : pick_time(), pair, answer);
    check(issue ? ISSUE : REVOKE, number);
    must(ISSUE, kept(suffixes) && (!number || (kept_from(words, 8) && zeros(answer + 1, 6))), "what is kept");
    keep(words);
}

static void look(void) {
    pick_message();
    uint64_t *words = lend_words(), *answer = lend(NULL, 8 * LUFFCRINGLE_ANSWER_WORDS);
    uint8_t *suffixes = lend(&table.suffixes, sizeof table.suffixes), *message = lend(made.octets, made.size);
    check(LOOK, luffcringle_look(words, suffixes, message, made.size, answer));
    must(LOOK, kept(words) && kept(suffixes) && kept(message), "what is kept");
}

/* The time that the message is signed at, if it is one. */
static uint64_t time_of(const uint8_t *message, size_t size) {
    uint64_t fields[LUFFCRINGLE_TSIG_WORDS];
    uint8_t name[LUFFCRINGLE_NAME_OCTETS], algorithm[LUFFCRINGLE_NAME_OCTETS];
    if (luffcringle_read_tsig(message, size, name, algorithm, fields) || one_in(10) || fields[LUFFCRINGLE_TSIG_SIGNED] >= (uint64_t)1 << 40)
        return pick_time();
    return now = fields[LUFFCRINGLE_TSIG_SIGNED] > now ? fields[LUFFCRINGLE_TSIG_SIGNED] : now;
}

static void message(void) {
    pick_message();
    size_t offer_size = one_in(20) ? 1020 + below(10) : below(40), room = one_in(3) ? below(300) : 4000;
    uint64_t *words = lend_words(), *answer = lend(NULL, 8 * LUFFCRINGLE_ANSWER_WORDS), number;
    uint8_t *suffixes = lend(&table.suffixes, sizeof table.suffixes), *octets = lend(made.octets, made.size);
    uint8_t *offer = lend(NULL, offer_size), *record = lend("\0\0\31\0\1\0\0\0\0\0\1x", below(13)), *reply = lend(NULL, room);
    number = luffcringle_message(words, suffixes, time_of(octets, made.size), !one_in(5), octets, made.size, offer, offer_size, one_in(2), record,
                                 lent[5].size, reply, room, answer);
    check(MESSAGE, number);
    must(MESSAGE, kept(suffixes) && kept(octets) && kept(offer) && kept(record), "what is const");
    must(MESSAGE, kept_from(reply, answer[LUFFCRINGLE_LENGTH]), "the reply behind its length");
    must(MESSAGE, !number || (kept(reply) && kept_from(words, 8) && zeros(answer + 1, 5) && (number == LUFFCRINGLE_FORMAT || !answer[6])), "what is kept");
    keep(words);
    if (!number && answer[LUFFCRINGLE_LENGTH] && one_in(2)) {
        memcpy(made.octets, reply, answer[LUFFCRINGLE_LENGTH]);
        made.size = answer[LUFFCRINGLE_LENGTH];
    }
}

static void batch(void) {
    pick_message();
    uint64_t items[LUFFCRINGLE_ITEMS_WORDS], count = one_in(8) ? chance() : below(66), room = below(3000);
    for (size_t i = 0; i < LUFFCRINGLE_ITEMS_WORDS; i++)
        items[i] = one_in(600) ? chance() : 0;
    for (size_t i = 0; i < LUFFCRINGLE_MOST_ITEMS; i++) {
        items[9 * i + LUFFCRINGLE_ITEM_TIME] = now += below(2);
        items[9 * i + LUFFCRINGLE_ITEM_GOOD] = below(3);
        items[9 * i + LUFFCRINGLE_ITEM_MESSAGE_SIZE] = one_in(200) ? chance() : made.size;
    }
    uint64_t *words = lend_words(), *lent_items = lend(items, sizeof items), *answers = lend(NULL, 8 * LUFFCRINGLE_ANSWERS_WORDS);
    uint8_t *suffixes = lend(&table.suffixes, sizeof table.suffixes), *octets = lend(made.octets, made.size), *replies = lend(NULL, room);
    uint64_t number = luffcringle_batch(words, suffixes, count, lent_items, octets, made.size, answers, replies, room);
    check(BATCH, number);
    must(BATCH, kept(suffixes) && kept(lent_items) && kept(octets) && (!number || (kept(words) && kept(answers) && kept(replies))), "what is kept");
    keep(words);
}

/* ---- The table as text ---- */

enum { MOST_NAMED = 4096 };
static struct {
    uint8_t octets[MOST];
    size_t size;
} text;

static void splice(size_t at, size_t removed, const char *with) {
    size_t added = strlen(with);
    if (at + removed > text.size || text.size + added > MOST)
        return;
    memmove(text.octets + at + added, text.octets + at + removed, text.size - at - removed);
    memcpy(text.octets + at, with, added);
    text.size += added - removed;
}

/* Where the line or the field begins that this octet is in. */
static size_t begin_of(size_t at, bool field) {
    while (at > 0 && text.octets[at - 1] != '\n' && !(field && text.octets[at - 1] == '\t'))
        at--;
    return at;
}

static size_t end_of(size_t at, bool field) {
    while (at < text.size && text.octets[at] != '\n' && !(field && text.octets[at] == '\t'))
        at++;
    return at;
}

static void damage_text(void) {
    static const char *const fields[] = {"", "0", "1", "2", "03", "4294967295", "4294967296", "4294967297", "18446744073709551615", "18446744073709551616",
                                         "key", "pair", "adopted", "waiting", "hmac-sha384"};
    char line[600];
    size_t at = below(text.size + 1), from = begin_of(at, false), to = end_of(at, false);
    switch (below(9)) {
    case 0: splice(at, 1, (char[]){"\t\n\r 09afkpA\377"[below(12)], 0}); break;
    case 1: splice(at, 1, ""); break;
    case 2: text.size = at; break;
    case 3: splice(from, to - from, ""); break;
    case 4: splice(from, to + 1 - from, ""); break;
    case 5: /* a pair, new or not */
        snprintf(line, sizeof line, "pair\t02%02x%02x00\t%u\t9\t8\n", (unsigned)below(256), (unsigned)below(2), 1 + (unsigned)below(3));
        splice(one_in(2) ? text.size : from, 0, line);
        break;
    case 6: /* a line once more */
        snprintf(line, sizeof line, "%.*s\n", (int)(to - from), (const char *)text.octets + from);
        splice(one_in(2) ? text.size : from, 0, line);
        break;
    case 7: /* the third field of one of the first lines, as a floor or a next serial that is spent */
        from = begin_of(below(text.size < 200 ? text.size + 1 : 200), false);
        for (int tabs = 2; tabs > 0 && from < text.size; from++)
            tabs -= text.octets[from] == '\t';
        splice(from, end_of(from, true) - from, "4294967296");
        break;
    default: /* a field, often one of line 1 */
        at = one_in(3) && at > 20 ? below(20) : at;
        from = begin_of(at, true), to = end_of(at, true);
        splice(from, to - from, fields[below(sizeof fields / sizeof fields[0])]);
    }
}

static void list(void) {
    size_t room = one_in(4) ? below(400) : LUFFCRINGLE_LISTING_OCTETS;
    uint64_t *words = lend_words(), *length = lend(NULL, 8);
    uint8_t *suffixes = lend(&table.suffixes, sizeof table.suffixes), *out = lend(NULL, room);
    uint64_t number = luffcringle_list(words, suffixes, out, room, length);
    check(LIST, number);
    must(LIST, kept(words) && kept(suffixes) && (!number || (kept(out) && !*length)) && kept_from(out, *length), "what is kept");
    must(LIST, number != LUFFCRINGLE_ROOM || room < LUFFCRINGLE_LISTING_OCTETS, "the room that is enough");
    if (number)
        return;
    memcpy(text.octets, out, *length);
    text.size = *length;
}

/* Whether the table lists as the text. */
static bool lists_as_text(const uint64_t *words, const uint8_t *suffixes) {
    uint64_t length;
    return !luffcringle_list(words, suffixes, spare, MOST, &length) && length == text.size && memcmp(spare, text.octets, length) == 0;
}

/* Answers with what load says. */
static uint64_t load(struct luffcringle_table *loaded) {
    uint64_t *words = lend_words(), *line = lend(NULL, 8);
    uint8_t *suffixes = lend(&table.suffixes, sizeof table.suffixes), *octets = lend(text.octets, text.size);
    uint64_t number = luffcringle_load(words, suffixes, octets, text.size, line);
    check(LOAD, number);
    must(LOAD, kept(octets) && (!number || (kept(words) && kept(suffixes))) && (number == LUFFCRINGLE_LINE) == (*line != 0), "what is kept");
    must(LOAD, number || lists_as_text(words, suffixes), "a loaded table lists as the text");
    memcpy(loaded->words, words, sizeof loaded->words);
    memcpy(loaded->suffixes, suffixes, sizeof loaded->suffixes);
    return number;
}

static void mend(uint64_t load_said) {
    size_t room = one_in(4) ? below(4) : MOST_NAMED;
    uint64_t *words = lend_words(), *named = lend(NULL, 16 * room), *told = lend(NULL, 16);
    uint8_t *suffixes = lend(&table.suffixes, sizeof table.suffixes), *octets = lend(text.octets, text.size);
    uint64_t number = luffcringle_mend(words, suffixes, octets, text.size, named, 2 * room, told), dropped = told[LUFFCRINGLE_MENDING_DROPPED];
    check(MEND, number);
    must(MEND, kept(octets) && (!number || (kept(words) && kept(suffixes) && !dropped)) && kept_from(named, 16 * dropped), "what is kept");
    must(MEND, (number == LUFFCRINGLE_LINE) == (told[LUFFCRINGLE_MENDING_LINE] == 1) && told[LUFFCRINGLE_MENDING_LINE] <= 1, "its line");
    must(MEND, (load_said == 0) == (number == 0 && dropped == 0), "what loads is kept whole");
    must(MEND, number || !luffcringle_test(words, suffixes), "what is mended is a table");
    for (uint64_t i = 0; i < dropped; i++) {
        must(MEND, named[2 * i] > (i ? named[2 * i - 2] : 1), "the order of lines");
        must(DROPPED, is_listed(DROPPED, named[2 * i + 1]), "a reason that is not listed");
        seen[DROPPED][named[2 * i + 1]]++;
    }
}

/* What is loaded is tried by two calls and then taken back, but for now and then: a floor or a serial that is spent is spent for good. */
static void load_and_mend(void) {
    static struct luffcringle_table before, loaded;
    for (size_t count = one_in(8) ? 0 : 1 + below(3); count > 0; count--)
        damage_text();
    uint64_t number = load(&loaded);
    lent_count = 0;
    mend(number);
    if (number)
        return;
    before = table;
    table = loaded;
    lent_count = 0;
    enrol();
    lent_count = 0;
    issue_or_revoke(true);
    if (!one_in(100))
        table = before;
}

/* ---- Another server's reply ---- */

/* Ours, by the table of the text; damaged now and then. Answers with its size. */
static size_t make_theirs(uint64_t time, bool good) {
    static struct luffcringle_table loaded;
    uint64_t line, answer[LUFFCRINGLE_ANSWER_WORDS];
    size_t size = 0;
    if (!luffcringle_load(loaded.words, loaded.suffixes, text.octets, text.size, &line) &&
        !luffcringle_message(loaded.words, loaded.suffixes, time, good, made.octets, made.size, made.octets, 9, false, made.octets, 0, spare,
                             LUFFCRINGLE_REPLY_OCTETS, answer))
        size = answer[LUFFCRINGLE_LENGTH];
    if (size && one_in(2))
        spare[one_in(2) ? below(size) : below(12)] ^= 1 << below(8);
    return one_in(10) ? below(size + 3) : size;
}

static void compare(void) {
    pick_message();
    if (one_in(8))
        damage_text();
    uint64_t time = time_of(made.octets, made.size);
    bool good = !one_in(5);
    made.size = made.size < 9 ? 9 : made.size;
    size_t size = make_theirs(time, good);
    uint8_t *listing = lend(text.octets, text.size), *octets = lend(made.octets, made.size), *offer = lend(made.octets, 9), *record = lend(NULL, 0);
    uint8_t *theirs = lend(spare, size), *suffixes = lend(&table.suffixes, sizeof table.suffixes), *reply = lend(NULL, LUFFCRINGLE_REPLY_OCTETS);
    uint64_t *words = lend_words(), *place = lend(NULL, 8);
    uint64_t number = luffcringle_compare(listing, text.size, time, good, octets, made.size, offer, 9, false, record, 0, theirs, size, words, suffixes,
                                          reply, place);
    check(COMPARE, number);
    must(COMPARE, kept(listing) && kept(octets) && kept(offer) && kept(record) && kept(theirs), "what is const");
    must(COMPARE, number == LUFFCRINGLE_LINE || *place <= size, "the place");
    must(COMPARE, number == LUFFCRINGLE_LINE || number == LUFFCRINGLE_FORMAT || number == LUFFCRINGLE_DIFFERS || !*place, "a place beside others");
}

/* ---- Inquiries ---- */

/* Of any words: a serial that is told is one of those before or after. */
static void moved(const uint64_t *after) {
    static uint64_t before[LUFFCRINGLE_PAIR_WORDS];
    uint64_t moves[LUFFCRINGLE_MOVES_WORDS];
    if (one_in(8))
        before[below(LUFFCRINGLE_PAIR_WORDS)] = one_in(2) ? chance() : below(4);
    luffcringle_moves(before, after, moves);
    uint64_t serials[] = {0, before[4], before[9], after[4], after[9]};
    for (int i = 0; i < LUFFCRINGLE_MOVES_WORDS; i++) {
        bool is_one = false;
        for (int k = 0; k < 5; k++)
            is_one = is_one || moves[i] == serials[k];
        must(PAIR, is_one, "a serial that is no key's");
    }
    memcpy(before, after, sizeof before);
}

static void inquire(void) {
    uint8_t name[1 + sizeof suffix_a + 2], key_name[LUFFCRINGLE_KEY_NAME_OCTETS];
    size_t size = 2 + pick_suffix(name + 2);
    name[0] = (uint8_t)(one_in(10) ? chance() : 1);
    name[1] = '1';
    uint64_t *words = lend_words(), *word = lend(NULL, 8), *shown = lend(NULL, 8 * LUFFCRINGLE_PAIR_WORDS), number;
    uint8_t *suffixes = lend(&table.suffixes, sizeof table.suffixes), *lent_name = lend(name, size), *suffix = lend(name + 2, size - 2);
    size_t room = one_in(3) ? below(16) : LUFFCRINGLE_KEY_NAME_OCTETS;
    uint8_t *out = lend(NULL, room);
    uint64_t sound = luffcringle_test(words, suffixes), pair = one_in(8) ? chance() : below(5), serial = one_in(8) ? chance() : below(4);
    check(TEST, sound);
    check(PAIR_OF_KEY, number = luffcringle_pair_of_key(words, suffixes, lent_name, size, word));
    must(PAIR_OF_KEY, (number == LUFFCRINGLE_TABLE) == (sound != 0) && (number != 0) == (*word == 0), "its pair");
    check(PAIR_OF_SUFFIX, number = luffcringle_pair_of_suffix(words, suffixes, suffix, size - 2, word));
    must(PAIR_OF_SUFFIX, (number != 0) == (*word == 0), "its pair");
    check(PAIR, number = luffcringle_pair(words, suffixes, pair, shown));
    must(PAIR, !number || zeros(shown, LUFFCRINGLE_PAIR_WORDS), "no pair");
    moved(shown);
    check(KEY_NAME, number = luffcringle_key_name(words, suffixes, pair, serial, out, room, word));
    must(KEY_NAME, (!number || (kept(out) && !*word)) && kept_from(out, *word), "what is kept");
    must(TEST, kept(words) && kept(suffixes) && kept(lent_name) && kept(suffix), "what is const");
    if (number)
        return;
    /* The name leads back to its pair. */
    memcpy(key_name, out, *word);
    must(KEY_NAME, luffcringle_pair_of_key(words, suffixes, key_name, *word, shown) == 0 && *shown == pair, "its pair");
}

static void asks(void) {
    pick_message();
    uint8_t *octets = lend(made.octets, made.size);
    uint64_t *asked = lend(NULL, 8 * LUFFCRINGLE_ASKED_WORDS), number = luffcringle_asks(octets, made.size, asked);
    check(ASKS, number);
    must(ASKS, kept(octets) && (!number || zeros(asked + 1, LUFFCRINGLE_ASKED_WORDS - 1)), "what is kept");
    must(ASKS, asked[LUFFCRINGLE_ASKED_DATA] + asked[LUFFCRINGLE_ASKED_DATA_SIZE] <= made.size &&
                   asked[LUFFCRINGLE_ASKED_KEY] + asked[LUFFCRINGLE_ASKED_KEY_SIZE] <= made.size, "its places");
}

/* ---- Signatures ---- */

static const uint8_t key_name_1[] = "\1""1\1a\7example", sha256[] = "\13hmac-sha256";

static void wrote(enum call call, uint64_t number, const uint8_t *out, const uint64_t *written) {
    check(call, number);
    must(call, (!number || !*written) && kept_from(out, *written), "what is kept");
}

static void sign(void) {
    pick_message();
    uint64_t size;
    if (!one_in(3) && !luffcringle_remove(made.octets, made.size, spare, MOST, &size)) {
        memcpy(made.octets, spare, size);
        made.size = size;
    }
    size_t room = one_in(3) ? below(400) : MOST, mac_size = one_in(10) ? 60 + below(10) : 32, name_size = one_in(10) ? below(9) : sizeof key_name_1;
    uint8_t *octets = lend(made.octets, made.size), *name = lend(key_name_1, name_size), *algorithm = lend(sha256, sizeof sha256);
    uint8_t *mac = lend(NULL, mac_size), *other = lend(NULL, one_in(4) ? 6 : 0), *out = lend(NULL, room);
    uint64_t *written = lend(NULL, 8), signed_time = one_in(20) ? chance() : now, number;
    size_t other_size = lent[4].size;
    switch (below(4)) {
    case 0:
        number = luffcringle_digest_request(octets, made.size, name, name_size, algorithm, sizeof sha256, signed_time, 300, 7, 0, other, other_size, out,
                                            room, written);
        wrote(DIGEST_REQUEST, number, out, written);
        break;
    case 1:
        number = luffcringle_digest_reply(mac, mac_size, octets, made.size, name, name_size, algorithm, sizeof sha256, signed_time, 300, 7, 0, other,
                                          other_size, out, room, written);
        wrote(DIGEST_REPLY, number, out, written);
        break;
    case 2:
        number = luffcringle_digest_later(mac, mac_size, other, other_size, octets, made.size, signed_time, 300, 7, out, room, written);
        wrote(DIGEST_LATER, number, out, written);
        break;
    default:
        number = luffcringle_finish(octets, made.size, name, name_size, algorithm, sizeof sha256, signed_time, 300, 7, 0, mac, mac_size, other,
                                    other_size, out, room, written);
        wrote(FINISH, number, out, written);
        if (!number) {
            memcpy(made.octets, out, *written);
            made.size = *written;
        }
    }
    must(FINISH, kept(name) && kept(algorithm) && kept(mac) && kept(other) && kept(octets), "what is const");
}

static void receive(void) {
    pick_message();
    size_t room = one_in(3) ? below(400) : MOST, mac_size = one_in(10) ? 60 + below(10) : 32;
    uint8_t *octets = lend(made.octets, made.size), *mac = lend(NULL, mac_size), *before = lend(NULL, below(30)), *out = lend(NULL, room);
    uint8_t *name = lend(NULL, LUFFCRINGLE_NAME_OCTETS), *algorithm = lend(NULL, LUFFCRINGLE_NAME_OCTETS);
    uint64_t *written = lend(NULL, 8), *fields = lend(NULL, 8 * LUFFCRINGLE_TSIG_WORDS), number;
    switch (below(5)) {
    case 0: wrote(RECEIVED_REQUEST, luffcringle_received_request(octets, made.size, out, room, written), out, written); break;
    case 1: wrote(RECEIVED_REPLY, luffcringle_received_reply(mac, mac_size, octets, made.size, out, room, written), out, written); break;
    case 2:
        number = luffcringle_received_later(mac, mac_size, before, lent[2].size, octets, made.size, out, room, written);
        wrote(RECEIVED_LATER, number, out, written);
        break;
    case 3: wrote(REMOVE, luffcringle_remove(octets, made.size, out, room, written), out, written); break;
    default:
        number = luffcringle_read_tsig(octets, made.size, name, algorithm, fields);
        check(READ_TSIG, number);
        must(READ_TSIG, !number || (kept(name) && kept(algorithm) && zeros(fields, LUFFCRINGLE_TSIG_WORDS)), "what is kept");
        must(READ_TSIG, fields[LUFFCRINGLE_TSIG_MAC] + fields[LUFFCRINGLE_TSIG_MAC_SIZE] <= made.size &&
                            fields[LUFFCRINGLE_TSIG_OTHER] + fields[LUFFCRINGLE_TSIG_OTHER_SIZE] <= made.size, "its places");
    }
    must(RECEIVED_REPLY, kept(octets) && kept(mac) && kept(before), "what is const");
}

/* ---- The resolver ---- */

static struct luffcringle_resolver resolver;

static void resolve(void) {
    size_t room = one_in(4) ? below(200) : 600, name_size = one_in(4) ? below(9) : sizeof key_name_1, record_size = one_in(4) ? below(13) : 12;
    uint64_t *words = lend(&resolver.words, sizeof resolver.words), *told = lend(NULL, 32), number;
    uint8_t *names = lend(&resolver.names, sizeof resolver.names), *name = lend(key_name_1, name_size), *out = lend(NULL, room);
    uint8_t *record = lend("\0\0\31\0\1\0\0\0\0\0\1x", record_size), *octets;
    uint16_t id = (uint16_t)below(3);
    enum call call;
    switch (below(8)) {
    case 0: call = HOLD, number = luffcringle_resolver_hold(words, names, name, name_size, pick_algorithm(), 0, 900); break;
    case 1:
        call = RENEWAL, number = luffcringle_resolver_renewal(words, names, id, name, one_in(2) ? 0 : name_size, pick_algorithm(), 0, 900, record,
                                                              record_size, out, room, told);
        break;
    case 2: call = ADOPTION, number = luffcringle_resolver_adoption(words, names, id, out, room, told); break;
    case 3: call = DELETION, number = luffcringle_resolver_deletion(words, names, id, out, room, told); break;
    case 4: call = HOLD, number = 0, luffcringle_resolver_note(words, names, id); break;
    default:
        pick_message();
        octets = lend(made.octets, made.size);
        if (made.size > 2 && one_in(2))
            octets[0] = lent[6].before[0] = 0, octets[1] = lent[6].before[1] = (uint8_t)id;
        call = REPLY, number = luffcringle_resolver_reply(words, names, !one_in(4), octets, made.size, told);
        must(REPLY, kept(octets) && told[LUFFCRINGLE_HEARD_DATA] + told[LUFFCRINGLE_HEARD_DATA_SIZE] <= made.size, "its places");
        must(REPLY, !number || zeros(told, LUFFCRINGLE_HEARD_WORDS), "what is told");
    }
    check(call, number);
    must(call, kept(name) && kept(record) && (!number || (kept(words) && kept(names) && kept(out))), "what is kept");
    if (call == RENEWAL || call == ADOPTION || call == DELETION) {
        must(call, (number == 0) == (told[LUFFCRINGLE_SENDING_SIGNER] != 0) && kept_from(out, told[LUFFCRINGLE_SENDING_LENGTH]), "what is told");
        memcpy(made.octets, out, told[LUFFCRINGLE_SENDING_LENGTH]);
        made.size = told[LUFFCRINGLE_SENDING_LENGTH];
    }
    memcpy(&resolver.words, words, sizeof resolver.words);
    memcpy(&resolver.names, names, sizeof resolver.names);
}

/* A message with a TSIG of this key, with any MAC. */
static void stamp(const uint8_t *name, size_t name_size) {
    uint64_t size;
    if (!luffcringle_finish(made.octets, made.size, name, name_size, sha256, sizeof sha256, now, 300, 0, 0, spare, 32, spare, 0, spare + 64, MOST - 64, &size)) {
        memcpy(made.octets, spare + 64, size);
        made.size = size;
    }
}

/* Both halves in a row: a.example. gets a key, its office holds it and renews it, and hears that the renewal is granted. The adoption is left to chance. */
static void exchange(void) {
    uint64_t pair, length, answer[LUFFCRINGLE_ANSWER_WORDS], shown[LUFFCRINGLE_PAIR_WORDS], told[4];
    uint8_t name[LUFFCRINGLE_KEY_NAME_OCTETS];
    luffcringle_enrol(table.words, table.suffixes, now, suffix_a, sizeof suffix_a, 600, 400, 256, answer);
    if (luffcringle_pair_of_suffix(table.words, table.suffixes, suffix_a, sizeof suffix_a, &pair) ||
        luffcringle_issue(table.words, table.suffixes, now, pair, 256, answer) ||
        luffcringle_key_name(table.words, table.suffixes, pair, answer[LUFFCRINGLE_SERIAL], name, sizeof name, &length) ||
        luffcringle_pair(table.words, table.suffixes, pair, shown))
        return;
    must(HOLD, !luffcringle_resolver_hold(resolver.words, resolver.names, name, length, 256, 0, 0), "a key of the table is held");
    must(RENEWAL, !luffcringle_resolver_renewal(resolver.words, resolver.names, 1, name, 0, 256, (uint32_t)now, (uint32_t)(now + shown[0]),
                                                (const uint8_t *)"\0\0\31\0\1\0\0\0\0\0\1x", 12, made.octets, MOST, told), "a renewal is written");
    made.size = told[LUFFCRINGLE_SENDING_LENGTH];
    if (one_in(3)) { /* by Diffie-Hellman: what the server makes of it is left to chance too */
        for (size_t at = 0; at + 1 < made.size; at++)
            if (made.octets[at] == 0x10 && made.octets[at + 1] == 2)
                made.octets[at + 1] = 1;
        stamp(name, length);
        return;
    }
    stamp(name, length);
    must(MESSAGE, !luffcringle_message(table.words, table.suffixes, now, true, made.octets, made.size, spare, 9, false, spare, 0, spare + 64, 900, answer) &&
                      answer[LUFFCRINGLE_LENGTH], "a renewal is answered");
    made.size = answer[LUFFCRINGLE_LENGTH];
    memcpy(made.octets, spare + 64, made.size);
    stamp(name, length);
    must(REPLY, !luffcringle_resolver_reply(resolver.words, resolver.names, true, made.octets, made.size, told) && told[LUFFCRINGLE_HEARD_GRANTED] &&
                    told[LUFFCRINGLE_HEARD_DATA_SIZE] == 9, "a renewal is granted");
}

/* ---- The run ---- */

/* A new table now and then, at the time of one of the messages that were read. */
static void renew_table(void) {
    size_t which = below(seed_count);
    lent_count = 0;
    now = 0;
    now = time_of(seeds[which].octets, seeds[which].size);
    new_table();
}

static void step(void) {
    lent_count = 0;
    if (one_in(300))
        resolver.words[below(LUFFCRINGLE_RESOLVER_WORDS)] = chance();
    switch (below(15)) {
    case 0: one_in(300) ? renew_table() : exchange(); break;
    case 1: case 2: enrol(); break;
    case 3: issue_or_revoke(true); break;
    case 4: issue_or_revoke(false); break;
    case 5: look(); break;
    case 6: case 7: message(); break;
    case 8: one_in(8) ? batch() : one_in(8) ? close_pair() : look(); break;
    case 9: inquire(); break;
    case 10: asks(); break;
    case 11: sign(); break;
    case 12: receive(); break;
    case 13:
        list();
        lent_count = 0;
        load_and_mend();
        lent_count = 0;
        compare();
        break;
    default: resolve();
    }
}

/* What was seen of each call; whether a number is missing. */
static bool report(void) {
    bool all = true;
    for (int call = 0; call < CALLS; call++) {
        printf("luffcringle_%s:", listed[call].name);
        for (uint64_t number = 0; number < MOST_NUMBERS; number++) {
            if (!is_listed(call, number))
                continue;
            bool missing = !seen[call][number];
            printf(" %" PRIu64 "x%" PRIu64 "%s", number, seen[call][number], missing ? " NEVER" : "");
            all = all && !missing;
        }
        printf("\n");
    }
    printf("%" PRIu64 " calls\n", calls_made);
    return all;
}

int main(int argc, char **argv) {
    if (argc < 4) {
        fprintf(stderr, "usage: fuzz SEED CALLS FILE..\n");
        return 2;
    }
    state = strtoull(argv[1], NULL, 10);
    uint64_t wanted = strtoull(argv[2], NULL, 10);
    for (int i = 3; i < argc; i++)
        read_seeds(argv[i]);
    make_pages();
    renew_table();
    while (calls_made < wanted)
        step();
    return report() ? 0 : 1;
}
