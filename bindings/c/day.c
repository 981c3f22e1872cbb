/* The replay script (docs/SCRIPT.md) on the C interface: calls on standard input, results on standard output. An example for C users and a test:
 *
 *   gcc -std=c11 -Wall -Wextra -Werror -Iinclude bindings/c/day.c target/staticlib/libluffcringle.a -o day && ./day <examples/day.script
 */
#include <inttypes.h>
#include <stdio.h>
#include <string.h>

#include "luffcringle.h"

enum { LONGEST_LINE = 200000, MOST_OCTETS = LONGEST_LINE / 2, MOST_WORDS = LONGEST_LINE + 1 };
enum { MOST_ROOM = 65535, MOST_BATCH_ROOM = 100000, MOST_NAMED = 4096 };

struct word {
    const char *text;
    size_t length;
};

struct octets {
    uint8_t octet[MOST_OCTETS];
    size_t length;
};

static struct luffcringle_table table;
static uint64_t answer[LUFFCRINGLE_ANSWER_WORDS], items[LUFFCRINGLE_ITEMS_WORDS], answers[LUFFCRINGLE_ANSWERS_WORDS];
static uint64_t named[2 * MOST_NAMED], told[LUFFCRINGLE_MENDING_WORDS];
static uint8_t reply[MOST_ROOM], replies[MOST_BATCH_ROOM], text[LUFFCRINGLE_LISTING_OCTETS];
static struct octets suffix, message, offer, record, listing, theirs;
static struct luffcringle_table scratch;

/* ---- Reading ---- */

/* One line without its newline, of which at most LONGEST_LINE octets are kept; its whole length in *length. False at the end of the input. */
static bool read_line(char *line, size_t *length) {
    size_t n = 0;
    int c = getchar();
    if (c == EOF)
        return false;
    for (; c != EOF && c != '\n'; c = getchar()) {
        if (n < LONGEST_LINE)
            line[n] = (char)c;
        n++;
    }
    *length = n;
    return true;
}

/* The words between single spaces, and their count. */
static size_t split(const char *line, size_t length, struct word *words) {
    size_t count = 0, start = 0;
    for (size_t at = 0; at <= length; at++) {
        if (at < length && line[at] != ' ')
            continue;
        words[count++] = (struct word){line + start, at - start};
        start = at + 1;
    }
    return count;
}

static bool is(struct word w, const char *text) { return w.length == strlen(text) && memcmp(w.text, text, w.length) == 0; }

static bool read_number(struct word w, uint64_t *number) {
    uint64_t n = 0;
    for (size_t i = 0; i < w.length; i++) {
        if (w.text[i] < '0' || w.text[i] > '9')
            return false;
        uint64_t digit = (uint64_t)(w.text[i] - '0');
        if (n > (UINT64_MAX - digit) / 10)
            return false;
        n = 10 * n + digit;
    }
    *number = n;
    return w.length > 0;
}

static int digit_of(char c) {
    if ('0' <= c && c <= '9')
        return c - '0';
    if ('a' <= c && c <= 'f')
        return c - 'a' + 10;
    return 'A' <= c && c <= 'F' ? c - 'A' + 10 : -1;
}

static bool read_octets(struct word w, struct octets *o) {
    o->length = 0;
    if (is(w, "-"))
        return true;
    if (w.length == 0 || w.length % 2 != 0)
        return false;
    for (size_t i = 0; i < w.length; i += 2) {
        int high = digit_of(w.text[i]), low = digit_of(w.text[i + 1]);
        if (high < 0 || low < 0)
            return false;
        o->octet[o->length++] = (uint8_t)(16 * high + low);
    }
    return true;
}

static bool read_verdict(struct word w, bool *good) {
    *good = is(w, "good");
    return *good || is(w, "bad");
}

/* The nine words of an item. */
static bool read_item(const struct word *w, uint64_t *item) {
    for (int i = 0; i < LUFFCRINGLE_ITEM_WORDS; i++) {
        bool verdict;
        if (i != LUFFCRINGLE_ITEM_GOOD && i != LUFFCRINGLE_ITEM_FITS) {
            if (!read_number(w[i], item + i))
                return false;
        } else if (read_verdict(w[i], &verdict))
            item[i] = verdict;
        else
            return false;
    }
    return true;
}

/* ---- Printing ---- */

static void print_hex(const uint8_t *octets, size_t length) {
    for (size_t i = 0; i < length; i++)
        printf("%02x", octets[i]);
}

static void print_answer(const uint64_t *told, const uint8_t *written) {
    size_t length = (size_t)told[LUFFCRINGLE_LENGTH];
    printf("%" PRIu64 " %zu %" PRIu64 " %" PRId64 " %" PRIu64 " %" PRIu64 " ", told[LUFFCRINGLE_NUMBER], length, told[LUFFCRINGLE_ERROR],
           (int64_t)told[LUFFCRINGLE_SKEW], told[LUFFCRINGLE_PAIR], told[LUFFCRINGLE_SERIAL]);
    if (length == 0)
        putchar('-');
    print_hex(written, length);
    printf(" %" PRIu64 "\n", told[LUFFCRINGLE_PLACE]);
}

/* A reply begins where the one before it ends. */
static void print_batch(uint64_t number, uint64_t count) {
    const uint8_t *written = replies;
    if (number != LUFFCRINGLE_DONE)
        count = 0;
    printf("%" PRIu64 " %" PRIu64 "\n", number, count);
    for (uint64_t i = 0; i < count; i++) {
        const uint64_t *told = answers + LUFFCRINGLE_ANSWER_WORDS * i;
        print_answer(told, written);
        written += told[LUFFCRINGLE_LENGTH];
    }
}

/* ---- The calls: false where the words do not read, and then nothing is called ---- */

static bool call_new(const struct word *w) {
    uint64_t time;
    if (!read_number(w[1], &time))
        return false;
    luffcringle_new_table(table.words, table.suffixes, time, answer);
    return true;
}

static bool call_enrol(const struct word *w) {
    uint64_t time, lifetime, fresh, algorithm;
    if (!read_number(w[1], &time) || !read_octets(w[2], &suffix) || !read_number(w[3], &lifetime) || !read_number(w[4], &fresh) ||
        !read_number(w[5], &algorithm))
        return false;
    luffcringle_enrol(table.words, table.suffixes, time, suffix.octet, suffix.length, lifetime, fresh, algorithm, answer);
    return true;
}

static bool call_issue(const struct word *w) {
    uint64_t time, pair, algorithm;
    if (!read_number(w[1], &time) || !read_number(w[2], &pair) || !read_number(w[3], &algorithm))
        return false;
    luffcringle_issue(table.words, table.suffixes, time, pair, algorithm, answer);
    return true;
}

static bool call_revoke(const struct word *w) {
    uint64_t time, pair;
    if (!read_number(w[1], &time) || !read_number(w[2], &pair))
        return false;
    luffcringle_revoke(table.words, table.suffixes, time, pair, answer);
    return true;
}

static bool call_close(const struct word *w) {
    uint64_t time, pair;
    if (!read_number(w[1], &time) || !read_number(w[2], &pair))
        return false;
    luffcringle_close(table.words, table.suffixes, time, pair, answer);
    return true;
}

static bool call_look(const struct word *w) {
    if (!read_octets(w[1], &message))
        return false;
    luffcringle_look(table.words, table.suffixes, message.octet, message.length, answer);
    return true;
}

static size_t least(uint64_t number, size_t limit) { return number < limit ? (size_t)number : limit; }

static bool judge(const struct word *w, bool fits) {
    uint64_t time, room;
    bool good;
    if (!read_number(w[1], &time) || !read_verdict(w[2], &good) || !read_octets(w[3], &offer) || !read_number(w[4], &room) ||
        !read_octets(w[5], &message))
        return false;
    luffcringle_message(table.words, table.suffixes, time, good, message.octet, message.length, offer.octet, offer.length, fits, record.octet,
                        record.length, reply, least(room, MOST_ROOM), answer);
    return true;
}

/* The short line: no KEY fits, and no record is lent. */
static bool call_message(const struct word *w) {
    record.length = 0;
    return judge(w, false);
}

static bool call_long_message(const struct word *w) {
    bool fits;
    return read_verdict(w[6], &fits) && read_octets(w[7], &record) && judge(w, fits);
}

/* Of more than 64 items the count alone is told, but all must read. */
static bool run_batch(const struct word *w, size_t words) {
    uint64_t room, count = (words - 3) / LUFFCRINGLE_ITEM_WORDS;
    if ((words - 3) % LUFFCRINGLE_ITEM_WORDS != 0 || !read_number(w[1], &room) || !read_octets(w[2], &message))
        return false;
    for (uint64_t i = 0; i < count; i++) {
        uint64_t item[LUFFCRINGLE_ITEM_WORDS];
        if (!read_item(w + 3 + LUFFCRINGLE_ITEM_WORDS * i, item))
            return false;
        if (i < LUFFCRINGLE_MOST_ITEMS)
            memcpy(items + LUFFCRINGLE_ITEM_WORDS * i, item, sizeof item);
    }
    print_batch(luffcringle_batch(table.words, table.suffixes, count, items, message.octet, message.length, answers, replies,
                                  least(room, MOST_BATCH_ROOM)),
                count);
    return true;
}

/* ---- The table as text: printed by themselves ---- */

static bool run_list(const struct word *w, size_t words) {
    uint64_t room = sizeof text, length, number;
    if (words == 2 && !read_number(w[1], &room))
        return false;
    number = luffcringle_list(table.words, table.suffixes, text, least(room, sizeof text), &length);
    if (number != LUFFCRINGLE_DONE)
        printf("%" PRIu64 " 0\n", number);
    fwrite(text, 1, (size_t)length, stdout);
    return true;
}

static bool run_load(const struct word *w) {
    uint64_t line, number;
    if (!read_octets(w[1], &listing))
        return false;
    number = luffcringle_load(table.words, table.suffixes, listing.octet, listing.length, &line);
    printf("%" PRIu64 " %" PRIu64 "\n", number, line);
    return true;
}

static bool run_mend(const struct word *w) {
    uint64_t room, number;
    if (!read_number(w[1], &room) || !read_octets(w[2], &listing))
        return false;
    number = luffcringle_mend(table.words, table.suffixes, listing.octet, listing.length, named, 2 * least(room, MOST_NAMED), told);
    printf("%" PRIu64 " %" PRIu64 " %" PRIu64 "\n", number, told[LUFFCRINGLE_MENDING_LINE], told[LUFFCRINGLE_MENDING_DROPPED]);
    for (uint64_t i = 0; i < told[LUFFCRINGLE_MENDING_DROPPED]; i++)
        printf("%" PRIu64 " %" PRIu64 "\n", named[2 * i], named[2 * i + 1]);
    return true;
}

/* ---- Another server's reply ---- */

static bool run_compare(const struct word *w) {
    uint64_t time, place, number;
    bool good, fits;
    if (!read_octets(w[1], &listing) || !read_number(w[2], &time) || !read_verdict(w[3], &good) || !read_octets(w[4], &offer) ||
        !read_octets(w[5], &message) || !read_verdict(w[6], &fits) || !read_octets(w[7], &record) || !read_octets(w[8], &theirs))
        return false;
    number = luffcringle_compare(listing.octet, listing.length, time, good, message.octet, message.length, offer.octet, offer.length, fits, record.octet,
                                 record.length, theirs.octet, theirs.length, scratch.words, scratch.suffixes, reply, &place);
    printf("%" PRIu64 " %" PRIu64 "\n", number, place);
    return true;
}

static const struct {
    const char *word;
    size_t words;
    bool (*call)(const struct word *);
} calls[] = {
    {"new", 2, call_new},     {"enrol", 6, call_enrol}, {"issue", 4, call_issue},     {"revoke", 3, call_revoke},
    {"close", 3, call_close}, {"look", 2, call_look},   {"message", 6, call_message}, {"message", 8, call_long_message},
};

static bool run_line(const char *line, size_t length) {
    static struct word words[MOST_WORDS];
    size_t count = split(line, length, words);
    if (count <= 2 && is(words[0], "list"))
        return run_list(words, count);
    if (count == 2 && is(words[0], "load"))
        return run_load(words);
    if (count == 3 && is(words[0], "mend"))
        return run_mend(words);
    if (count == 9 && is(words[0], "compare"))
        return run_compare(words);
    if (count >= 3 && is(words[0], "batch"))
        return run_batch(words, count);
    for (size_t i = 0; i < sizeof calls / sizeof calls[0]; i++)
        if (count == calls[i].words && is(words[0], calls[i].word) && calls[i].call(words)) {
            print_answer(answer, reply);
            return true;
        }
    return false;
}

int main(void) {
    static char line[LONGEST_LINE];
    size_t length;
    luffcringle_new_table(table.words, table.suffixes, 0, answer);
    for (uint64_t number = 1; read_line(line, &length); number++)
        if (length > LONGEST_LINE || !run_line(line, length))
            printf("bad line %" PRIu64 "\n", number);
    return fflush(stdout) == 0 ? 0 : 1;
}
