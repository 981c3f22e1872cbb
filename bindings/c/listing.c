/* The program `listing`, installed as luffcringle-listing: reads a listing (luffcringle.h, "The table as text") on standard input, loads it, and prints the
 * listing of the loaded table on standard output; `listing mend` mends it first. `listing --help` says the rest.
 *
 *   gcc -std=c11 -Wall -Wextra -Werror -Iinclude bindings/c/listing.c target/staticlib/libluffcringle.a -o listing && ./listing <LISTING
 *
 * Nothing is printed on standard output before all else is done: who finds octets there and status 0 has the whole listing. */
#include <errno.h>
#include <inttypes.h>
#include <signal.h>
#include <stdio.h>
#include <string.h>

#include "luffcringle.h"

/* An octet of input is a line at the most, and one more stands behind the last newline. */
enum { MOST_OCTETS = 100000, MOST_LINES = MOST_OCTETS + 1 };
enum { REFUSED = 1, MISUSED = 2 };

struct part {
    const uint8_t *at;
    size_t length;
};

static struct luffcringle_table table;
static uint8_t text[MOST_OCTETS + 1], listed[LUFFCRINGLE_LISTING_OCTETS];
static uint64_t named[2 * MOST_LINES], told[LUFFCRINGLE_MENDING_WORDS];
static size_t text_length;
static const char *program = "listing";

/* ---- The lines of the text ---- */

/* Where each line begins; the last of these is where the text ends. */
static size_t starts[MOST_LINES + 1], line_count;

/* The first line below line 1 that is no `key` line: those between belong to line 1. */
static uint64_t first_pair;

/* Line `number`, from 1, with its newline if it has one; no octets where there is no such line. */
static struct part line_of(uint64_t number) {
    if (number > line_count)
        return (struct part){text, 0};
    return (struct part){text + starts[number - 1], starts[number] - starts[number - 1]};
}

/* Whether this stands before the line's first tab, or its newline, or its end. */
static bool begins(struct part line, const char *field) {
    size_t length = strlen(field);
    return line.length >= length && memcmp(line.at, field, length) == 0 &&
           (line.length == length || line.at[length] == '\t' || line.at[length] == '\n');
}

static void find_lines(void) {
    for (size_t at = 0; at < text_length; at++)
        if (at == 0 || text[at - 1] == '\n')
            starts[line_count++] = at;
    starts[line_count] = text_length;
    for (first_pair = 2; begins(line_of(first_pair), "key");)
        first_pair++;
}

/* Whether a line below line 1 reads by itself: it is loaded behind lines that do. */
static bool reads(struct part line) {
    static const char before_pair[] = "clock\t0\t1\n", before_key[] = "clock\t0\t1\npair\t016100\t1\t2\t1\n";
    static uint8_t trial[sizeof before_key + MOST_OCTETS];
    static struct luffcringle_table unused;
    const char *before = begins(line, "key") ? before_key : before_pair;
    size_t length = strlen(before);
    uint64_t at;
    memcpy(trial, before, length);
    memcpy(trial + length, line.at, line.length);
    return luffcringle_load(unused.words, unused.suffixes, trial, length + line.length, &at) != LUFFCRINGLE_LINE;
}

/* ---- Plain words ---- */

/* What a line that does not read should look like. */
static const char *shape_of(uint64_t number) {
    struct part line = line_of(number);
    if (line.length == 0)
        return "there is none";
    if (line.at[line.length - 1] != '\n')
        return "it does not end with a newline";
    if (line.length > 1 && line.at[line.length - 2] == '\r')
        return "it ends with a carriage return before its newline";
    if (number == 1)
        return "line 1 is \"clock\", clock, floor; fields parted by one tab, numbers without leading zeros";
    if (begins(line, "key"))
        return number < first_pair ? "a line of a key stands below the line of its pair, and there is none above"
                                : "a line of a key is \"key\", \"adopted\" or \"waiting\", serial, \"hmac-sha256\", \"hmac-sha384\" or \"hmac-sha512\", "
                                  "inception, partial, expiry; fields parted by one tab, numbers without leading zeros";
    if (begins(line, "pair"))
        return "a line of a pair is \"pair\", suffix (1 to 128 octets in lower-case hexadecimal), next serial, lifetime, fresh period; fields parted by "
               "one tab, numbers without leading zeros";
    return begins(line, "clock") ? "\"clock\" begins line 1 alone" : "a line below line 1 begins with \"pair\" or \"key\", and a tab";
}

/* Why a pair is dropped whose lines read. */
static const char *rule_of(uint64_t reason) {
    switch (reason) {
    case LUFFCRINGLE_TWIN: return "its suffix is that of a pair above";
    case LUFFCRINGLE_FULL: return "there are 64 pairs above";
    default:
        return "its pair breaks a table rule: the suffix is a wire name of 3 to 128 octets; 1 <= fresh < lifetime < 2^31; 1 <= next serial <= 2^32; keys "
               "none, one adopted, or one adopted and then one waiting; 1 <= serial < next serial, and the waiting key's is higher; inception <= clock; "
               "inception <= partial < expiry = inception + lifetime < 2^48; the waiting key's expiry is not before the adopted key's";
    }
}

static void say_failed(const char *what) { fprintf(stderr, "%s: %s: %s\n", program, what, strerror(errno)); }

/* Why the text was refused, of load (`line`) and of mend. Of a listing that reads and breaks a rule, mending says where. */
static int say_refused(uint64_t number, uint64_t line) {
    fprintf(stderr, "%" PRIu64 " %" PRIu64 " ", number, line);
    if (number == LUFFCRINGLE_LINE)
        fprintf(stderr, "line %" PRIu64 " does not read: %s\n", line, shape_of(line));
    else if (number == LUFFCRINGLE_ROOM)
        fprintf(stderr, "the input has more than %d octets\n", MOST_OCTETS);
    else if (luffcringle_mend(table.words, table.suffixes, text, text_length, named, 2 * MOST_LINES, told) || told[LUFFCRINGLE_MENDING_DROPPED] == 0)
        fprintf(stderr, "line 1 breaks a table rule: the clock is below 2^48, and the floor 1 to 2^32\n");
    else
        fprintf(stderr, "line %" PRIu64 ": %s\n", named[0], rule_of(named[1]));
    return REFUSED;
}

static void say_dropped(uint64_t line, uint64_t reason) {
    fprintf(stderr, "%" PRIu64 " %" PRIu64 " ", line, reason);
    if (reason != LUFFCRINGLE_LINE)
        fprintf(stderr, "%s\n", rule_of(reason));
    else if (line >= first_pair && reads(line_of(line)))
        fprintf(stderr, "another line of its pair does not read\n");
    else
        fprintf(stderr, "it does not read: %s\n", shape_of(line));
}

static void say_usage(FILE *to) {
    fprintf(to,
            "usage: %s [mend] <LISTING\n"
            "Reads the listing of a key table on standard input, loads it, and prints the loaded table's listing on standard output.\n"
            "Where it does not load, nothing is printed there, and standard error has a line NUMBER LINE and the reason in words. NUMBER is\n"
            "  18  a line does not read: LINE, from 1\n"
            "   1  the lines read, but break a table rule\n"
            "   8  the input has more than %d octets\n"
            "and LINE is 0 but beside 18.\n"
            "\n"
            "mend: keeps line 1, and of the pairs each that reads and breaks no rule with those kept before, and prints their listing. For each line that is\n"
            "dropped standard error has a line LINE REASON and the reason in words; REASON is\n"
            "  18  a line of its pair does not read\n"
            "  14  its suffix is that of a pair above\n"
            "  15  64 pairs are kept\n"
            "   1  its pair breaks another table rule\n"
            "Refused, as above, for line 1 alone and for too much input. The floor, the last field of line 1, stays: to make no key name of a dropped\n"
            "pair again, write its next serial there first, if that is higher.\n"
            "\n"
            "Status: 0 the listing is printed, of mend also where lines were dropped; 1 refused, or reading or writing failed; 2 wrong use.\n",
            program, MOST_OCTETS);
}

/* ---- The run ---- */

/* All of standard input, or one octet more than may be. */
static bool read_text(void) {
    text_length = fread(text, 1, sizeof text, stdin);
    if (!ferror(stdin))
        return true;
    say_failed("reading standard input");
    return false;
}

/* What a buffer holds may fail to be written as late as when it is closed. */
static int close_output(bool written) {
    bool flushed = fflush(stdout) == 0;
    if (written && flushed && fclose(stdout) == 0)
        return 0;
    say_failed("writing standard output");
    return REFUSED;
}

static int print_table(void) {
    uint64_t length;
    luffcringle_list(table.words, table.suffixes, listed, sizeof listed, &length);
    return close_output(fwrite(listed, 1, (size_t)length, stdout) == length);
}

static int load(void) {
    uint64_t line, number = luffcringle_load(table.words, table.suffixes, text, text_length, &line);
    return number ? say_refused(number, line) : print_table();
}

/* Where the dropped lines cannot be named, nothing is printed. */
static int mend(void) {
    uint64_t number = luffcringle_mend(table.words, table.suffixes, text, text_length, named, 2 * MOST_LINES, told);
    if (number)
        return say_refused(number, told[LUFFCRINGLE_MENDING_LINE]);
    for (uint64_t i = 0; i < told[LUFFCRINGLE_MENDING_DROPPED]; i++)
        say_dropped(named[2 * i], named[2 * i + 1]);
    return ferror(stderr) ? REFUSED : print_table();
}

int main(int argc, char **argv) {
    bool mends = argc == 2 && strcmp(argv[1], "mend") == 0;
    if (argc > 0) {
        const char *slash = strrchr(argv[0], '/');
        program = slash ? slash + 1 : argv[0];
    }
    /* A closed pipe fails as a full disk does. */
    signal(SIGPIPE, SIG_IGN);
    if (argc == 2 && strcmp(argv[1], "--help") == 0) {
        say_usage(stdout);
        return close_output(!ferror(stdout));
    }
    if (argc > 1 && !mends) {
        say_usage(stderr);
        return MISUSED;
    }
    if (!read_text())
        return REFUSED;
    if (text_length > MOST_OCTETS)
        return say_refused(LUFFCRINGLE_ROOM, 0);
    find_lines();
    return mends ? mend() : load();
}
