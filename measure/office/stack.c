/* The stack that each call of the office's archive takes: the resolver's and the signing calls. The call runs on a stack of its own that was filled with one octet, and what it
 * changed is counted; then it runs again on a stack of 8 KiB, below which lies a page that nobody may touch. The state is made anew before each. The octets
 * at the top that makecontext takes for itself are counted apart. Ends with 1 where a call takes more. */
#define _GNU_SOURCE
#include <stdio.h>
#include <string.h>
#include <sys/mman.h>
#include <ucontext.h>
#include <unistd.h>

#include "luffcringle.h"

enum { FILL = 0xa5, STACK = 1 << 20, LIMIT = 8192, MESSAGE = 65535, ID = 4660, DATA = 16, RENEWAL = 4098, ADOPTION = 4100 };

static uint8_t stack[STACK] __attribute__((aligned(64))), message[MESSAGE], out[MESSAGE], *small;
static uint8_t key[255], names[510];
static uint64_t words[12], told[4], number;
static size_t size, base;
static int failed;
static ucontext_t here, there;

/* Two keys of the longest name are held, and a request for this mode is open. */
static void prepare(size_t mode) {
    uint64_t asking = mode == RENEWAL ? 2 : 3;
    uint64_t state[12] = {2, sizeof key, 512, 0, 1, sizeof key, 512, 0, 1, asking, ID, 0};
    memcpy(words, state, sizeof words);
    memcpy(names, key, sizeof key), memcpy(names + sizeof key, key, sizeof key);
    memset(told, 0, sizeof told);
    number = 99;
}

static void nothing(void) { number = 0; }
static void hold(void) { number = luffcringle_resolver_hold(words, names, key, sizeof key, 512, 0, 1); }
static void renewal(void) {
    static const uint8_t record[] = {0, 0, 25, 0, 255, 0, 0, 0, 0, 0, 4, 2, 0, 3, 1};
    number = luffcringle_resolver_renewal(words, names, ID, NULL, 0, 512, 0, 1, record, sizeof record, out, sizeof out, told);
}
static void adoption(void) { number = luffcringle_resolver_adoption(words, names, ID, out, sizeof out, told); }
static void deletion(void) { number = luffcringle_resolver_deletion(words, names, ID, out, sizeof out, told); }
static void note(void) { luffcringle_resolver_note(words, names, ID), number = 0; }
static void reply(void) { number = luffcringle_resolver_reply(words, names, true, message, size, told); }

/* The signing calls: those that read take the reply, those that write take what is left of it without its TSIG. */
static uint8_t bare[MESSAGE], digest[2 * MESSAGE], owner[255], hash[255];
static const uint8_t sha512[] = "\13hmac-sha512", mac[64];
static uint64_t bare_size, written, fields[10];

static void read_tsig(void) { number = luffcringle_read_tsig(message, size, owner, hash, fields); }
static void take_off(void) { number = luffcringle_remove(message, size, bare, sizeof bare, &bare_size); }
static void received_request(void) { number = luffcringle_received_request(message, size, digest, sizeof digest, &written); }
static void received_reply(void) { number = luffcringle_received_reply(mac, sizeof mac, message, size, digest, sizeof digest, &written); }
static void received_later(void) {
    number = luffcringle_received_later(mac, sizeof mac, message, 100, message, size, digest, sizeof digest, &written);
}
static void digest_request(void) {
    number = luffcringle_digest_request(bare, bare_size, key, sizeof key, sha512, sizeof sha512, 1, 2, 3, 4, mac, 6, digest, sizeof digest, &written);
}
static void digest_reply(void) {
    number = luffcringle_digest_reply(mac, sizeof mac, bare, bare_size, key, sizeof key, sha512, sizeof sha512, 1, 2, 3, 4, mac, 6, digest, sizeof digest,
                                      &written);
}
static void digest_later(void) {
    number = luffcringle_digest_later(mac, sizeof mac, message, 100, bare, bare_size, 1, 2, 3, digest, sizeof digest, &written);
}
static void finish_it(void) {
    number = luffcringle_finish(bare, bare_size, sha512, sizeof sha512, sha512, sizeof sha512, 1, 2, 3, 4, mac, 32, mac, 6, digest, sizeof digest, &written);
}
static void (*const signing[])(void) = {read_tsig,      take_off,     received_request, received_reply, received_later,
                                        digest_request, digest_reply, digest_later,     finish_it};
enum { SIGNING = sizeof signing / sizeof *signing };
static const char *const signing_calls[SIGNING] = {"read a TSIG",       "remove it",         "digest of a request that came", "of a reply", "of a later message",
                                                   "digest of a request", "of a reply", "of a later message",            "the finished message"};

static void run(void (*call)(void), uint8_t *bottom, size_t octets) {
    getcontext(&there);
    there.uc_stack.ss_sp = bottom;
    there.uc_stack.ss_size = octets;
    there.uc_link = &here;
    makecontext(&there, call, 0);
    swapcontext(&here, &there);
}

static size_t taken(void (*call)(void)) {
    memset(stack, FILL, STACK);
    run(call, stack, STACK);
    size_t untouched = 0;
    while (untouched < STACK && stack[untouched] == FILL) untouched++;
    return STACK - untouched;
}

/* Whether the call did its work: a reply to a renewal offers another key and brings the key data, one to an adoption leaves one key; a request is written, and
 * the adopted key is to sign it. */
static bool worked(void (*call)(void), size_t mode) {
    if (number != 0) return false;
    for (size_t i = 0; i < SIGNING; i++)
        if (call == signing[i]) return true;
    if (call == hold) return words[0] == 1 && words[9] == 0;
    if (call == note) return words[9] == 1 && words[10] == ID;
    if (call != reply) return told[0] != 0 && told[1] == 1;
    if (mode == ADOPTION) return words[0] == 1 && words[9] == 0 && told[1] == 0;
    if (memcmp(names + sizeof key, key, sizeof key) == 0 || told[1] != 1 || told[3] != DATA) return false;
    for (int i = 0; i < DATA; i++)
        if (message[told[2] + (size_t)i] != 'k') return false;
    return true;
}

static void show(const char *what, void (*call)(void), size_t mode) {
    prepare(mode);
    size_t all = taken(call);
    printf("%-64s %6zu octets, number %llu\n", what, all - base, (unsigned long long)number);
    fflush(stdout);
    bool ok = all <= LIMIT && worked(call, mode);
    if (ok) prepare(mode), run(call, small, LIMIT);
    if (!ok || !worked(call, mode)) failed = 1;
}

static void put(int octet) { message[size++] = (uint8_t)octet; }
static void put16(size_t n) { put((int)(n / 256)), put((int)(n % 256)); }
static void head(size_t answers) { size = 0, put16(4660), put16(0x8000), put16(0), put16(answers), put16(0), put16(1); }
static void front(size_t type, size_t length) { put16(type), put16(255), put16(0), put16(0), put16(length); }
static void algorithm(void) { memcpy(message + size, "\13hmac-sha512", 13), size += 13; }
static void point(size_t place) { put16(0xc000 + place); }

/* The answer of a mode, with its key data, and the signature, their owner names at `place`: TAIL octets. */
enum { TAIL = 138 + DATA };
static void finish(size_t place, size_t mode) {
    point(place), front(249, 29 + DATA), algorithm(), put16(0), put16(0), put16(0), put16(1), put16(mode), put16(0), put16(DATA);
    for (int i = 0; i < DATA; i++) put('k');
    put16(0);
    point(place), front(250, 61), algorithm(), put16(0), put16(0), put16(1000), put16(300), put16(32);
    for (int i = 0; i < 32; i++) put(170);
    put16(4660), put16(0), put16(0);
}

/* A record of other octets first, with the root's name. */
static void usual(size_t mode) { head(2), put(0), front(16, 1), put(0), finish(23, mode); }

/* Names of 127 runs of a label and a pointer: the deepest. */
static void deepest(size_t mode) {
    head(2), put(0), front(16, 3 + 126 * 4);
    size_t before = size;
    put(1), put('a'), put(0);
    for (int i = 0; i < 126; i++) {
        size_t run_at = size;
        put(1), put('a'), point(before);
        before = run_at;
    }
    finish(before, mode);
}

/* A message of 65,535 octets whose names stand at the end of 8,186 pointers, as many as 14 bits let one after the other be: they begin behind the root's
 * name of the first record, whose type, class, TTL and length are pointers too. A second record fills the rest. */
static void chain(size_t mode) {
    head(3), put(0);
    size_t before = size - 1, end = 23;
    while (size < 16385) {
        size_t pointer_at = size;
        point(before);
        before = pointer_at;
        if (size == end) end += 256 * (size_t)message[21] + message[22];
    }
    while (size < end) put(0);
    size_t rest = MESSAGE - TAIL - size - 11;
    put(0), front(16, rest);
    while (rest-- > 0) put(0);
    finish(before, mode);
}

int main(void) {
    size_t page = (size_t)sysconf(_SC_PAGESIZE);
    uint8_t *all = mmap(NULL, page + LIMIT, PROT_READ | PROT_WRITE, MAP_PRIVATE | MAP_ANONYMOUS, -1, 0);
    if (all == MAP_FAILED || mprotect(all, page, PROT_NONE) != 0) return perror("mmap"), 2;
    small = all + page;
    base = taken(nothing);
    printf("%-64s %6zu octets\n", "(makecontext)", base);
    /* The longest name: 127 labels of one octet, each with the value 1. */
    memset(key, 1, 254);
    show("hold a key", hold, RENEWAL);
    show("write a renewal", renewal, RENEWAL);
    show("write an adoption", adoption, RENEWAL);
    show("write a deletion", deletion, RENEWAL);
    show("note an ID", note, RENEWAL);
    usual(RENEWAL), show("read a reply that offers a key", reply, RENEWAL);
    deepest(RENEWAL), show("the same, its names of 127 runs of a label and a pointer", reply, RENEWAL);
    chain(RENEWAL), show("the same, 65,535 octets, its names at the end of 8,186 pointers", reply, RENEWAL);
    usual(ADOPTION), show("read a reply that adopts", reply, ADOPTION);
    deepest(ADOPTION), show("the same, its names of 127 runs of a label and a pointer", reply, ADOPTION);
    chain(ADOPTION), show("the same, 65,535 octets, its names at the end of 8,186 pointers", reply, ADOPTION);
    static void (*const made[])(size_t) = {usual, deepest, chain};
    static const char *const messages[] = {"a reply:", "its names of 127 runs of a label and a pointer:", "65,535 octets, its names at the end of 8,186 pointers:"};
    for (size_t i = 0; i < 3; i++) {
        puts(messages[i]), made[i](RENEWAL);
        for (size_t k = 0; k < SIGNING; k++) show(signing_calls[k], signing[k], RENEWAL);
    }
    puts(failed ? "more than 8 KiB, or a call that did not do its work" : "each within 8 KiB, makecontext's octets included");
    return failed;
}
