/* One message through C, beside what others take to parse the same message and what its MAC costs: an order of magnitude (docs/PERFORMANCE.md).
 *
 *   beside HEX      a signed update of the pair 00-office.example., as `queue message` prints it
 *
 * With -DKNOT, -DLDNS and -DCRYPTO: libknot's and ldns's parse, and libcrypto's HMAC-SHA256 of as many octets. All take turns; each turn is 16 calls. */
#include "luffcringle.h"
#include <stdio.h>
#include <stdlib.h>
#include <string.h>
#include <time.h>
#ifdef KNOT
#include <libknot/libknot.h>
#endif
#ifdef LDNS
#include <ldns/ldns.h>
#endif
#ifdef CRYPTO
#include <openssl/evp.h>
#include <openssl/hmac.h>
#endif

enum { TURNS = 2001, CALLS = 16, NOW = 1000000 };

static struct luffcringle_table table;
static uint8_t message[65535];
static size_t length;
static volatile unsigned kept;

static void wrong(const char *what) {
    fprintf(stderr, "beside: %s\n", what);
    exit(1);
}

static void call_message(void) {
    uint64_t answer[LUFFCRINGLE_ANSWER_WORDS];
    static uint8_t reply[512];
    if (luffcringle_message(table.words, table.suffixes, NOW, true, message, length, message, 0, false, message, 0, reply, sizeof reply, answer) != 0 ||
        answer[LUFFCRINGLE_SERIAL] != 1)
        wrong("the message is not passed up");
}

static void call_look(void) {
    uint64_t answer[LUFFCRINGLE_ANSWER_WORDS];
    if (luffcringle_look(table.words, table.suffixes, message, length, answer) != 0 || answer[LUFFCRINGLE_SERIAL] != 1)
        wrong("the key is not found");
}

#ifdef KNOT
/* It takes the TSIG off the message that it parses, so it gets a copy. */
static void call_knot(void) {
    static uint8_t copy[sizeof message];
    memcpy(copy, message, length);
    knot_pkt_t *packet = knot_pkt_new(copy, length, NULL);
    if (packet == NULL || knot_pkt_parse(packet, 0) != KNOT_EOK)
        wrong("libknot does not parse the message");
    kept += packet->rrset_count;
    knot_pkt_free(packet);
}
#endif

#ifdef LDNS
static void call_ldns(void) {
    ldns_pkt *packet;
    if (ldns_wire2pkt(&packet, message, length) != LDNS_STATUS_OK)
        wrong("ldns does not parse the message");
    kept += ldns_pkt_arcount(packet);
    ldns_pkt_free(packet);
}
#endif

#ifdef CRYPTO
static void call_hmac(void) {
    static const uint8_t secret[32] = "0123456789abcdef0123456789abcde";
    uint8_t mac[EVP_MAX_MD_SIZE];
    unsigned size;
    if (HMAC(EVP_sha256(), secret, sizeof secret, message, length, mac, &size) == NULL)
        wrong("no HMAC-SHA256");
    kept += mac[0];
}
#endif

static const struct {
    const char *what;
    void (*call)(void);
} sides[] = {
    {"luffcringle_message, 64 pairs", call_message},
    {"luffcringle_look, 64 pairs", call_look},
#ifdef KNOT
    {"libknot: knot_pkt_parse, with its packet made and freed", call_knot},
#endif
#ifdef LDNS
    {"ldns: ldns_wire2pkt, with its packet freed", call_ldns},
#endif
#ifdef CRYPTO
    {"libcrypto: HMAC-SHA256 of as many octets", call_hmac},
#endif
};
enum { SIDES = sizeof sides / sizeof *sides };

static double times[SIDES][TURNS];

static double now(void) {
    struct timespec time;
    clock_gettime(CLOCK_MONOTONIC, &time);
    return 1e9 * (double)time.tv_sec + (double)time.tv_nsec;
}

static int by_time(const void *one, const void *other) {
    double difference = *(const double *)one - *(const double *)other;
    return (difference > 0) - (difference < 0);
}

static void make_table(void) {
    uint64_t answer[LUFFCRINGLE_ANSWER_WORDS];
    luffcringle_new_table(table.words, table.suffixes, NOW, answer);
    for (int number = 63; number >= 0; number--) {
        char suffix[32];
        int octets = snprintf(suffix, sizeof suffix, "%c%02d-office%cexample", 9, number, 7) + 1;
        if (luffcringle_enrol(table.words, table.suffixes, NOW, (const uint8_t *)suffix, (size_t)octets, 86400, 43200, 256, answer) != 0)
            wrong("no table");
    }
}

int main(int count, char **words) {
    if (count != 2)
        wrong("usage: beside HEX");
    for (const char *digit = words[1]; digit[0] && digit[1]; digit += 2) {
        unsigned octet;
        if (length == sizeof message || sscanf(digit, "%2x", &octet) != 1)
            wrong("no message");
        message[length++] = (uint8_t)octet;
    }
    make_table();
    for (int turn = -TURNS / 10; turn < TURNS; turn++)
        for (int side = 0; side < SIDES; side++) {
            double from = now();
            for (int call = 0; call < CALLS; call++)
                sides[side].call();
            times[side][turn < 0 ? 0 : turn] = (now() - from) / CALLS;
        }
    printf("| one message of %zu octets, through C | median | quartiles |\n|---|---|---|\n", length);
    for (int side = 0; side < SIDES; side++) {
        qsort(times[side], TURNS, sizeof(double), by_time);
        printf("| %s | %.0f ns | %.0f–%.0f ns |\n", sides[side].what, times[side][TURNS / 2], times[side][TURNS / 4], times[side][3 * TURNS / 4]);
    }
    return 0;
}
