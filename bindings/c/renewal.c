/* A key's renewal from end to end, both halves in one program: the office writes and signs a renewal, the server verifies it, asks the table, signs the reply,
 * the office reads it; then the same for the adoption. An example for C and C++ users, and a test of the installed files:
 *
 *   cc bindings/c/renewal.c $(pkg-config --cflags --libs luffcringle) -o renewal && ./renewal
 *
 * In the place of HMAC stands a sum that keeps nothing secret: use your crypto library's, and compare MACs in constant time. */
#include <inttypes.h>
#include <stdio.h>
#include <stdlib.h>
#include <string.h>

#include "luffcringle.h"

enum { MOST = 1024, MAC = 32, NOW = 100000 };

struct octets {
    uint8_t octet[MOST];
    size_t length;
};

static const uint8_t suffix[] = "\1a\7example", key_1[] = "\1""1\1a\7example", sha256[] = "\13hmac-sha256";
/* The office's KEY record: the root, type 25, class IN, TTL 0, and data that stands for a public key. */
static const uint8_t record[] = {0, 0, 25, 0, 1, 0, 0, 0, 0, 0, 3, 'k', 'e', 'y'};

static void must(bool holds, const char *what) {
    if (!holds) {
        fprintf(stderr, "renewal: %s\n", what);
        exit(1);
    }
}

/* A stand-in for HMAC-SHA256. */
static void toy_mac(const char *secret, const uint8_t *digest, size_t length, uint8_t mac[MAC]) {
    uint64_t sum = 14695981039346656037u;
    for (const char *c = secret; *c; c++)
        sum = (sum ^ (uint8_t)*c) * 1099511628211u;
    for (size_t i = 0; i < length; i++)
        sum = (sum ^ digest[i]) * 1099511628211u;
    for (int i = 0; i < MAC; i++)
        mac[i] = (uint8_t)(sum >> 8 * (i % 8));
}

/* Signs a request, or a reply to a request with this MAC; its own MAC is left in `mac`. */
static void sign(struct octets *m, const char *secret, const uint8_t *name, size_t name_length, const uint8_t *request_mac, uint8_t mac[MAC]) {
    static uint8_t digest[2 * MOST], finished[MOST];
    uint64_t written, number;
    uint16_t id = (uint16_t)(m->octet[0] << 8 | m->octet[1]);
    if (request_mac)
        number = luffcringle_digest_reply(request_mac, MAC, m->octet, m->length, name, name_length, sha256, sizeof sha256, NOW, 300, id, 0, suffix, 0,
                                          digest, sizeof digest, &written);
    else
        number = luffcringle_digest_request(m->octet, m->length, name, name_length, sha256, sizeof sha256, NOW, 300, id, 0, suffix, 0, digest,
                                            sizeof digest, &written);
    must(number == LUFFCRINGLE_DONE, "there is a digest");
    toy_mac(secret, digest, written, mac);
    number = luffcringle_finish(m->octet, m->length, name, name_length, sha256, sizeof sha256, NOW, 300, id, 0, mac, MAC, suffix, 0, finished,
                                sizeof finished, &written);
    must(number == LUFFCRINGLE_DONE, "the message is finished");
    memcpy(m->octet, finished, written);
    m->length = written;
}

/* Whether the MAC of a message that came is right; the MAC itself is left in `mac`. */
static bool verify(const struct octets *m, const char *secret, const uint8_t *request_mac, uint8_t mac[MAC]) {
    static uint8_t digest[2 * MOST];
    uint8_t name[LUFFCRINGLE_NAME_OCTETS], algorithm[LUFFCRINGLE_NAME_OCTETS], right[MAC];
    uint64_t fields[LUFFCRINGLE_TSIG_WORDS], written, number;
    if (luffcringle_read_tsig(m->octet, m->length, name, algorithm, fields) || fields[LUFFCRINGLE_TSIG_MAC_SIZE] != MAC)
        return false;
    number = request_mac ? luffcringle_received_reply(request_mac, MAC, m->octet, m->length, digest, sizeof digest, &written)
                         : luffcringle_received_request(m->octet, m->length, digest, sizeof digest, &written);
    must(number == LUFFCRINGLE_DONE, "there is a digest of what came");
    memcpy(mac, m->octet + fields[LUFFCRINGLE_TSIG_MAC], MAC);
    toy_mac(secret, digest, written, right);
    return memcmp(mac, right, MAC) == 0;
}

static struct luffcringle_table table;
static struct luffcringle_resolver office;

/* The server: verifies a request, judges it, and signs the reply. Prints what became of the pair's keys. */
static void serve(struct octets *m, const char *secret, const char *offer) {
    uint64_t found[LUFFCRINGLE_ANSWER_WORDS], answer[LUFFCRINGLE_ANSWER_WORDS], asked[LUFFCRINGLE_ASKED_WORDS];
    uint64_t before[LUFFCRINGLE_PAIR_WORDS], after[LUFFCRINGLE_PAIR_WORDS], moves[LUFFCRINGLE_MOVES_WORDS], length;
    uint8_t mac[MAC], reply_mac[MAC], name[LUFFCRINGLE_KEY_NAME_OCTETS];
    struct octets reply;
    must(luffcringle_look(table.words, table.suffixes, m->octet, m->length, found) == LUFFCRINGLE_DONE && found[LUFFCRINGLE_PAIR], "the key is known");
    must(luffcringle_asks(m->octet, m->length, asked) == LUFFCRINGLE_DONE, "it is a request");
    printf("server: mode %" PRIu64 ", KEY data of %" PRIu64 " octets\n", asked[LUFFCRINGLE_ASKED_MODE], asked[LUFFCRINGLE_ASKED_KEY_SIZE]);
    bool good = verify(m, secret, NULL, mac);
    luffcringle_pair(table.words, table.suffixes, found[LUFFCRINGLE_PAIR], before);
    must(luffcringle_message(table.words, table.suffixes, NOW, good, m->octet, m->length, (const uint8_t *)offer, strlen(offer), false, record, 0,
                             reply.octet, MOST, answer) == LUFFCRINGLE_DONE, "it is judged");
    reply.length = answer[LUFFCRINGLE_LENGTH];
    must(reply.length && !answer[LUFFCRINGLE_ERROR], "it is answered");
    luffcringle_pair(table.words, table.suffixes, found[LUFFCRINGLE_PAIR], after);
    luffcringle_moves(before, after, moves);
    printf("server: made %" PRIu64 ", adopted %" PRIu64 ", ended %" PRIu64 ", dropped %" PRIu64 "\n", moves[LUFFCRINGLE_MADE], moves[LUFFCRINGLE_ADOPTED],
           moves[LUFFCRINGLE_ENDED], moves[LUFFCRINGLE_DROPPED]);
    /* The reply is signed by the key that signed the request. */
    must(luffcringle_key_name(table.words, table.suffixes, answer[LUFFCRINGLE_PAIR], answer[LUFFCRINGLE_SERIAL], name, sizeof name, &length) ==
             LUFFCRINGLE_DONE, "the key has a name");
    sign(&reply, secret, name, length, mac, reply_mac);
    *m = reply;
}

int main(void) {
    const char *secret = "the old secret";
    uint64_t answer[LUFFCRINGLE_ANSWER_WORDS], sending[LUFFCRINGLE_SENDING_WORDS], heard[LUFFCRINGLE_HEARD_WORDS];
    uint8_t mac[MAC], reply_mac[MAC];
    struct octets m;
    must(luffcringle_version() == LUFFCRINGLE_VERSION, "header and archive are of one version");

    /* The operator enrols the office, and hands it its first secret. */
    luffcringle_new_table(table.words, table.suffixes, NOW - 500, answer);
    must(luffcringle_enrol(table.words, table.suffixes, NOW - 500, suffix, sizeof suffix, 600, 400, 256, answer) == LUFFCRINGLE_DONE, "it is enrolled");
    must(luffcringle_resolver_hold(office.words, office.names, key_1, sizeof key_1, 256, 0, 0) == 0, "the office holds its key");

    /* Its key is no longer fresh: it asks for a new one. */
    must(luffcringle_resolver_renewal(office.words, office.names, 0x1234, suffix, 0, 256, NOW, NOW + 600, record, sizeof record, m.octet, MOST, sending) == 0 &&
             sending[LUFFCRINGLE_SENDING_SIGNER] == 1, "a renewal is written");
    m.length = sending[LUFFCRINGLE_SENDING_LENGTH];
    sign(&m, secret, key_1, sizeof key_1, NULL, mac);
    serve(&m, secret, "the new secret, encrypted");
    bool good = verify(&m, secret, mac, reply_mac);
    must(luffcringle_resolver_reply(office.words, office.names, good, m.octet, m.length, heard) == 0 && heard[LUFFCRINGLE_HEARD_GRANTED], "it is granted");
    printf("office: granted, %.*s\n", (int)heard[LUFFCRINGLE_HEARD_DATA_SIZE], (const char *)m.octet + heard[LUFFCRINGLE_HEARD_DATA]);

    /* It adopts the new key. */
    must(luffcringle_resolver_adoption(office.words, office.names, 0x1235, m.octet, MOST, sending) == 0, "an adoption is written");
    m.length = sending[LUFFCRINGLE_SENDING_LENGTH];
    sign(&m, secret, key_1, sizeof key_1, NULL, mac);
    serve(&m, secret, "");
    good = verify(&m, secret, mac, reply_mac);
    must(luffcringle_resolver_reply(office.words, office.names, good, m.octet, m.length, heard) == 0 && office.words[0] == 1, "it is adopted");
    printf("office: adopted, key name of %" PRIu64 " octets\n", office.words[1]);
    return 0;
}
