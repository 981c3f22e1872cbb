/* The octets under the MACs of received messages, for a script to calculate the MACs over (tests/transfers.py). A line of standard input is
 *
 *   reply REQUESTMAC MESSAGE            the digest of a reply
 *   later PRIORMAC BEFORE MESSAGE       the digest of a later message of a stream
 *
 * in hexadecimal, `-` for no octets. A line of output has the digest, a space and the message's own MAC; a message without a TSIG gives `-`.
 *
 *   gcc -std=c11 -Iinclude bindings/c/digests.c target/staticlib/libluffcringle.a -o digests */
#include <inttypes.h>
#include <stdio.h>
#include <stdlib.h>
#include <string.h>

#include "luffcringle.h"

enum { MOST = 200000 };

struct octets {
    uint8_t octet[MOST];
    size_t length;
};

static struct octets mac, before, message;
static char line[4 * MOST];

/* The next word as octets; the program ends where there is none. */
static void take(struct octets *o) {
    const char *word = strtok(NULL, " \n");
    unsigned octet;
    if (!word || strlen(word) > 2 * MOST) {
        fprintf(stderr, "digests: a word is missing or too long\n");
        exit(1);
    }
    for (o->length = 0; sscanf(word + 2 * o->length, "%2x", &octet) == 1; o->length++)
        o->octet[o->length] = (uint8_t)octet;
}

static void print(const uint8_t *octets, size_t length) {
    for (size_t i = 0; i < length; i++)
        printf("%02x", octets[i]);
}

int main(void) {
    static uint8_t digest[2 * MOST];
    while (fgets(line, sizeof line, stdin)) {
        uint8_t name[LUFFCRINGLE_NAME_OCTETS], algorithm[LUFFCRINGLE_NAME_OCTETS];
        uint64_t number, written, fields[LUFFCRINGLE_TSIG_WORDS];
        const char *call = strtok(line, " \n");
        bool is_later = call && strcmp(call, "later") == 0;
        take(&mac);
        if (is_later)
            take(&before);
        take(&message);
        if (is_later)
            number = luffcringle_received_later(mac.octet, mac.length, before.octet, before.length, message.octet, message.length, digest, sizeof digest,
                                                &written);
        else
            number = luffcringle_received_reply(mac.octet, mac.length, message.octet, message.length, digest, sizeof digest, &written);
        if (number == LUFFCRINGLE_DONE)
            number = luffcringle_read_tsig(message.octet, message.length, name, algorithm, fields);
        if (number != LUFFCRINGLE_DONE) {
            printf("-\n");
        } else {
            print(digest, written);
            printf(" ");
            print(message.octet + fields[LUFFCRINGLE_TSIG_MAC], fields[LUFFCRINGLE_TSIG_MAC_SIZE]);
            printf("\n");
        }
        fflush(stdout);
    }
    return 0;
}
