/* What a router links: the office's archive alone (pkg-config luffcringle-office). It writes the deletion of its key into a buffer on the stack. */
#include <stdio.h>

#include "luffcringle.h"

int main(void) {
    struct luffcringle_resolver office = {{0}, {0}};
    static const uint8_t name[] = "\1""1\1a\7example";
    uint8_t request[128];
    uint64_t sending[LUFFCRINGLE_SENDING_WORDS];
    if (luffcringle_resolver_hold(office.words, office.names, name, sizeof name, 512, 0, 0) != LUFFCRINGLE_RESOLVER_DONE)
        return 1;
    if (luffcringle_resolver_deletion(office.words, office.names, 7, request, sizeof request, sending) != LUFFCRINGLE_RESOLVER_DONE)
        return 1;
    printf("%d octets, version %d\n", (int)sending[LUFFCRINGLE_SENDING_LENGTH], (int)luffcringle_version());
    return 0;
}
