/* Luffcringle: the key table of a DNS server, what is under a TSIG's MAC, and the resolver's half of a key's renewal, for C and C++. Three parts:
 *
 *   the table      luffcringle_new_table .. luffcringle_batch; the table as text; inquiries into it; what a TKEY request asks for
 *   signatures     the octets that a MAC is calculated over, a TSIG appended, read and removed: for whoever calculates MACs
 *   the resolver   luffcringle_resolver_*: an office's program or router that renews its key
 *
 * `make install` installs this header, libluffcringle.a with all of it and libluffcringle-office.a with the last two parts alone, a file for pkg-config
 * for each (luffcringle, luffcringle-office), and the program luffcringle-listing, which tests and mends the table as text. Nothing else is needed to link
 * the archives: no call allocates, waits, reads a file or a clock, or keeps anything.
 *
 * Every function is proved, and takes every value of every argument; docs/ARCHITECTURE.md says where its contract stands.
 *
 * Pointers, in every part: none is null, also where the length is 0; each leads to as many words or octets as its length, or the size that is declared, says,
 * aligned for its type; what is written (what is not const) overlaps nothing else that is lent. That is the caller's to keep: no call can test it.
 *
 * Names are wire names (RFC 1035, 3.1): uncompressed, each label after its length, the root's 0 last; at most 255 octets. Times are seconds since 1970. */
#ifndef LUFFCRINGLE_H
#define LUFFCRINGLE_H

#include <stdbool.h>
#include <stddef.h>
#include <stdint.h>

#ifdef __cplusplus
extern "C" {
#endif

/* The version of this header, and of the archive that is linked: 10,000 times the first number, 100 times the second, and the third. */
#define LUFFCRINGLE_VERSION 500
uint64_t luffcringle_version(void);

/* ---- The table ---- */

/* What a call on the table, an inquiry or a signing call returns (document 01, "Numbers a caller sees"; the last four are of document 02). */
enum luffcringle_number {
    LUFFCRINGLE_DONE = 0,      /* work done */
    LUFFCRINGLE_TABLE = 1,     /* what was lent holds no table, or one that breaks a table rule */
    LUFFCRINGLE_TIME = 2,      /* time is 2^48 - 2^31 or more; signing: time signed is 2^48 or more */
    LUFFCRINGLE_CLOCK = 3,     /* time is before the table's clock */
    LUFFCRINGLE_SIZE = 4,      /* message shorter than 12 or longer than 65535 octets */
    LUFFCRINGLE_OFFER = 5,     /* offered key data over 1024 octets */
    LUFFCRINGLE_FORMAT = 6,    /* message breaks a reading rule, at the place that the answer gives (signing calls give none) */
    LUFFCRINGLE_NOTQUERY = 7,  /* QR bit is 1 */
    LUFFCRINGLE_ROOM = 8,      /* what is to be written is longer than the lent buffer; a reply or a finished message than 65535 octets; mend: more lines are
                                * dropped than can be named */
    LUFFCRINGLE_NOPAIR = 9,    /* pair number not enrolled; no pair with that suffix */
    LUFFCRINGLE_NOKEY = 10,    /* revoke early: no adopted key, or expired; key name: serial 0, or not below the next one */
    LUFFCRINGLE_SPENT = 11,    /* issue: next serial is 2^32; enrol: the floor is */
    LUFFCRINGLE_NAME = 12,     /* suffix is not a wire name of 3 to 128 octets; a key's or an algorithm's name is no wire name */
    LUFFCRINGLE_TERM = 13,     /* enrol: not 1 <= fresh < lifetime <= 2^31 - 1; enrol or issue: algorithm not 256, 384 or 512 */
    LUFFCRINGLE_TWIN = 14,     /* suffix already enrolled */
    LUFFCRINGLE_FULL = 15,     /* 64 pairs enrolled */
    LUFFCRINGLE_MACSIZE = 16,  /* signing: a MAC of over 64 octets */
    LUFFCRINGLE_BATCH = 17,    /* batch: more than 64 items, or one outside the lent octets */
    LUFFCRINGLE_LINE = 18,     /* load and mend: a line of the listing does not read */
    LUFFCRINGLE_KEYREC = 19,   /* a renewal of mode 4097 would be granted, but the lent record is not one KEY record */
    LUFFCRINGLE_DIFFERS = 21   /* compare: another server's reply differs from ours, at the place beside it */
};

/* The table: 1091 words and 8192 octets, which the caller keeps and lends to each call. A call reads and changes it where it lies.
 *
 *   word          holds
 *   0             the clock
 *   1             the count of pairs
 *   2             the floor: the largest next serial of any pair that was closed, 1 in a new table
 *   3 + n         the place of pair number n + 1
 *   67 + 16 q ..  at the place q, for each q below the count:
 *     + 0         the pair that lies here: its number less 1
 *     + 1         the length of its suffix
 *     + 2 .. 4    its lifetime, its fresh period and its next serial
 *     + 5         its keys: 0 none, 1 an adopted key, 2 an adopted and a waiting key
 *     + 6 .. 10   the adopted key: serial, algorithm (256, 384 or 512), inception, partial, expiry
 *     + 11 .. 15  the waiting key, likewise
 *
 * Its suffix lies in the octets from 128 q on.
 *
 * The layout rule: the count is at most 64; for each n below it, word 3 + n is a place below the count whose word + 0 is n; each suffix has 3 to 128
 * octets and comes after that of the place before, octet by octet with A to Z as a to z; word + 5 is 0, 1 or 2; the keys that there are have a known
 * algorithm. What breaks this rule holds no table and is refused with TABLE, and so is a table that breaks a table rule of document 01, or whose
 * floor is not 1 to 2^32 (document 02). In a table that was stored before version 0.3.0, set word 2 to 1.
 *
 * Words 3 + n and places from the count on, the words of a key that there is not, and the octets after a suffix have no meaning: they may
 * hold anything and change no answer. So two tables that list alike need not be equal word for word. A table may be stored as text (below), or as it
 * is, its words in the machine's byte order, and lent again later. */
#define LUFFCRINGLE_TABLE_WORDS 1091
#define LUFFCRINGLE_TABLE_OCTETS 8192
struct luffcringle_table {
    uint64_t words[LUFFCRINGLE_TABLE_WORDS];
    uint8_t suffixes[LUFFCRINGLE_TABLE_OCTETS];
};

/* The answer: seven words, which every call writes, a batch for each item. A refusal writes its number, FORMAT its place, and 0 in all others.
 *
 * The place tells an operator where to open the message: it is the octet, from 0, that first breaks a rule in the order of reading, or the first that
 * is left over, or the message's length where an octet is missing. Of a pointer with a forbidden target it is the pointer's first octet; of a name too
 * long, the length octet of the label that takes it, its final 0 counted, past 255. Behind a pointer it can be lower than octets read before. */
#define LUFFCRINGLE_ANSWER_WORDS 7
enum luffcringle_answer {
    LUFFCRINGLE_NUMBER = 0,  /* as returned; of a batch's item, what luffcringle_message would have returned */
    LUFFCRINGLE_LENGTH = 1,  /* octets of the reply; 0 where there is none */
    LUFFCRINGLE_ERROR = 2,   /* the TSIG error of the reply; 0 where there is none */
    LUFFCRINGLE_SKEW = 3,    /* time signed minus time, of a message that is passed up: cast to int64_t (two's complement) */
    LUFFCRINGLE_PAIR = 4,    /* the pair of the key that signed, was made, revoked or found; 0 where there is none */
    LUFFCRINGLE_SERIAL = 5,  /* that key's serial */
    LUFFCRINGLE_PLACE = 6    /* where reading failed, beside FORMAT; else 0 */
};

/* What every call keeps to:
 * - It is refused for the first reason that applies, in the order in which its refusals are listed.
 * - TABLE leaves every word and every octet of the table, and so does BATCH. So does every other refusal, but for the clock (word 0), which it sets
 *   where TABLE, TIME and CLOCK passed. A refusal leaves every octet of the reply buffer.
 * - An issue, a revoke or a message that is done changes the clock and the words + 2 .. 15 of its own pair, those without meaning included, and no
 *   other word. A message's own pair is the one whose suffix follows the first label of its TSIG's name; it may have none. A batch changes what its
 *   messages change. Enrol moves pairs to other places; their numbers stay. Close moves pairs to other places, and the later ones one number down.
 * - After every call, done or refused, what was lent holds exactly the table that the call left.
 * - A call reads and writes only what it is lent, keeps nothing and allocates nothing. Two threads may call at the same time, but not on one table:
 *   a call may not write a table that another call reads or writes. Two looks may share one.
 * - MACs, secrets and key data are the caller's. */

/* New table: no pairs, its clock the time given, whatever was lent. Refused with TIME, which leaves every word. */
uint64_t luffcringle_new_table(uint64_t words[LUFFCRINGLE_TABLE_WORDS], const uint8_t suffixes[LUFFCRINGLE_TABLE_OCTETS], uint64_t time,
                               uint64_t answer[LUFFCRINGLE_ANSWER_WORDS]);

/* Enrol: adds a pair (suffix: an uncompressed wire name) with its first key, whose serial is the floor (1 unless a pair was closed), and answers the pair's
 * number and that serial. Refused with TABLE, TIME, CLOCK, NAME, TERM, TWIN, FULL, SPENT. */
uint64_t luffcringle_enrol(uint64_t words[LUFFCRINGLE_TABLE_WORDS], uint8_t suffixes[LUFFCRINGLE_TABLE_OCTETS], uint64_t time,
                           const uint8_t *suffix, size_t suffix_length, uint64_t lifetime, uint64_t fresh, uint64_t algorithm,
                           uint64_t answer[LUFFCRINGLE_ANSWER_WORDS]);

/* Close: the pair goes with its keys. Later pairs move down one number: number them anew, and keep nothing by number. The floor rises to the pair's
 * next serial, if that is higher, so that no name is made again, also where the suffix comes back, until a table is loaded; closing a pair that has
 * used up its serials makes every later enrolment SPENT. Answers pair 0 and serial 0. Refused with TABLE, TIME, CLOCK, NOPAIR. */
uint64_t luffcringle_close(uint64_t words[LUFFCRINGLE_TABLE_WORDS], uint8_t suffixes[LUFFCRINGLE_TABLE_OCTETS], uint64_t time, uint64_t pair,
                           uint64_t answer[LUFFCRINGLE_ANSWER_WORDS]);

/* Issue: a fresh adopted key with the next serial, in the place of what the pair had; answers the pair and the serial. Refused with TABLE, TIME,
 * CLOCK, NOPAIR, SPENT, TERM. */
uint64_t luffcringle_issue(uint64_t words[LUFFCRINGLE_TABLE_WORDS], const uint8_t suffixes[LUFFCRINGLE_TABLE_OCTETS], uint64_t time,
                           uint64_t pair, uint64_t algorithm, uint64_t answer[LUFFCRINGLE_ANSWER_WORDS]);

/* Revoke early: the partial time of the pair's adopted key becomes the earlier of itself and now; answers the pair and the key's serial. Refused with
 * TABLE, TIME, CLOCK, NOPAIR, NOKEY. */
uint64_t luffcringle_revoke(uint64_t words[LUFFCRINGLE_TABLE_WORDS], const uint8_t suffixes[LUFFCRINGLE_TABLE_OCTETS], uint64_t time,
                            uint64_t pair, uint64_t answer[LUFFCRINGLE_ANSWER_WORDS]);

/* Look: the pair and the serial of the adopted key whose name and algorithm the message's TSIG gives, expired or not, else 0 and 0: so the caller
 * knows which secret verifies the MAC, before it calls luffcringle_message. Changes nothing, takes no time. Refused with TABLE, SIZE, FORMAT,
 * NOTQUERY. */
uint64_t luffcringle_look(const uint64_t words[LUFFCRINGLE_TABLE_WORDS], const uint8_t suffixes[LUFFCRINGLE_TABLE_OCTETS], const uint8_t *message,
                          size_t message_length, uint64_t answer[LUFFCRINGLE_ANSWER_WORDS]);

/* Message: judges a message, changes the pair that it belongs to as judging decides, and writes the reply without its TSIG into the first octets of
 * `reply`. `good` is the verdict on the MAC (ignored where there is no TSIG). `offer`, `fits` and `record` are for renewals: key data of 0 to 1024
 * octets, the keying verdict on the request's KEY record, and a KEY record of the server's. Answers the reply's length, the TSIG error, the skew, and
 * the pair and the serial of the key that signed. Refused with TABLE, TIME, CLOCK, SIZE, OFFER, FORMAT, NOTQUERY, KEYREC, ROOM (the reply's length
 * has no TSIG in it: keep room to append one).
 *
 * DONE with length 0: the message is the caller's to answer; signed by that pair and serial, with that skew, or unsigned where pair is 0.
 * DONE with a reply: the caller appends its TSIG (RFC 8945, 5.3.2), by the answer's error and pair and the reply's RCODE:
 *   error   pair    RCODE   TSIG to append
 *   17      0       9       BADKEY: unsigned (a MAC of size 0), with that error
 *   16      not 0   9       BADSIG: unsigned, with that error
 *   18      not 0   9       BADTIME: signed by the request's key, with that error; its time signed is the request's,
 *                           and the server's time is in its other data (RFC 8945, 5.2.3)
 *   3841    not 0   9       PartialRevoke: signed by the request's key, with that error
 *   0       not 0   0       a TKEY outcome: signed by the request's key, with error 0
 *   0       not 0   1       where `good` was true, not one well formed TKEY: signed by the request's key, with error 0;
 *                           where it was false, a MAC of a wrong size: unsigned, with error 0. (A MAC shorter than half of its
 *                           algorithm's output, or longer than all of it, verifies nothing: pass `good` false for it.)
 *   0       0       1, 5    before a key is known: none
 * The request's key is the answer's pair and serial, also where this very message deleted or replaced it: keep its secret until the reply is
 * signed.
 *
 * A renewal is a TKEY request that asks for a new secret in one of three ways (document 002, 2.5), by the mode of its TKEY record. It has one KEY
 * record in its additional section. Look at both before the call, and lend:
 *   mode 4097, Diffie-Hellman. The KEY is the office's public key: `fits` says whether the server has a key of the same group. `offer` is a nonce,
 *     fresh random octets, and `record` the server's own public key as a KEY record. The reply has the nonce as its key data and the record behind its
 *     TKEY. The new secret is worked out from both public keys, the request's key data and the nonce (RFC 2930, 4.1).
 *   mode 4098, server assignment. `offer` is the new secret, encrypted under the KEY: the reply's key data. `fits` and `record` are not looked at.
 *   mode 4099, resolver assignment. The KEY is the server's own: `fits` says whether the server has its private key, and the new secret is what that
 *     makes of the request's key data, which the reply repeats. `offer` is not used and may be empty, though one over 1024 octets is OFFER here too;
 *     `record` is not looked at.
 * A server that does not work the way of 4097 or 4099 passes `fits` false, and one that does not work that of 4098 an empty offer. A KEY that does not
 * fit is answered with TKEY error 17 (BADKEY) in 4097 and 1 in 4099; an empty offer in 4097 and 4098, and a pair with no serial left in all three, with
 * 2. What happens to the keys is the same in all three: only where the reply's TKEY error is 0 is there a new waiting key, whose name is the TKEY's;
 * keep its secret.
 *
 * KEYREC: a renewal of mode 4097 passed everything else, but `record` is not exactly one record of type 25, its owner name uncompressed and its data
 * length that of its data. It comes before ROOM and leaves all but the clock; the fault is the server's, and the message may be lent again with
 * another record. A message that is no renewal looks at none of the three (an offer over 1024 octets is OFFER): pass no octets, false and no octets. */
uint64_t luffcringle_message(uint64_t words[LUFFCRINGLE_TABLE_WORDS], const uint8_t suffixes[LUFFCRINGLE_TABLE_OCTETS], uint64_t time, bool good,
                             const uint8_t *message, size_t message_length, const uint8_t *offer, size_t offer_length, bool fits,
                             const uint8_t *record, size_t record_length, uint8_t *reply, size_t reply_room,
                             uint64_t answer[LUFFCRINGLE_ANSWER_WORDS]);

/* A batch's item: nine words, item i from word 9 i on; its answer is seven, from word 7 i on. */
#define LUFFCRINGLE_MOST_ITEMS 64
#define LUFFCRINGLE_ITEM_WORDS 9
#define LUFFCRINGLE_ITEMS_WORDS 576
#define LUFFCRINGLE_ANSWERS_WORDS 448
enum luffcringle_item {
    LUFFCRINGLE_ITEM_TIME = 0,
    LUFFCRINGLE_ITEM_GOOD = 1,          /* the verdict on the MAC: 1 is good, every other value bad */
    LUFFCRINGLE_ITEM_MESSAGE = 2,       /* where the message stands in the octets: its first place, from 0 */
    LUFFCRINGLE_ITEM_MESSAGE_SIZE = 3,  /* and its length */
    LUFFCRINGLE_ITEM_OFFER = 4,         /* where the offer stands, likewise */
    LUFFCRINGLE_ITEM_OFFER_SIZE = 5,
    LUFFCRINGLE_ITEM_FITS = 6,          /* the keying verdict: 1 where the KEY fits, with every other value it does not */
    LUFFCRINGLE_ITEM_RECORD = 7,        /* where the lent KEY record stands, as the message */
    LUFFCRINGLE_ITEM_RECORD_SIZE = 8
};

/* Batch: up to 64 messages in one call, for a queue. The first `count` items are taken in order, each as luffcringle_message would take it at the
 * item's own time, on the table that the item before left, refused or not. `octets` hold all messages, offers and records; items may share octets,
 * and octets may be in no item. Lend all 64 items and answers always: items from `count` on are not read, and their answers stay as they are.
 *
 * DONE: each item's answer says what luffcringle_message would have answered, a refusal of that item included. The replies lie one after another in
 * `replies`, each as long as its answer says: the first begins at 0, the next where that one ends. An item is lent the room that is left; a refused
 * item takes none, so that a shorter reply may still be written behind one that had no room. There is no room between replies: copy one out to append
 * its TSIG.
 *
 * Refused whole with TABLE, then with BATCH: count is over 64, or a message, an offer or a record is not inside the octets. It is inside where its
 * first place and its length, added without bound, are at most octets_length; so a part of no octets may stand at the end, but not past it. Then no
 * item is judged, and nothing that is lent changes, the clock included.
 *
 * All verdicts are given before the first item is judged: a look before the batch does not find a key that an item of the batch adopts. Leave the
 * messages that such a key signs to the next batch. */
uint64_t luffcringle_batch(uint64_t words[LUFFCRINGLE_TABLE_WORDS], const uint8_t suffixes[LUFFCRINGLE_TABLE_OCTETS], uint64_t count,
                           const uint64_t items[LUFFCRINGLE_ITEMS_WORDS], const uint8_t *octets, size_t octets_length,
                           uint64_t answers[LUFFCRINGLE_ANSWERS_WORDS], uint8_t *replies, size_t replies_room);

/* ---- The table as text (document 02, change request 7) ----
 *
 * A listing is the table as lines of text: what a server keeps on disk, and what an operator can read and edit. Fields are parted by one tab, each line ends
 * with one newline, numbers are decimal without leading zeros. This one has one pair; `>` stands for a tab:
 *
 *   clock>1000>1                                  the clock, and the floor
 *   pair>0161076578616d706c6500>2>600>400         each pair in order: suffix in lower-case hexadecimal, next serial, lifetime, fresh period
 *   key>adopted>1>hmac-sha256>1000>1400>1600      its keys, adopted first: adopted or waiting, serial, algorithm, inception, partial, expiry
 *
 * There is no secret in it. Loading and listing undo each other: what is loaded lists as the same text, and what was listed loads as a table that answers and
 * lists alike, though words without meaning may differ. Two tables list alike just where they hold the same clock, floor and pairs.
 *
 * These calls take no time; the clock after a load is the listing's. They are refused for the first reason that applies, in the order listed, and then nothing
 * that is lent changes, the clock included, but the call's own words (*length, *line, told), which are 0 but for the line beside LINE.
 *
 * A load, and mending counts as one, starts anew what is promised over all calls since the table was made: that no two keys have one name, and that a key
 * that is gone stays gone. Loading an old listing rewinds serials: a name may then be made again that was made before, and keys that were gone are back. So
 * keep a listing after each call that changed the table, before its answer goes out, and load the last one.
 *
 * Stack: a load or a mend takes some 18 KB for the table that it makes before it takes the lent one's place; a list some 1.3 KB. */

/* List: the listing of the table into the first octets of `text`, and their count into *length; the rest keep their contents. LUFFCRINGLE_LISTING_OCTETS
 * are enough for every table. May share a table with looks. Refused with TABLE, ROOM. */
#define LUFFCRINGLE_LISTING_OCTETS (48 + 64 * 541)
uint64_t luffcringle_list(const uint64_t words[LUFFCRINGLE_TABLE_WORDS], const uint8_t suffixes[LUFFCRINGLE_TABLE_OCTETS], uint8_t *text,
                          size_t text_room, uint64_t *length);

/* Load: the table of a listing takes the place of the lent one, whatever that was; *line is 0. Refused with LINE (*line is the first line that does not
 * read, from 1; line 1 of a text without octets), TABLE (the lines read, but the table that they list breaks a table rule; so do more than 64 pairs, and keys of
 * a pair in the wrong number or order).
 *
 * A line reads when it has the shape above, newline included, its numbers below 2^64, its suffix 1 to 128 octets, and it stands where it may: line 1 is the
 * clock's and no other is; a `key` line has a pair's line above it, with nothing but `key` lines between. */
uint64_t luffcringle_load(uint64_t words[LUFFCRINGLE_TABLE_WORDS], uint8_t suffixes[LUFFCRINGLE_TABLE_OCTETS], const uint8_t *text, size_t text_length,
                          uint64_t *line);

/* Mend: what can be kept of a listing takes the place of the lent table. Line 1 is kept as it is; of the pairs, in order, exactly those whose lines all read
 * and that break no table rule with the pairs kept before. Every other line is dropped, and named by two words of `named`, in order: its number, from 1, and
 * the first reason that applies to its pair: LINE one of its lines does not read; TWIN its suffix is already kept; FULL 64 are kept; TABLE it breaks another
 * rule. A `key` line belongs to the nearest other line above, and that starts a pair whether it reads or not; a `key` line that belongs to line 1 is
 * dropped with LINE by itself.
 *
 * `named_words` counts words, two for each line: twice the lines of the text are always enough. Words of `named` behind those written keep their contents.
 *
 * Mending does not raise the floor: where a pair was dropped and its suffix is enrolled again, its names can be made again. To prevent that, write its next
 * serial as the floor into line 1, if that is higher, before mending. Refused with LINE (line 1 does not read), TABLE (line 1 breaks a rule: the clock is
 * 2^48 or more, or the floor not 1 to 2^32), ROOM. */
#define LUFFCRINGLE_MENDING_WORDS 2
enum luffcringle_mending {
    LUFFCRINGLE_MENDING_LINE = 0,    /* the line that does not read, beside LINE: 1; else 0 */
    LUFFCRINGLE_MENDING_DROPPED = 1  /* how many lines were dropped */
};
uint64_t luffcringle_mend(uint64_t words[LUFFCRINGLE_TABLE_WORDS], uint8_t suffixes[LUFFCRINGLE_TABLE_OCTETS], const uint8_t *text, size_t text_length,
                          uint64_t *named, size_t named_words, uint64_t told[LUFFCRINGLE_MENDING_WORDS]);

/* ---- Another server's replies (document 02, change request 12) ---- */

/* Compare: whether the rules of the table allow what another server answered. Given are the listing of a table, all that luffcringle_message takes beside the
 * table and the buffer, and the other server's reply, its TSIG taken off (luffcringle_remove), no octets where it did not answer. Ours is what luffcringle_message
 * writes into 65535 octets on the table of the listing: no octets where it is refused or the message is passed up.
 *
 * DONE: the reply is accepted: it has the meaning of ours, the same header, questions and records in order. Owner and question names, and a TKEY's algorithm,
 * are compared without regard to case, and the first two compressed or not; all else octet for octet, other data too. TSIG errors cannot be seen, as the TSIG is
 * off: compare LUFFCRINGLE_ERROR of a message call with it.
 *
 * Refused with LINE (*place is the line of the listing, from 1), TABLE, DIFFERS at place 0 (just one of the two replies has octets), SIZE (theirs has under 12
 * or over 65535 octets), FORMAT (*place is where reading theirs failed), DIFFERS (*place is the first octet of the first field of theirs that differs, in wire
 * order: ID 0, flags 2, the counts 4, 6, 8 and 10; a question's name, type and class; a record's owner, type, class, TTL, RDLENGTH and data, of a TKEY each field of
 * its data). *place is 0 where nothing is said of it here.
 *
 * Our own reply to more than one question need not read, where a later one's name points into the middle of an earlier one: then no reply is accepted, and one that
 * is equal to ours is FORMAT.
 *
 * `words`, `suffixes` and `reply` are for the work, and hold anything afterwards: lend no table that is in use. */
#define LUFFCRINGLE_REPLY_OCTETS 65535
uint64_t luffcringle_compare(const uint8_t *listing, size_t listing_length, uint64_t time, bool good, const uint8_t *message, size_t message_length,
                             const uint8_t *offer, size_t offer_length, bool fits, const uint8_t *record, size_t record_length, const uint8_t *theirs,
                             size_t theirs_length, uint64_t words[LUFFCRINGLE_TABLE_WORDS], uint8_t suffixes[LUFFCRINGLE_TABLE_OCTETS],
                             uint8_t reply[LUFFCRINGLE_REPLY_OCTETS], uint64_t *place);

/* ---- Inquiries ----
 *
 * They change nothing, take no time, and may share a table with looks. Where one is refused, its words are 0 and its octets stay as they are. */

/* Whether the words and octets that are lent hold a table that keeps every rule: DONE, or TABLE. */
uint64_t luffcringle_test(const uint64_t words[LUFFCRINGLE_TABLE_WORDS], const uint8_t suffixes[LUFFCRINGLE_TABLE_OCTETS]);

/* The pair with this suffix, without regard to case. Refused with TABLE, NOPAIR. */
uint64_t luffcringle_pair_of_suffix(const uint64_t words[LUFFCRINGLE_TABLE_WORDS], const uint8_t suffixes[LUFFCRINGLE_TABLE_OCTETS],
                                    const uint8_t *suffix, size_t suffix_length, uint64_t *pair);

/* The pair that a key's name belongs to: its suffix follows the first label, whatever that label is. Refused with TABLE, NAME, NOPAIR. */
uint64_t luffcringle_pair_of_key(const uint64_t words[LUFFCRINGLE_TABLE_WORDS], const uint8_t suffixes[LUFFCRINGLE_TABLE_OCTETS],
                                 const uint8_t *name, size_t name_length, uint64_t *pair);

/* The name that a key of the pair has by its serial, there or gone: into the first octets of `name`, of which 139 are enough. Refused with TABLE, NOPAIR, NOKEY
 * (serial 0, or not below the pair's next one), ROOM. Keep secrets by this name and not by the pair's number. */
#define LUFFCRINGLE_KEY_NAME_OCTETS 139
uint64_t luffcringle_key_name(const uint64_t words[LUFFCRINGLE_TABLE_WORDS], const uint8_t suffixes[LUFFCRINGLE_TABLE_OCTETS], uint64_t pair,
                              uint64_t serial, uint8_t *name, size_t name_room, uint64_t *name_length);

/* A pair, in the order of the table's words + 2 .. 15; the words of a key that there is not are 0. Refused with TABLE, NOPAIR. */
#define LUFFCRINGLE_PAIR_WORDS 14
enum luffcringle_shown {
    LUFFCRINGLE_SHOWN_LIFETIME = 0,
    LUFFCRINGLE_SHOWN_FRESH = 1,
    LUFFCRINGLE_SHOWN_NEXT_SERIAL = 2,
    LUFFCRINGLE_SHOWN_KEYS = 3,     /* 0 none, 1 an adopted key, 2 an adopted and a waiting key */
    LUFFCRINGLE_SHOWN_ADOPTED = 4,  /* five words: serial, algorithm (256, 384 or 512), inception, partial, expiry */
    LUFFCRINGLE_SHOWN_WAITING = 9   /* likewise */
};
uint64_t luffcringle_pair(const uint64_t words[LUFFCRINGLE_TABLE_WORDS], const uint8_t suffixes[LUFFCRINGLE_TABLE_OCTETS], uint64_t pair,
                          uint64_t shown[LUFFCRINGLE_PAIR_WORDS]);

/* What became of a pair's keys between two times that luffcringle_pair showed it, as before and after a message: which secret is new, and which need not be
 * kept. Four serials, 0 where there is none. Keys are told apart by their serials. Between these times one call: over more, a key that was made and went
 * again is not seen. */
#define LUFFCRINGLE_MOVES_WORDS 4
enum luffcringle_move {
    LUFFCRINGLE_MADE = 0,     /* a key that was not there; the newer of two */
    LUFFCRINGLE_ADOPTED = 1,  /* the key that was waiting, and is adopted now */
    LUFFCRINGLE_ENDED = 2,    /* the key that was adopted, and is gone */
    LUFFCRINGLE_DROPPED = 3   /* the key that was waiting, and is gone */
};
void luffcringle_moves(const uint64_t before[LUFFCRINGLE_PAIR_WORDS], const uint64_t after[LUFFCRINGLE_PAIR_WORDS],
                       uint64_t moves[LUFFCRINGLE_MOVES_WORDS]);

/* What a TKEY request asks for, to be called before luffcringle_message, which takes the offer, the keying verdict and the KEY record as arguments. Octets
 * are told by their place in the message and their count, 0 where there are none. Refused with SIZE, FORMAT (beside it the place), NOTQUERY.
 *
 * Mode 0: the message asks for nothing: it is no TKEY request, or has not one well formed TKEY (or that is of the reserved mode 0, which the table
 * answers with BADMODE). */
#define LUFFCRINGLE_ASKED_WORDS 10
enum luffcringle_asked {
    LUFFCRINGLE_ASKED_PLACE = 0,      /* where reading failed, beside FORMAT; else 0 */
    LUFFCRINGLE_ASKED_MODE = 1,       /* 4097, 4098 and 4099 renewal, 4100 adoption, 5 deletion, others */
    LUFFCRINGLE_ASKED_ALGORITHM = 2,  /* 256, 384 or 512; 0 for any other name */
    LUFFCRINGLE_ASKED_INCEPTION = 3,
    LUFFCRINGLE_ASKED_EXPIRATION = 4,
    LUFFCRINGLE_ASKED_DATA = 5,       /* its key data: place, and size */
    LUFFCRINGLE_ASKED_DATA_SIZE = 6,
    LUFFCRINGLE_ASKED_KEYED = 7,      /* 1: there is just one KEY record in the additional section; its data: place, and size */
    LUFFCRINGLE_ASKED_KEY = 8,
    LUFFCRINGLE_ASKED_KEY_SIZE = 9
};
uint64_t luffcringle_asks(const uint8_t *message, size_t message_length, uint64_t asked[LUFFCRINGLE_ASKED_WORDS]);

/* ---- Signatures (RFC 8945) ----
 *
 * Whoever sends: has luffcringle_digest_request or luffcringle_digest_reply write the octets under the MAC, calculates the MAC over them, and has
 * luffcringle_finish append the TSIG. Whoever receives: luffcringle_read_tsig says who signed and how, luffcringle_received_request or
 * luffcringle_received_reply write the octets under the MAC that came; luffcringle_remove takes the TSIG off.
 *
 * What a call writes fills the first octets of its buffer, and their count goes to *written; the rest keep their contents. A refusal writes nothing, and
 * sets *written to 0. `message` has no TSIG in the first four calls, and has one in the others: else FORMAT. `signed_time`, `fudge`, `original_id`, `error`
 * and `other` are the TSIG's fields; the original ID is the message's, unless it is sent on under another one. A digest is at most as long as the message,
 * the MAC, both names and other data together, in a stream the messages before too, and 20 octets more. */

/* The digest of a request. Refused with SIZE, FORMAT, NAME, TIME, ROOM (also for other data over 65535 octets). */
uint64_t luffcringle_digest_request(const uint8_t *message, size_t message_length, const uint8_t *name, size_t name_length, const uint8_t *algorithm,
                                    size_t algorithm_length, uint64_t signed_time, uint16_t fudge, uint16_t original_id, uint16_t error,
                                    const uint8_t *other, size_t other_length, uint8_t *digest, size_t digest_room, uint64_t *written);

/* The digest of a reply to a request with this MAC, which may be empty. Refused with SIZE, FORMAT, NAME, TIME, MACSIZE, ROOM (also for
 * other data over 65535 octets). */
uint64_t luffcringle_digest_reply(const uint8_t *request_mac, size_t request_mac_length, const uint8_t *message, size_t message_length,
                                  const uint8_t *name, size_t name_length, const uint8_t *algorithm, size_t algorithm_length, uint64_t signed_time,
                                  uint16_t fudge, uint16_t original_id, uint16_t error, const uint8_t *other, size_t other_length, uint8_t *digest,
                                  size_t digest_room, uint64_t *written);

/* The digest of a later message of a stream, as of a zone transfer (RFC 8945, 5.3.1), whose first is a reply. `prior_mac` is the MAC of the message before that
 * had a TSIG; `before` the messages since that have none, one after another, most often no octets. Refused with SIZE, FORMAT, TIME, MACSIZE, ROOM. */
uint64_t luffcringle_digest_later(const uint8_t *prior_mac, size_t prior_mac_length, const uint8_t *before, size_t before_length,
                                  const uint8_t *message, size_t message_length, uint64_t signed_time, uint16_t fudge, uint16_t original_id,
                                  uint8_t *digest, size_t digest_room, uint64_t *written);

/* The finished message: its TSIG appended. Names are written as given. Refused with SIZE, FORMAT, NAME, TIME, MACSIZE, ROOM. */
uint64_t luffcringle_finish(const uint8_t *message, size_t message_length, const uint8_t *name, size_t name_length, const uint8_t *algorithm,
                            size_t algorithm_length, uint64_t signed_time, uint16_t fudge, uint16_t original_id, uint16_t error, const uint8_t *mac,
                            size_t mac_length, const uint8_t *other, size_t other_length, uint8_t *finished, size_t finished_room, uint64_t *written);

/* The TSIG of a message. Its names are written out into the first octets of `name` and `algorithm`, as they stand (compare them without regard to case);
 * MAC and other data are told by place and size. Refused with SIZE, FORMAT. */
#define LUFFCRINGLE_NAME_OCTETS 255
#define LUFFCRINGLE_TSIG_WORDS 10
enum luffcringle_tsig {
    LUFFCRINGLE_TSIG_NAME_LENGTH = 0,
    LUFFCRINGLE_TSIG_ALGORITHM_LENGTH = 1,
    LUFFCRINGLE_TSIG_SIGNED = 2,
    LUFFCRINGLE_TSIG_FUDGE = 3,
    LUFFCRINGLE_TSIG_MAC = 4,
    LUFFCRINGLE_TSIG_MAC_SIZE = 5,
    LUFFCRINGLE_TSIG_ORIGINAL_ID = 6,
    LUFFCRINGLE_TSIG_ERROR = 7,
    LUFFCRINGLE_TSIG_OTHER = 8,
    LUFFCRINGLE_TSIG_OTHER_SIZE = 9
};
uint64_t luffcringle_read_tsig(const uint8_t *message, size_t message_length, uint8_t name[LUFFCRINGLE_NAME_OCTETS],
                               uint8_t algorithm[LUFFCRINGLE_NAME_OCTETS], uint64_t fields[LUFFCRINGLE_TSIG_WORDS]);

/* The message without its TSIG, its ID as it came. Refused with SIZE, FORMAT, ROOM. */
uint64_t luffcringle_remove(const uint8_t *message, size_t message_length, uint8_t *rest, size_t rest_room, uint64_t *written);

/* The octets under the MAC of a message that came with its TSIG: of a request; of a reply to a request with this MAC; of a later message of a stream. Refused
 * with SIZE, FORMAT, MACSIZE (not of a request), ROOM. */
uint64_t luffcringle_received_request(const uint8_t *message, size_t message_length, uint8_t *digest, size_t digest_room, uint64_t *written);
uint64_t luffcringle_received_reply(const uint8_t *request_mac, size_t request_mac_length, const uint8_t *message, size_t message_length,
                                    uint8_t *digest, size_t digest_room, uint64_t *written);
uint64_t luffcringle_received_later(const uint8_t *prior_mac, size_t prior_mac_length, const uint8_t *before, size_t before_length,
                                    const uint8_t *message, size_t message_length, uint8_t *digest, size_t digest_room, uint64_t *written);

/* ---- The resolver (document 02, change request 1) ----
 *
 * An office's half of a renewal. It holds its adopted key and at most one offered key; it writes requests, whose MACs the caller calculates, and reads the
 * replies, whose MACs the caller has verified. The order of a renewal: write a renewal, read its reply (there is an offered key now, whose secret is in the
 * reply's key data), write an adoption, read its reply. An adoption that had no good reply is written again: it is signed with the other key, in turn.
 *
 * The state is 12 words and 510 octets, which the caller keeps and lends to each call:
 *
 *   word 0         which keys are held: 1 the adopted one, 2 the adopted and the offered one; every other value: none
 *   word 1 .. 4    the adopted key: its name's length, algorithm (256, 384 or 512), inception, expiration
 *   word 5 .. 8    the offered key, likewise
 *   word 9         the open request: 1 an ordinary message, 2 a renewal, 3 an adoption, 4 a deletion; every other value: none
 *   word 10        its ID
 *   word 11        1: the next adoption is signed with the offered key; every other value: with the adopted one
 *   octet 0 ..     the adopted key's name, and from octet 255 on the offered key's
 *
 * Every content is a state: a key with another algorithm is not held; times are read modulo 2^32 and the ID modulo 2^16. What a key that is not held has in its
 * words has no meaning, and a call may change it. A refusal changes no word and no octet of the state, and what it tells is 0. */
#define LUFFCRINGLE_RESOLVER_WORDS 12
#define LUFFCRINGLE_RESOLVER_OCTETS 510
struct luffcringle_resolver {
    uint64_t words[LUFFCRINGLE_RESOLVER_WORDS];
    uint8_t names[LUFFCRINGLE_RESOLVER_OCTETS];
};

/* What the resolver's calls return: document 02's own list. */
enum luffcringle_resolver_number {
    LUFFCRINGLE_RESOLVER_DONE = 0,
    LUFFCRINGLE_RESOLVER_LOST = 1,      /* reply: no request is open */
    LUFFCRINGLE_RESOLVER_WRONGID = 2,   /* reply: another ID than the open request's */
    LUFFCRINGLE_RESOLVER_UNSIGNED = 3,  /* reply: no TSIG, or a bad verdict */
    LUFFCRINGLE_RESOLVER_FORMAT = 4,    /* reply: no message */
    LUFFCRINGLE_RESOLVER_ROOM = 5,      /* the request is longer than the lent buffer or than 65535 octets */
    LUFFCRINGLE_RESOLVER_NOKEY = 6      /* no key for that request, a name that is no wire name, an algorithm that is none, or a record that is no KEY record */
};

/* Hold: the state of a resolver that holds this adopted key and nothing else. Refused with NOKEY. */
uint64_t luffcringle_resolver_hold(uint64_t words[LUFFCRINGLE_RESOLVER_WORDS], uint8_t names[LUFFCRINGLE_RESOLVER_OCTETS], const uint8_t *name,
                                   size_t name_length, uint64_t algorithm, uint32_t inception, uint32_t expiration);

/* Which key is to sign what was written. */
#define LUFFCRINGLE_SENDING_WORDS 2
enum luffcringle_sending {
    LUFFCRINGLE_SENDING_LENGTH = 0,  /* the octets of the request */
    LUFFCRINGLE_SENDING_SIGNER = 1   /* 0 nobody, where it is refused; 1 the adopted key; 2 the offered key */
};

/* Write a renewal of mode 4098: `name` is what the new key is to be called (none: the root; the server chooses), `record` the office's KEY record, under
 * which the server encrypts the new secret. It is signed with the adopted key, and is the open request now. Refused with NOKEY, ROOM. */
uint64_t luffcringle_resolver_renewal(uint64_t words[LUFFCRINGLE_RESOLVER_WORDS], uint8_t names[LUFFCRINGLE_RESOLVER_OCTETS], uint16_t id,
                                      const uint8_t *name, size_t name_length, uint64_t algorithm, uint32_t inception, uint32_t expiration,
                                      const uint8_t *record, size_t record_length, uint8_t *request, size_t request_room,
                                      uint64_t sending[LUFFCRINGLE_SENDING_WORDS]);

/* Write an adoption of the offered key, or a deletion of the adopted one. Refused with NOKEY, ROOM. */
uint64_t luffcringle_resolver_adoption(uint64_t words[LUFFCRINGLE_RESOLVER_WORDS], uint8_t names[LUFFCRINGLE_RESOLVER_OCTETS], uint16_t id,
                                       uint8_t *request, size_t request_room, uint64_t sending[LUFFCRINGLE_SENDING_WORDS]);
uint64_t luffcringle_resolver_deletion(uint64_t words[LUFFCRINGLE_RESOLVER_WORDS], uint8_t names[LUFFCRINGLE_RESOLVER_OCTETS], uint16_t id,
                                       uint8_t *request, size_t request_room, uint64_t sending[LUFFCRINGLE_SENDING_WORDS]);

/* Note the ID of an ordinary message, so that its reply can say that renewal is due. */
void luffcringle_resolver_note(uint64_t words[LUFFCRINGLE_RESOLVER_WORDS], uint8_t names[LUFFCRINGLE_RESOLVER_OCTETS], uint16_t id);

/* Read a reply. `good` is the caller's verdict on its MAC and its time. Refused with FORMAT, LOST, WRONGID, UNSIGNED. */
#define LUFFCRINGLE_HEARD_WORDS 4
enum luffcringle_heard {
    LUFFCRINGLE_HEARD_DUE = 0,       /* 1: the server says PartialRevoke, renew now */
    LUFFCRINGLE_HEARD_GRANTED = 1,   /* 1: a renewal is granted, and there is a new offered key */
    LUFFCRINGLE_HEARD_DATA = 2,      /* its key data in the message, the encrypted secret: place, and size */
    LUFFCRINGLE_HEARD_DATA_SIZE = 3
};
uint64_t luffcringle_resolver_reply(uint64_t words[LUFFCRINGLE_RESOLVER_WORDS], uint8_t names[LUFFCRINGLE_RESOLVER_OCTETS], bool good,
                                    const uint8_t *message, size_t message_length, uint64_t heard[LUFFCRINGLE_HEARD_WORDS]);

#ifdef __cplusplus
}
#endif

#endif
