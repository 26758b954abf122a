/* havdorlek.h: the link unit's calls, for C and for whatever speaks to C.
 *
 * Every call takes any values and answers by a refusal's number, 0 for none. What is refused changes nothing: states and
 * buffers stay as they were, and answers of several numbers are zeros. No call keeps anything between calls, allocates, reads
 * a clock or a file, or fails otherwise than by its number.
 *
 * Who owns what: the caller owns every array and lends it for the time of the call. A lent array is never null, not even where
 * its length is 0, is aligned for its numbers, has at least the places that its declaration or the length beside it says, and
 * overlaps no other array of the same call that the call writes.
 */
#ifndef HAVDORLEK_H
#define HAVDORLEK_H

#include <stddef.h>
#include <stdint.h>

#ifdef __cplusplus
extern "C" {
#endif

/* The refusals, by the numbers of the order's table. */
enum havdorlek_refusal {
    HAVDORLEK_ACCEPTED = 0,
    HAVDORLEK_MEMBERS = 1,        /* 0 or more than 64 members */
    HAVDORLEK_SHARE = 2,          /* a share is 0 or above 1,000,000 */
    HAVDORLEK_BOUNDS = 3,         /* r above u, or D below 2u + r + 1 */
    HAVDORLEK_QUANTUM = 4,        /* q is 0 or above 1,024 */
    HAVDORLEK_SHORT_OUTPUT = 5,   /* output shorter than needed */
    HAVDORLEK_MESSAGE = 6,        /* message number 0 or above its limit */
    HAVDORLEK_RESEND = 7,         /* resend number 0 or above 255 */
    HAVDORLEK_NO_MEMBER = 8,      /* no such receiving member */
    HAVDORLEK_WINDOW_FULL = 9,    /* k above p + 64 */
    HAVDORLEK_NOT_NEXT = 10,      /* k is not S + 1 */
    HAVDORLEK_NOT_SENT = 11,      /* report holds something above S */
    HAVDORLEK_BIT_0 = 12,         /* mask bit 0 set */
    HAVDORLEK_LACKS_FORMER = 13,  /* report lacks a message that the member's former report held */
    HAVDORLEK_KIND = 14,          /* kind reserved, or not writable */
    HAVDORLEK_NOT_ZERO = 15,      /* a byte or field that must be zero is not */
    HAVDORLEK_LENGTH = 16,        /* record not 24 bytes long */
    HAVDORLEK_NOT_FORMED = 17,    /* state or holdings not well formed */
    HAVDORLEK_TOO_FAR = 18,       /* arrival above c + 64 */
    HAVDORLEK_BADLY_BUILT = 19    /* plan program: input badly built */
};

/* Sizes. */
#define HAVDORLEK_MEMBERS_MOST 64u    /* members of a cluster, and places of the window */
#define HAVDORLEK_REPORT_BYTES 1024u  /* what a report's output needs: 64 verdicts */
#define HAVDORLEK_VERDICT_BYTES 16u   /* message number (8, little-endian), sender, receiver, resend number, five zeros */
#define HAVDORLEK_RECORD_BYTES 24u    /* a link record */
#define HAVDORLEK_PLAN_BYTES 3458u    /* the longest plan text */

/* The window's state in words of 64 bits: what a unit writes to its disk and reads back after a power cut.
 *
 * Any words at all may stand there. Words that are no well-formed state, a word too large for its field among them, are
 * refused with 17. A field of 32 bits is members, u, r, a share, the quantum or a resend count; whether a member has reported
 * is 0 or 1; the other fields take all 64 bits.
 *
 * Receiving member i has its report at REPORT_NUMBERS + i, REPORT_MASKS + i and HAS_REPORTED + i. Message k, for
 * p < k <= S, has place (k - 1) % 64: its resend count stands at RESEND_COUNTS + place, and the set of members that complain
 * of it at COMPLAINTS + place, bit i for member i.
 */
#define HAVDORLEK_WINDOW_WORDS 457

#define HAVDORLEK_SENDING_MEMBERS 0     /* the sending cluster */
#define HAVDORLEK_SENDING_U 1
#define HAVDORLEK_SENDING_R 2
#define HAVDORLEK_SENDING_SHARES 3      /* 64 words; 0 past the members */
#define HAVDORLEK_RECEIVING_MEMBERS 67  /* the receiving cluster */
#define HAVDORLEK_RECEIVING_U 68
#define HAVDORLEK_RECEIVING_R 69
#define HAVDORLEK_RECEIVING_SHARES 70   /* 64 words; 0 past the members */
#define HAVDORLEK_WINDOW_QUANTUM 134    /* q */
#define HAVDORLEK_WINDOW_SENT 135       /* S, the highest sent number */
#define HAVDORLEK_WINDOW_POINT 136      /* p, the collecting point: orders up to it may be dropped */
#define HAVDORLEK_REPORT_NUMBERS 137    /* 64 words: c of each receiving member's latest report */
#define HAVDORLEK_REPORT_MASKS 201      /* 64 words: its mask */
#define HAVDORLEK_HAS_REPORTED 265      /* 64 words: 1 where the member has reported, 0 where not */
#define HAVDORLEK_RESEND_COUNTS 329     /* 64 words: how often the message was sent again */
#define HAVDORLEK_COMPLAINTS 393        /* 64 words: the members that complain of it */

/* The holdings of a receiving member: c, and the mask whose bit b speaks of message c + 1 + b. */
#define HAVDORLEK_HOLDINGS_WORDS 2
#define HAVDORLEK_HOLDINGS_NUMBER 0
#define HAVDORLEK_HOLDINGS_MASK 1

/* Dealing first copies: how many of q messages each member gets, by Hamilton's method. The counts go into the first places of
 * `out`, one for each member; later places stay. Refusals, in this order: 1, 2, 3, 4, 5. */
uint32_t havdorlek_counts(const uint32_t *shares, size_t members, uint32_t u, uint32_t r, uint32_t q,
                          uint32_t *out, size_t places);

/* The first copy of message k: answer[0] is its sender, answer[1] its receiver. Refusals, in this order: 1, 2, 3 of the sending
 * cluster, then of the receiving, 4, 6. */
uint32_t havdorlek_first_pair(const uint32_t *sending, size_t sending_members, uint32_t sending_u, uint32_t sending_r,
                              const uint32_t *receiving, size_t receiving_members, uint32_t receiving_u,
                              uint32_t receiving_r, uint32_t q, uint64_t k, uint64_t answer[2]);

/* Resend n of message k: answer[0] is its sender, answer[1] its receiver, answer[2] its run in units of the circle. Refusals,
 * in this order: 1, 2, 3 of the sending cluster, then of the receiving, 4, 6, 7. */
uint32_t havdorlek_resend_pair(const uint32_t *sending, size_t sending_members, uint32_t sending_u, uint32_t sending_r,
                               const uint32_t *receiving, size_t receiving_members, uint32_t receiving_u,
                               uint32_t receiving_r, uint32_t q, uint64_t k, uint32_t n, uint64_t answer[3]);

/* Opens a window between two clusters: nothing sent, nothing reported. A refused opening hands back a state of zeros. Refusals,
 * in this order: 1, 2, 3 of the sending cluster, then of the receiving, 4. */
uint32_t havdorlek_open(const uint32_t *sending, size_t sending_members, uint32_t sending_u, uint32_t sending_r,
                        const uint32_t *receiving, size_t receiving_members, uint32_t receiving_u, uint32_t receiving_r,
                        uint32_t q, uint64_t window[HAVDORLEK_WINDOW_WORDS]);

/* Judges a state, as after it was read back from a disk: 17 where it is not well formed. */
uint32_t havdorlek_judge(const uint64_t window[HAVDORLEK_WINDOW_WORDS]);

/* Sends message k, which must be S + 1 and at most p + 64. Refusals, in this order: 17, 6, 10, 9. */
uint32_t havdorlek_send(uint64_t window[HAVDORLEK_WINDOW_WORDS], uint64_t k);

/* Takes a report from a receiving member: cumulative number and mask. answer[0] says how many verdicts were written into `out`,
 * 16 bytes each, one after another; later bytes stay. `out` has `room` bytes. Refusals, in this order: 17, 5, 8, 12, 11, 13. */
uint32_t havdorlek_report(uint64_t window[HAVDORLEK_WINDOW_WORDS], uint32_t member, uint64_t number, uint64_t mask,
                          uint8_t *out, size_t room, uint64_t answer[1]);

/* The holdings of a member that has received nothing. */
void havdorlek_fresh(uint64_t holdings[HAVDORLEK_HOLDINGS_WORDS]);

/* Message k arrives at a receiving member. Refusals, in this order: 17, 6, 18. */
uint32_t havdorlek_arrive(uint64_t holdings[HAVDORLEK_HOLDINGS_WORDS], uint64_t k);

/* The receiving member's report: answer[0] is c, answer[1] the mask. Refusal: 17. */
uint32_t havdorlek_receiver_report(const uint64_t holdings[HAVDORLEK_HOLDINGS_WORDS], uint64_t answer[2]);

/* Reads a link record: answer[0] is its kind (0 unused, 1 report, 2 arrival, 128 to 255 private), answer[1] the member,
 * answer[2] the number, answer[3] the mask. Of a private record only the kind is told, the rest is 0. Range of member and
 * number is judged by the call that uses them. Refusals, in this order: 16, 14, 15. */
uint32_t havdorlek_read(const uint8_t *bytes, size_t length, uint64_t answer[4]);

/* Writes a link record of kind 0, 1 or 2 into the first 24 bytes of `out`; later bytes stay. Refusals, in this order: 14, 15, 5. */
uint32_t havdorlek_write(uint8_t kind, uint8_t member, uint64_t number, uint64_t mask, uint8_t *out, size_t room);

/* The plan program's text for the input's 12-byte records, `refused N` where it is refused (19, then as for pairs), into the
 * first bytes of `out`; later bytes stay. Returns how many bytes the text has. */
size_t havdorlek_plan(const uint8_t *input, size_t length, uint8_t out[HAVDORLEK_PLAN_BYTES]);

#ifdef __cplusplus
}
#endif

#endif
