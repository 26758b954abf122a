/* examples.c: document 01's examples, and each of its refusals, asked of the archive through havdorlek.h.
 *
 * Prints a line for each, and how many differ; the exit status is 1 where any does. Built from the repository's root by
 * cc -std=c11 ends/c/examples.c target/ends/libhavdorlek.a -o target/ends/examples */
#include "havdorlek.h"

#include <inttypes.h>
#include <stdio.h>
#include <string.h>

#define LENGTH(table) (sizeof(table) / sizeof((table)[0]))
#define MESSAGE_LIMIT UINT64_C(1000000000000)

/* ---- Asking and comparing ---- */

static unsigned asked, differing;

static void print_numbers(const uint64_t *numbers, size_t n)
{
    for (size_t i = 0; i < n; i++)
        printf(" %" PRIu64, numbers[i]);
}

/* One line for one example: the refusal comes first among the numbers, then the answers. */
static void compare(const char *what, const uint64_t *came, const uint64_t *wanted, size_t n)
{
    asked++;
    printf("%s: ", what);
    if (memcmp(came, wanted, n * sizeof *came) == 0) {
        puts("ok");
        return;
    }
    differing++;
    printf("came");
    print_numbers(came, n);
    printf(", wanted");
    print_numbers(wanted, n);
    putchar('\n');
}

static void compare_text(const char *what, const uint8_t *came, size_t length, const char *wanted)
{
    asked++;
    if (length == strlen(wanted) && memcmp(came, wanted, length) == 0) {
        printf("%s: ok\n", what);
        return;
    }
    differing++;
    printf("%s: came\n%.*s", what, (int)length, (const char *)came);
}

/* ---- Clusters ---- */

struct cluster {
    size_t members;
    uint32_t u, r;
    uint32_t shares[65];
};

#define EIGHT 1, 1, 1, 1, 1, 1, 1, 1

static const struct cluster E = {4, 1, 1, {1, 1, 1, 1}};
static const struct cluster E_u_2 = {4, 2, 1, {1, 1, 1, 1}};
static const struct cluster three = {3, 1, 0, {1, 1, 1}};
static const struct cluster five = {5, 2, 0, {1, 1, 1, 1, 1}};
static const struct cluster millions = {4, 1333333, 1333333, {1000000, 1000000, 1000000, 1000000}};
static const struct cluster quarters = {4, 0, 0, {25, 25, 25, 25}};
static const struct cluster large_quarters = {4, 0, 0, {250, 250, 250, 250}};
static const struct cluster uneven = {4, 0, 0, {214, 262, 262, 262}};
static const struct cluster one_large = {4, 0, 0, {97, 1, 1, 1}};
static const struct cluster two_one_three = {3, 0, 0, {2, 1, 3}};
static const struct cluster highest_share = {1, 0, 0, {1000000}};
static const struct cluster share_too_high = {1, 0, 0, {1000001}};
static const struct cluster share_zero = {2, 0, 0, {1, 0}};
static const struct cluster liars_above_u = {4, 0, 1, {1, 1, 1, 1}};
static const struct cluster nobody = {0, 0, 0, {0}};
static const struct cluster crowd = {65, 0, 0, {EIGHT, EIGHT, EIGHT, EIGHT, EIGHT, EIGHT, EIGHT, EIGHT, 1}};

/* ---- Counts ---- */

/* The output has 7 in each of its places before the call: a refusal leaves them, and so do counts the places after them. */
static const struct {
    const char *what;
    const struct cluster *cluster;
    uint32_t q;
    size_t places;
    uint64_t wanted[5];
} counts[] = {
    {"counts of 25 four times, q 100", &quarters, 100, 4, {0, 25, 25, 25, 25}},
    {"counts of 250 four times, q 100", &large_quarters, 100, 4, {0, 25, 25, 25, 25}},
    {"counts of 214, 262, 262, 262, q 100", &uneven, 100, 4, {0, 22, 26, 26, 26}},
    {"counts of 97, 1, 1, 1, q 10", &one_large, 10, 4, {0, 10, 0, 0, 0}},
    {"counts of 1, 1, 1, q 4, in four places", &three, 4, 4, {0, 2, 1, 1, 7}},
    {"counts of 2, 1, 3, q 6", &two_one_three, 6, 3, {0, 2, 1, 3, 7}},
    {"counts of the highest share", &highest_share, 1, 1, {0, 1, 7, 7, 7}},
    {"counts of nobody: 1", &nobody, 1, 4, {1, 7, 7, 7, 7}},
    {"counts of 65 members: 1", &crowd, 1, 4, {1, 7, 7, 7, 7}},
    {"counts of share 1,000,001: 2", &share_too_high, 1, 4, {2, 7, 7, 7, 7}},
    {"counts of share 0: 2", &share_zero, 1, 4, {2, 7, 7, 7, 7}},
    {"counts of E with u 2: 3", &E_u_2, 4, 4, {3, 7, 7, 7, 7}},
    {"counts with r above u: 3", &liars_above_u, 4, 4, {3, 7, 7, 7, 7}},
    {"counts of E, q 0: 4", &E, 0, 4, {4, 7, 7, 7, 7}},
    {"counts of E, q 1,025: 4", &E, 1025, 4, {4, 7, 7, 7, 7}},
    {"counts of E in three places: 5", &E, 4, 3, {5, 7, 7, 7, 7}},
};

static void ask_counts(void)
{
    for (size_t i = 0; i < LENGTH(counts); i++) {
        const struct cluster *c = counts[i].cluster;
        uint32_t out[4] = {7, 7, 7, 7};
        uint32_t refusal = havdorlek_counts(c->shares, c->members, c->u, c->r, counts[i].q, out, counts[i].places);
        uint64_t came[5] = {refusal, out[0], out[1], out[2], out[3]};
        compare(counts[i].what, came, counts[i].wanted, 5);
    }
}

/* ---- First pairs and resend pairs ---- */

static const struct {
    const char *what;
    const struct cluster *sending, *receiving;
    uint32_t q;
    uint64_t k;
    uint64_t wanted[3];
} first_pairs[] = {
    {"first copy of message 6, E to E", &E, &E, 4, 6, {0, 1, 2}},
    {"first copy of message 3, three to five", &three, &five, 3, 3, {0, 2, 2}},
    {"deal of counts 2, 1, 3: slot 0", &two_one_three, &E, 6, 1, {0, 0, 0}},
    {"deal of counts 2, 1, 3: slot 1", &two_one_three, &E, 6, 2, {0, 1, 1}},
    {"deal of counts 2, 1, 3: slot 2", &two_one_three, &E, 6, 3, {0, 2, 2}},
    {"deal of counts 2, 1, 3: slot 3", &two_one_three, &E, 6, 4, {0, 0, 3}},
    {"deal of counts 2, 1, 3: slot 4", &two_one_three, &E, 6, 5, {0, 2, 0}},
    {"deal of counts 2, 1, 3: slot 5", &two_one_three, &E, 6, 6, {0, 2, 1}},
    {"first copy from nobody: 1", &nobody, &share_zero, 0, 0, {1, 0, 0}},
    {"first copy to share 0: 2", &E, &share_zero, 0, 0, {2, 0, 0}},
    {"first copy to E with u 2: 3", &E, &E_u_2, 0, 0, {3, 0, 0}},
    {"first copy with q 0: 4", &E, &E, 0, 0, {4, 0, 0}},
    {"first copy of message 0: 6", &E, &E, 4, 0, {6, 0, 0}},
    {"first copy above the message limit: 6", &E, &E, 4, MESSAGE_LIMIT + 1, {6, 0, 0}},
};

static void ask_first_pairs(void)
{
    for (size_t i = 0; i < LENGTH(first_pairs); i++) {
        const struct cluster *s = first_pairs[i].sending, *r = first_pairs[i].receiving;
        uint64_t came[3] = {7, 7, 7};
        came[0] = havdorlek_first_pair(s->shares, s->members, s->u, s->r, r->shares, r->members, r->u, r->r,
                                       first_pairs[i].q, first_pairs[i].k, came + 1);
        compare(first_pairs[i].what, came, first_pairs[i].wanted, 3);
    }
}

static const struct {
    const char *what;
    const struct cluster *sending, *receiving;
    uint32_t q;
    uint64_t k;
    uint32_t n;
    uint64_t wanted[4];
} resend_pairs[] = {
    {"resend 1 of message 6, E to E", &E, &E, 4, 6, 1, {0, 2, 2, 1}},
    {"resend 2 of message 6, E to E", &E, &E, 4, 6, 2, {0, 3, 3, 1}},
    {"resend 3 of message 6, E to E", &E, &E, 4, 6, 3, {0, 0, 0, 1}},
    {"resend 4 of message 6, E to E", &E, &E, 4, 6, 4, {0, 1, 1, 1}},
    {"resend 1 of message 3, three to five", &three, &five, 3, 3, 1, {0, 0, 0, 3}},
    {"resend 2 of message 3, three to five", &three, &five, 3, 3, 2, {0, 0, 1, 2}},
    {"resend 3 of message 3, three to five", &three, &five, 3, 3, 3, {0, 1, 1, 1}},
    {"resend 4 of message 3, three to five", &three, &five, 3, 3, 4, {0, 1, 2, 3}},
    {"resend 5 of message 3, three to five", &three, &five, 3, 3, 5, {0, 1, 3, 1}},
    {"resend 6 of message 3, three to five", &three, &five, 3, 3, 6, {0, 2, 3, 2}},
    {"resend 7 of message 3, three to five", &three, &five, 3, 3, 7, {0, 2, 4, 3}},
    {"resend 1 from unit 0, E to millions", &E, &millions, 4, 4, 1, {0, 0, 0, 1000000}},
    {"resend 2 from unit 0, E to millions", &E, &millions, 4, 4, 2, {0, 1, 1, 1000000}},
    {"resend 3 from unit 0, E to millions", &E, &millions, 4, 4, 3, {0, 2, 2, 1000000}},
    {"resend to nobody: 1", &E, &nobody, 4, 1, 1, {1, 0, 0, 0}},
    {"resend of message 0: 6", &E, &E, 4, 0, 0, {6, 0, 0, 0}},
    {"resend 0: 7", &E, &E, 4, 1, 0, {7, 0, 0, 0}},
    {"resend 256: 7", &E, &E, 4, 1, 256, {7, 0, 0, 0}},
};

static uint32_t resend(const struct cluster *s, const struct cluster *r, uint32_t q, uint64_t k, uint32_t n,
                       uint64_t answer[3])
{
    return havdorlek_resend_pair(s->shares, s->members, s->u, s->r, r->shares, r->members, r->u, r->r, q, k, n, answer);
}

static void ask_resend_pairs(void)
{
    for (size_t i = 0; i < LENGTH(resend_pairs); i++) {
        uint64_t came[4] = {7, 7, 7, 7};
        came[0] = resend(resend_pairs[i].sending, resend_pairs[i].receiving, resend_pairs[i].q, resend_pairs[i].k,
                         resend_pairs[i].n, came + 1);
        compare(resend_pairs[i].what, came, resend_pairs[i].wanted, 4);
    }
}

/* With sender 1 and receivers 0 and 1 failed: which resend is the first good one, and the units spent before it. */
static void ask_first_good(void)
{
    uint64_t came[3] = {0, 1, 0};
    uint64_t answer[3];
    const uint64_t wanted[3] = {0, 6, 10};
    while ((came[0] = resend(&three, &five, 3, 3, (uint32_t)came[1], answer)) == 0 && (answer[0] == 1 || answer[1] <= 1)) {
        came[1]++;
        came[2] += answer[2];
    }
    compare("first good resend with sender 1 and receivers 0, 1 failed, and units before it", came, wanted, 3);
}

/* ---- The window ---- */

static uint64_t window[HAVDORLEK_WINDOW_WORDS];

static uint32_t open_window(const struct cluster *s, const struct cluster *r, uint32_t q)
{
    return havdorlek_open(s->shares, s->members, s->u, s->r, r->shares, r->members, r->u, r->r, q, window);
}

static const struct {
    const char *what;
    const struct cluster *sending, *receiving;
    uint32_t q;
    uint64_t wanted[3];
} openings[] = {
    {"opening from 65 members: 1, and zeros", &crowd, &E, 4, {1, 0, 0}},
    {"opening to share 1,000,001: 2, and zeros", &E, &share_too_high, 4, {2, 0, 0}},
    {"opening from E with u 2: 3, and zeros", &E_u_2, &E, 4, {3, 0, 0}},
    {"opening with q 1,025: 4, and zeros", &E, &E, 1025, {4, 0, 0}},
    {"opening from E to E, q 4", &E, &E, 4, {0, 4, 4}},
};

static void ask_openings(void)
{
    for (size_t i = 0; i < LENGTH(openings); i++) {
        uint32_t refusal = open_window(openings[i].sending, openings[i].receiving, openings[i].q);
        uint64_t came[3] = {refusal, window[HAVDORLEK_SENDING_MEMBERS], window[HAVDORLEK_WINDOW_QUANTUM]};
        compare(openings[i].what, came, openings[i].wanted, 3);
    }
}

enum act { SEND, REPORT, REPORT_SHORT };

/* One after another, from a window opened between E and E. Wanted: refusal, verdicts, S and p after it. */
static const struct {
    const char *what;
    enum act act;
    uint32_t member;
    uint64_t number, mask;
    uint64_t wanted[4];
} steps[] = {
    {"send 0: 6", SEND, 0, 0, 0, {6, 0, 0, 0}},
    {"send above the limit: 6", SEND, 0, MESSAGE_LIMIT + 1, 0, {6, 0, 0, 0}},
    {"send 2 before 1: 10", SEND, 0, 2, 0, {10, 0, 0, 0}},
    {"send 1", SEND, 0, 1, 0, {0, 0, 1, 0}},
    {"send 2", SEND, 0, 2, 0, {0, 0, 2, 0}},
    {"send 3", SEND, 0, 3, 0, {0, 0, 3, 0}},
    {"send 4", SEND, 0, 4, 0, {0, 0, 4, 0}},
    {"a report into 1,023 bytes: 5", REPORT_SHORT, 0, 1, 0, {5, 0, 4, 0}},
    {"member 4 reports: 8", REPORT, 4, 1, 0, {8, 0, 4, 0}},
    {"member 0 marks bit 0: 12", REPORT, 0, 1, 1, {12, 0, 4, 0}},
    {"member 0 reports 5: 11", REPORT, 0, 5, 0, {11, 0, 4, 0}},
    {"member 0 marks message 5: 11", REPORT, 0, 1, 8, {11, 0, 4, 0}},
    {"member 0 reports 1: p is 0", REPORT, 0, 1, 0, {0, 0, 4, 0}},
    {"member 0 reports 0: 13", REPORT, 0, 0, 0, {13, 0, 4, 0}},
    {"member 3 reports 4: p is 1", REPORT, 3, 4, 0, {0, 0, 4, 1}},
    {"member 1 reports 1", REPORT, 1, 1, 0, {0, 0, 4, 1}},
    {"member 1 reports 1 again", REPORT, 1, 1, 0, {0, 0, 4, 1}},
    {"member 0 reports 1 again: one verdict", REPORT, 0, 1, 0, {0, 1, 4, 1}},
};

static uint8_t verdicts[HAVDORLEK_REPORT_BYTES];

static void ask_steps(void)
{
    open_window(&E, &E, 4);
    memset(verdicts, 7, sizeof verdicts);
    for (size_t i = 0; i < LENGTH(steps); i++) {
        size_t room = steps[i].act == REPORT_SHORT ? HAVDORLEK_REPORT_BYTES - 1 : HAVDORLEK_REPORT_BYTES;
        uint64_t came[4] = {0, 0, 0, 0};
        if (steps[i].act == SEND)
            came[0] = havdorlek_send(window, steps[i].number);
        else
            came[0] = havdorlek_report(window, steps[i].member, steps[i].number, steps[i].mask, verdicts, room, came + 1);
        came[2] = window[HAVDORLEK_WINDOW_SENT];
        came[3] = window[HAVDORLEK_WINDOW_POINT];
        compare(steps[i].what, came, steps[i].wanted, 4);
    }
}

/* The bytes that the last step wrote: message 2, sender 2, receiver 2, resend 1, five zeros; the byte behind them stays. */
static void ask_verdict(void)
{
    const uint64_t wanted[17] = {2, 0, 0, 0, 0, 0, 0, 0, 2, 2, 1, 0, 0, 0, 0, 0, 7};
    uint64_t came[17];
    for (size_t i = 0; i < 17; i++)
        came[i] = verdicts[i];
    compare("the verdict: message 2, sender 2, receiver 2, resend 1", came, wanted, 17);
}

static void ask_full_window(void)
{
    const uint64_t accepted = 0, full = HAVDORLEK_WINDOW_FULL;
    open_window(&E, &E, 4);
    uint64_t came = 0;
    for (uint64_t k = 1; k <= 64 && came == 0; k++)
        came = havdorlek_send(window, k);
    compare("sending up to 64 with p = 0", &came, &accepted, 1);
    came = havdorlek_send(window, 65);
    compare("sending 65 with p = 0: 9", &came, &full, 1);
}

/* One word of a state with 64 messages sent, changed. */
static const struct {
    const char *what;
    size_t at;
    uint64_t word;
    uint64_t wanted;
} states[] = {
    {"a state as it was", HAVDORLEK_WINDOW_SENT, 64, 0},
    {"a state without sending members: 17", HAVDORLEK_SENDING_MEMBERS, 0, 17},
    {"a state with a share past the members: 17", HAVDORLEK_RECEIVING_SHARES + 4, 1, 17},
    {"a state with u too high for 32 bits: 17", HAVDORLEK_RECEIVING_U, UINT64_C(1) << 32 | 1, 17},
    {"a state with q 0: 17", HAVDORLEK_WINDOW_QUANTUM, 0, 17},
    {"a state with S above p + 64: 17", HAVDORLEK_WINDOW_SENT, 65, 17},
    {"a state whose reports give another p: 17", HAVDORLEK_WINDOW_POINT, 1, 17},
    {"a state with a number that was not reported: 17", HAVDORLEK_REPORT_NUMBERS, 1, 17},
    {"a state with a mark past the members: 17", HAVDORLEK_REPORT_MASKS + 4, 2, 17},
    {"a state where a member has reported, its number being 0", HAVDORLEK_HAS_REPORTED, 1, 0},
    {"a state where a member has reported twice: 17", HAVDORLEK_HAS_REPORTED, 2, 17},
    {"a state with resend count 255", HAVDORLEK_RESEND_COUNTS, 255, 0},
    {"a state with resend count 256: 17", HAVDORLEK_RESEND_COUNTS, 256, 17},
    {"a state where four members complain", HAVDORLEK_COMPLAINTS, 15, 0},
    {"a state where member 4 complains: 17", HAVDORLEK_COMPLAINTS, 16, 17},
};

static void ask_states(void)
{
    for (size_t i = 0; i < LENGTH(states); i++) {
        uint64_t kept = window[states[i].at];
        window[states[i].at] = states[i].word;
        uint64_t came = havdorlek_judge(window);
        compare(states[i].what, &came, &states[i].wanted, 1);
        window[states[i].at] = kept;
    }
    const uint64_t wanted[3] = {17, 17, 0};
    uint64_t came[3] = {0, 0, 7};
    memset(window, 0, sizeof window);
    came[0] = havdorlek_send(window, 1);
    came[1] = havdorlek_report(window, 0, 0, 0, verdicts, sizeof verdicts, came + 2);
    compare("send and report on a state of zeros: 17", came, wanted, 3);
}

/* ---- The receiving member ---- */

static const struct {
    const char *what;
    uint64_t before[2];
    uint64_t k;
    uint64_t wanted[3];
} arrivals[] = {
    {"arrival 64 with c = 0", {0, 0}, 64, {0, 0, UINT64_C(1) << 63}},
    {"arrival 65 with c = 0: 18", {0, 0}, 65, {18, 0, 0}},
    {"arrival 0: 6", {0, 0}, 0, {6, 0, 0}},
    {"arrival above the message limit: 6", {0, 0}, MESSAGE_LIMIT + 1, {6, 0, 0}},
    {"arrival of what is held", {9, 4}, 3, {0, 9, 4}},
    {"arrival of what is marked", {9, 4}, 12, {0, 9, 4}},
    {"arrival of 10 with 11 marked", {9, 2}, 10, {0, 11, 0}},
    {"arrival at holdings with bit 0 marked: 17", {0, 1}, 1, {17, 0, 1}},
    {"arrival at holdings above the limit: 17", {MESSAGE_LIMIT, 2}, 1, {17, MESSAGE_LIMIT, 2}},
};

static void ask_arrivals(void)
{
    for (size_t i = 0; i < LENGTH(arrivals); i++) {
        uint64_t holdings[HAVDORLEK_HOLDINGS_WORDS] = {arrivals[i].before[0], arrivals[i].before[1]};
        uint32_t refusal = havdorlek_arrive(holdings, arrivals[i].k);
        uint64_t came[3] = {refusal, holdings[0], holdings[1]};
        compare(arrivals[i].what, came, arrivals[i].wanted, 3);
    }
}

static void ask_receiver_reports(void)
{
    const uint64_t wanted[3] = {0, 64, 0}, refused[3] = {17, 0, 0};
    uint64_t holdings[HAVDORLEK_HOLDINGS_WORDS] = {7, 7};
    uint64_t came[3] = {0, 7, 7};
    havdorlek_fresh(holdings);
    for (uint64_t k = 2; k <= 65; k++)
        came[0] |= havdorlek_arrive(holdings, k <= 64 ? k : 1);
    came[0] |= havdorlek_receiver_report(holdings, came + 1);
    compare("messages 2 to 64 arrive, then 1: c = 64, mask 0", came, wanted, 3);
    holdings[HAVDORLEK_HOLDINGS_MASK] = 1;
    came[0] = havdorlek_receiver_report(holdings, came + 1);
    compare("report of holdings with bit 0 marked: 17", came, refused, 3);
}

/* ---- Link records ---- */

/* Bytes that are not named are zero. */
static const struct {
    const char *what;
    size_t length;
    uint8_t bytes[25];
    uint64_t wanted[5];
} readings[] = {
    {"reading an unused place", 24, {0}, {0, 0, 0, 0, 0}},
    {"reading a report", 24, {1, 5, [8] = 2, [9] = 1, [16] = 4}, {0, 1, 5, 258, 4}},
    {"reading an arrival", 24, {2, 5, [15] = 1}, {0, 2, 5, UINT64_C(1) << 56, 0}},
    {"reading a private record", 24, {200, 5, 6, [23] = 9}, {0, 200, 0, 0, 0}},
    {"reading 23 bytes: 16", 23, {1}, {16, 0, 0, 0, 0}},
    {"reading 25 bytes: 16", 25, {3}, {16, 0, 0, 0, 0}},
    {"reading kind 3: 14", 24, {3}, {14, 0, 0, 0, 0}},
    {"reading kind 127: 14", 24, {127, 1, 1}, {14, 0, 0, 0, 0}},
    {"reading an unused place with a member: 15", 24, {0, 1}, {15, 0, 0, 0, 0}},
    {"reading a report with byte 7 set: 15", 24, {1, [7] = 1}, {15, 0, 0, 0, 0}},
    {"reading an arrival with a mask: 15", 24, {2, [16] = 1}, {15, 0, 0, 0, 0}},
};

static void ask_readings(void)
{
    for (size_t i = 0; i < LENGTH(readings); i++) {
        uint64_t came[5] = {7, 7, 7, 7, 7};
        came[0] = havdorlek_read(readings[i].bytes, readings[i].length, came + 1);
        compare(readings[i].what, came, readings[i].wanted, 5);
    }
}

/* Wanted: refusal, then kind and member, the lowest bytes of number and mask, and the byte behind the record. */
static const struct {
    const char *what;
    uint8_t kind, member;
    uint64_t number, mask;
    size_t room;
    uint64_t wanted[6];
} writings[] = {
    {"writing an unused place", 0, 0, 0, 0, 25, {0, 0, 0, 0, 0, 7}},
    {"writing a report", 1, 5, 258, 4, 25, {0, 1, 5, 2, 4, 7}},
    {"writing an arrival", 2, 5, 9, 0, 24, {0, 2, 5, 9, 0, 7}},
    {"writing kind 3: 14", 3, 0, 0, 0, 25, {14, 7, 7, 7, 7, 7}},
    {"writing a private record: 14", 128, 1, 1, 1, 0, {14, 7, 7, 7, 7, 7}},
    {"writing an unused place with a number: 15", 0, 0, 1, 0, 25, {15, 7, 7, 7, 7, 7}},
    {"writing an arrival with a mask: 15", 2, 0, 1, 1, 0, {15, 7, 7, 7, 7, 7}},
    {"writing into 23 bytes: 5", 1, 0, 1, 0, 23, {5, 7, 7, 7, 7, 7}},
};

static void ask_writings(void)
{
    for (size_t i = 0; i < LENGTH(writings); i++) {
        uint8_t out[25];
        memset(out, 7, sizeof out);
        uint32_t refusal = havdorlek_write(writings[i].kind, writings[i].member, writings[i].number, writings[i].mask, out,
                                           writings[i].room);
        uint64_t came[6] = {refusal, out[0], out[1], out[8], out[16], out[24]};
        compare(writings[i].what, came, writings[i].wanted, 6);
    }
}

/* ---- The plan program ---- */

/* The example's input: kind, first number, second number of each record. All fit a byte. */
static const uint8_t plan_records[][3] = {
    {1, 1, 0}, {2, 1, 0}, {2, 1, 0}, {2, 1, 0}, {3, 2, 0}, {4, 1, 0},
    {4, 1, 0}, {4, 1, 0}, {4, 1, 0}, {4, 1, 0}, {5, 3, 3},
};

#define PLAN_INPUT (12 * LENGTH(plan_records))

static const char plan_text[] = "resend from to run\n"
                                "0 2 2 0\n"
                                "1 0 0 3\n"
                                "2 0 1 2\n"
                                "3 1 1 1\n"
                                "4 1 2 3\n"
                                "5 1 3 1\n"
                                "6 2 3 2\n"
                                "7 2 4 3\n";

/* The same input with one byte changed, or cut short. */
static const struct {
    const char *what;
    size_t at;
    uint8_t byte;
    size_t length;
    const char *wanted;
} plans[] = {
    {"the plan of message 3, three to five", 0, 1, PLAN_INPUT, plan_text},
    {"a plan without its last byte: 19", 0, 1, PLAN_INPUT - 1, "refused 19\n"},
    {"a plan without its last record: 19", 0, 1, PLAN_INPUT - 12, "refused 19\n"},
    {"a plan with kind 4 first: 19", 0, 4, PLAN_INPUT, "refused 19\n"},
    {"a plan with a byte behind a kind: 19", 3, 1, PLAN_INPUT, "refused 19\n"},
    {"a plan with a number behind a share: 19", 20, 1, PLAN_INPUT, "refused 19\n"},
    {"a plan with share 0: 2", 16, 0, PLAN_INPUT, "refused 2\n"},
    {"a plan with u 2 of three: 3", 4, 2, PLAN_INPUT, "refused 3\n"},
    {"a plan with q 0: 4", PLAN_INPUT - 8, 0, PLAN_INPUT, "refused 4\n"},
    {"a plan of message 0: 6", PLAN_INPUT - 4, 0, PLAN_INPUT, "refused 6\n"},
};

static void ask_plans(void)
{
    for (size_t i = 0; i < LENGTH(plans); i++) {
        uint8_t input[PLAN_INPUT] = {0};
        uint8_t out[HAVDORLEK_PLAN_BYTES];
        for (size_t j = 0; j < LENGTH(plan_records); j++)
            for (size_t field = 0; field < 3; field++)
                input[12 * j + 4 * field] = plan_records[j][field];
        input[plans[i].at] = plans[i].byte;
        size_t length = havdorlek_plan(input, plans[i].length, out);
        compare_text(plans[i].what, out, length, plans[i].wanted);
    }
}

/* No shares at all, of either cluster: 1, and not 19. */
static void ask_plan_of_nobody(void)
{
    uint8_t input[36] = {[0] = 1, [12] = 3, [24] = 5};
    uint8_t out[HAVDORLEK_PLAN_BYTES];
    size_t length = havdorlek_plan(input, sizeof input, out);
    compare_text("a plan without shares: 1", out, length, "refused 1\n");
}

int main(void)
{
    ask_counts();
    ask_first_pairs();
    ask_resend_pairs();
    ask_first_good();
    ask_openings();
    ask_steps();
    ask_verdict();
    ask_full_window();
    ask_states();
    ask_arrivals();
    ask_receiver_reports();
    ask_readings();
    ask_writings();
    ask_plans();
    ask_plan_of_nobody();
    printf("%u examples, %u differ\n", asked, differing);
    return differing == 0 ? 0 : 1;
}
