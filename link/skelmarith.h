/*
 * skelmarith.h: access points (APs) that speak the Inter-Access Point Protocol, for C and C++ on x86-64.
 *
 * The library reads and writes packets, runs one AP alone, a floor of up to eight APs with the packets in the air between
 * them, and whole scripts of the floor rehearsal. It keeps nothing of its own between calls, allocates nothing and does no
 * input or output: all that it works on is lent by the caller.
 *
 * What the caller grants, in every call:
 *   - no pointer is null, also where its length is 0: any address will do for a part of no octets;
 *   - every pointer is aligned as its type asks, and valid for the whole struct or for as many octets as the length says;
 *   - a record or a buffer that the call may write overlaps nothing else that the call is given, and nobody else reads or
 *     writes it meanwhile;
 *   - the stack has room, since records are copied there: 16 KB for the calls on one AP alone, 192 KB for those on a floor and for a
 *     script. What each call uses: link/stack.sh.
 * Nothing else is asked. Numbers may have any value and records may hold anything: what is outside the limits is refused.
 *
 * Answers. Every result has `answer`: 0, or the number of a refusal below. A refused call changes neither record nor buffer, and
 * every other number of its result is 0. The checks run in the order that stands at each function, and the first that applies
 * decides.
 *
 * Records. A record has room for everything and says by a count how much of it is used, in the order of arrival, opening or
 * sending. After set-up all that is not used is zero, and a slot that becomes free is filled with zeros; a slot that was not
 * used before a call and is not used after it keeps what it holds. Padding between the fields is no part of a record.
 */
#ifndef SKELMARITH_H
#define SKELMARITH_H

#include <stddef.h>
#include <stdint.h>

#ifdef __cplusplus
extern "C" {
#define SKEL_ASSERT(condition, text) static_assert(condition, text)
#else
#define SKEL_ASSERT(condition, text) _Static_assert(condition, text)
#endif

/* Limits. */
#define SKEL_MOST_ROWS 16
#define SKEL_MOST_MOVES 8
#define SKEL_MOST_APS 8
#define SKEL_MOST_IN_FLIGHT 64
#define SKEL_LONGEST_CONTEXT 64
#define SKEL_LONGEST_PACKET 82
#define SKEL_LAST_SEQUENCE 4095
#define SKEL_MOST_RESENDS 7

/* A join's `old` where the station comes from no AP. */
#define SKEL_NONE 0xFFFFFFFFu

/* Commands and statuses of packets. */
#define SKEL_ADD_NOTIFY 0
#define SKEL_MOVE_NOTIFY 1
#define SKEL_MOVE_RESPONSE 2
#define SKEL_SUCCESSFUL 0
#define SKEL_STALE_MOVE 1

/* Answers. */
enum skel_answer {
    SKEL_ACCEPTED = 0,
    /* whoever sends a packet */
    SKEL_SHORT_HEADER = 1,   /* fewer than 6 octets */
    SKEL_VERSION = 2,        /* Version is not 00 */
    SKEL_COMMAND = 3,        /* Command is above 02 */
    SKEL_LENGTH_ABOVE = 4,   /* Length is above the octets given */
    SKEL_LENGTH = 5,         /* an ADD's Length is not 16, or a MOVE's is below 18 */
    SKEL_ADDRESS_LENGTH = 6, /* Address Length is not 06 */
    SKEL_SEQUENCE = 7,       /* the sequence number is above 4095 */
    SKEL_STATUS = 8,         /* Status is above 01 */
    SKEL_CONTEXT = 9,        /* the context has more than 64 octets, or Length is not 18 and its octets */
    /* whoever lends a buffer */
    SKEL_SHORT_BUFFER = 10, /* the buffer is shorter than what is to be written */
    /* whoever gives an event */
    SKEL_NO_SUCH_AP = 11,     /* the AP is not on the floor; of outside bytes: the sender is not, or is the AP itself */
    SKEL_NO_SUCH_PACKET = 12, /* the air has no such packet */
    SKEL_GROUP_STATION = 13,  /* the station's first octet is odd */
    /* whoever sets up or lends a record */
    SKEL_RECORD = 14, /* set-up or record is outside the limits; before every other number */
    /* whoever joins */
    SKEL_NOT_NEWER = 15,  /* the station has a row there and the sequence number is not newer */
    SKEL_ROWS_FULL = 16,  /* the station has no row there and 16 others have one */
    SKEL_MOVES_FULL = 17, /* a move is needed and 8 are open */
    /* whoever writes a script: a line that cannot be read; in the output alone, no call answers it */
    SKEL_UNREADABLE_LINE = 18
};

/* A row: a station at an AP, with its sequence number and the first `context_len` octets of `context`. */
typedef struct {
    uint8_t station[6];
    uint16_t sequence;
    size_t context_len;
    uint8_t context[SKEL_LONGEST_CONTEXT];
} skel_association;

/* An open move: the AP waits for the answer of `old` to its MOVE-notify. */
typedef struct {
    uint8_t station[6];
    uint16_t sequence;
    uint8_t old;
    uint16_t identifier;
    uint16_t ticks_left;
    uint8_t resends_left;
} skel_move;

/* The rows of an AP, in order of arrival. */
typedef struct {
    skel_association items[SKEL_MOST_ROWS];
    size_t count;
} skel_associations;

/* The open moves of an AP, in order of opening. */
typedef struct {
    skel_move items[SKEL_MOST_MOVES];
    size_t count;
} skel_moves;

/* An AP's record. The counts go from 4294967295 to 0. */
typedef struct {
    skel_associations associations;
    skel_moves moves;
    uint16_t next_identifier;
    uint32_t opened, resent, answered, given_up;
} skel_access_point;

/* One AP alone: its record, its own number, and the floor's AP count, T and R. */
typedef struct {
    skel_access_point point;
    uint8_t number, ap_count;
    uint16_t timeout;
    uint8_t resend_limit;
} skel_lone_access_point;

/* A packet in the air: sender, receiver, and the first `len` octets of `octets`. */
typedef struct {
    uint8_t from, to;
    size_t len;
    uint8_t octets[SKEL_LONGEST_PACKET];
} skel_in_flight;

/* The air: packets in order of sending. */
typedef struct {
    skel_in_flight items[SKEL_MOST_IN_FLIGHT];
    size_t count;
} skel_in_flights;

/* The floor: its AP count, T and R, its APs' records and the air. */
typedef struct {
    uint8_t ap_count;
    uint16_t timeout;
    uint8_t resend_limit;
    skel_access_point points[SKEL_MOST_APS];
    skel_in_flights in_flight;
} skel_network;

/* A packet that was read. The context is the `len` octets of the caller's packet from `start` on. */
typedef struct {
    uint8_t answer, command;
    uint16_t identifier;
    uint8_t status;
    uint8_t station[6];
    uint16_t sequence;
    size_t start, len;
} skel_reading;

/* How many octets were written at the front of the buffer. */
typedef struct {
    uint8_t answer;
    size_t len;
} skel_written;

/* An event on the floor: ANSWER, SENT, GIVENUP, HELD and TABLES of the rehearsal. */
typedef struct {
    uint8_t answer, sent, given_up, held, tables;
} skel_line;

/*
 * A call of one AP alone. It sent `sent` packets, which stand one behind the other in the first `len` octets of the buffer;
 * packet k goes to AP to[k]. What a call has no use for is 0, and so is the rest of `to`.
 */
typedef struct {
    uint8_t answer, sent, given_up, held;
    uint8_t to[SKEL_MOST_APS];
    size_t len;
} skel_reply;

SKEL_ASSERT(sizeof(size_t) == 8, "a 64-bit machine");
SKEL_ASSERT(sizeof(skel_association) == 80, "skel_association");
SKEL_ASSERT(sizeof(skel_move) == 16, "skel_move");
SKEL_ASSERT(sizeof(skel_associations) == 1288, "skel_associations");
SKEL_ASSERT(sizeof(skel_moves) == 136, "skel_moves");
SKEL_ASSERT(sizeof(skel_access_point) == 1448, "skel_access_point");
SKEL_ASSERT(sizeof(skel_lone_access_point) == 1456, "skel_lone_access_point");
SKEL_ASSERT(sizeof(skel_in_flight) == 104, "skel_in_flight");
SKEL_ASSERT(sizeof(skel_in_flights) == 6664, "skel_in_flights");
SKEL_ASSERT(sizeof(skel_network) == 18256, "skel_network");
SKEL_ASSERT(sizeof(skel_reading) == 32, "skel_reading");
SKEL_ASSERT(sizeof(skel_written) == 16, "skel_written");
SKEL_ASSERT(sizeof(skel_line) == 5, "skel_line");
SKEL_ASSERT(sizeof(skel_reply) == 24, "skel_reply");

/* ---- Packets ---- */

/*
 * Reads a packet. Answers: 1 to 9, in that order.
 * The context of a MOVE starts at 18; that of an ADD-notify is empty, with start 0.
 */
skel_reading skel_read(const uint8_t *packet, size_t packet_len);

/*
 * Writes a packet at the front of the buffer and leaves the rest of it. Answers: 3 for a command above 2; then for an
 * ADD-notify 7, 10; for a MOVE-notify 7, 9, 10; for a MOVE-response 7, 8, 9, 10. The status of another command than a
 * MOVE-response, and the context of an ADD-notify, are not looked at.
 */
skel_written skel_write(uint8_t *buffer, size_t buffer_len, uint8_t command, uint16_t identifier, uint8_t status,
                        const uint8_t station[6], uint16_t sequence, const uint8_t *context, size_t context_len);

/* ---- One AP alone: each of these but the set-up answers 14 first, if the record is outside the limits ---- */

/*
 * An AP with no rows, no moves and all counts 0. Answers: 14 for ap_count 0 or above 8, timeout 0, resend_limit above 7, or a
 * number that is not below ap_count; the record may hold anything before.
 */
skel_reply skel_ap_set_up(skel_lone_access_point *ap, uint16_t number, uint16_t ap_count, uint16_t timeout,
                          uint16_t resend_limit);

/*
 * A station joins. Answers: 14, 13, 7, 9, 15, 16, 17, and last 10. Sent: from another AP of the floor, one MOVE-notify to it; from
 * this AP, nothing; else (SKEL_NONE, or a number from ap_count up) one ADD-notify to every other AP, in rising number and all with one
 * identifier. A buffer of 112 octets is always enough.
 */
skel_reply skel_ap_join(skel_lone_access_point *ap, uint8_t *buffer, size_t buffer_len, const uint8_t station[6],
                        uint16_t sequence, uint32_t old, const uint8_t *context, size_t context_len);

/* A station leaves; with no row there, nothing changes. Answers: 14, 13. */
skel_reply skel_ap_leave(skel_lone_access_point *ap, const uint8_t station[6]);

/*
 * One tick (1024 microseconds). Sent: the notice of each open move that is out of ticks and has resends left; the ones without are given
 * up, and `given_up` counts them. Answers: 14, 10. A buffer of 144 octets is always enough.
 */
skel_reply skel_ap_tick(skel_lone_access_point *ap, uint8_t *buffer, size_t buffer_len);

/*
 * Bytes come in from AP `from`. Sent: the answer to a MOVE-notify, to `from`. Answers: 14; 11 for a sender that is not on the floor
 * or is the AP itself; 1 to 9; 10. A buffer of 82 octets is always enough.
 */
skel_reply skel_ap_outside(skel_lone_access_point *ap, uint8_t *buffer, size_t buffer_len, uint16_t from,
                           const uint8_t *packet, size_t packet_len);

/* Whether the AP has a row of the station: `held` is 1 or 0. Nothing changes. Answers: 14, 13. */
skel_reply skel_ap_who(skel_lone_access_point *ap, const uint8_t station[6]);

/* ---- The floor: each of these but the set-up answers 14 first, if the record is outside the limits ---- */

/*
 * A floor with empty APs and nothing in the air. Answers: 14 for ap_count 0 or above 8, timeout 0 or resend_limit above 7; the
 * record may hold anything before.
 */
skel_line skel_set_up(skel_network *net, uint16_t ap_count, uint16_t timeout, uint16_t resend_limit);

/* A station joins AP `at`, as in skel_ap_join; what is sent goes into the air. Answers: 14, 11, 13, 7, 9, 15, 16, 17. */
skel_line skel_join(skel_network *net, uint16_t at, const uint8_t station[6], uint16_t sequence, uint32_t old,
                    const uint8_t *context, size_t context_len);

/* A station leaves AP `at`. Answers: 14, 11, 13. */
skel_line skel_leave(skel_network *net, uint16_t at, const uint8_t station[6]);

/* A packet is taken out of the air, then its receiver acts. Answers: 14, 12. */
skel_line skel_deliver(skel_network *net, uint16_t packet);

/* A packet's receiver acts, and the packet stays in the air. Answers: 14, 12. */
skel_line skel_repeat(skel_network *net, uint16_t packet);

/* A packet is taken out of the air. Answers: 14, 12. */
skel_line skel_lose(skel_network *net, uint16_t packet);

/* One tick at AP `at`. Answers: 14, 11. */
skel_line skel_tick(skel_network *net, uint16_t at);

/* Who has the station: bit i of `held` for AP i, and `tables` counts the ones. Nothing changes. Answers: 14, 13. */
skel_line skel_who(skel_network *net, const uint8_t station[6]);

/* ---- Scripts ---- */

/*
 * Runs a whole script of the floor rehearsal; its output stands at the front of `out`. Answers: 10. A script with bad set-up is
 * accepted, and its output says 14. 32 octets for each octet of the script and 51 more are always enough; with a shorter buffer
 * that is long enough all the same, the lines may be run twice.
 */
skel_written skel_rehearse(const uint8_t *script, size_t script_len, uint8_t *out, size_t out_len);

#undef SKEL_ASSERT
#ifdef __cplusplus
}
#endif

#endif
