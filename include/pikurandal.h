/*
 * Pikurandal, the link layer library of a wall box, for C: the LARQ receiver over a table of 64 channels, the capability sets and the rate
 * request frame. `host/archive` proves the library and makes the archive that has these functions, target/staticlib/libwallbox.a (x86-64
 * Linux); it needs nothing but C's memcpy, memmove and memset.
 *
 * Each function is proved to do what stands here on every input, refused ones too: none has a condition that a caller could break by the values
 * that it passes. What no proof can see is the caller, so this is what the host owes:
 *
 * - A pointer with a length leads to that many elements, aligned as their type is, and is not NULL even where the length is 0. A pointer to an
 *   address leads to six octets.
 * - What a call may write (a pointer without const) overlaps nothing else that the same call was given. Two things that are only read (const) may
 *   overlap, as destination and source may be the same six octets.
 * - Until the call returns, nobody else writes to what it was lent, nor reads what it may write.
 *
 * No function keeps a pointer, allocates, locks, or calls back. Two threads may call at once on slices of their own.
 */
#ifndef PIKURANDAL_H
#define PIKURANDAL_H

#include <stdbool.h>
#include <stddef.h>
#include <stdint.h>

#ifdef __cplusplus
extern "C" {
#endif

/* ---- The version: major, minor and patch. docs/changes/README.md says what each means for a host. */

#define PIK_VERSION_MAJOR 1
#define PIK_VERSION_MINOR 0
#define PIK_VERSION_PATCH 0
#define PIK_VERSION "1.0.0"
#define PIK_VERSION_NUMBER (1000000 * PIK_VERSION_MAJOR + 1000 * PIK_VERSION_MINOR + PIK_VERSION_PATCH)

/* The version of the archive that was linked, as PIK_VERSION_NUMBER is this header's. The major version is part of the name. */
uint32_t pik_version_1(void);

/* Every file that includes this header asks for that name, so that a host compiled against another major version does not link: the linker misses
 * pik_version_1, or the like. gcc and clang keep the reference though nothing uses it; those that know `retain` have the linker keep it too where it
 * drops what is not used (--gc-sections). With another compiler, call pik_version_1 when the host starts. */
#ifdef __GNUC__
#define PIK_KEPT __attribute__((used))
#ifdef __has_attribute
#if __has_attribute(retain)
#undef PIK_KEPT
#define PIK_KEPT __attribute__((used, retain))
#endif
#endif
static uint32_t (*const pik_version_linked)(void) PIK_KEPT = pik_version_1;
#undef PIK_KEPT
#endif

/* ---- The numbers an answer may have. 0 is accepted; each other one says why the call was refused, and then nothing was changed or written. */

enum pik_number {
    PIK_ACCEPTED = 0,

    /* Channel events: the first that applies, in this order. */
    PIK_MISFIT = 1,      /* a buffer has fewer than 32 entries, or a slice of the table has not its length */
    PIK_NO_NUMBER = 2,   /* data, reminder: the number is above 4,095 */
    PIK_NO_PRIORITY = 3, /* the priority is above 7 */
    PIK_NO_CHANNEL = 4,  /* reminder, tick, close, look: no such channel is open */
    PIK_NO_PLACE = 5,    /* data: the channel would be new, and no place is free */
    PIK_BROKEN = 6,      /* the channel's record is broken: the slices were written by someone else. A close is refused too. Zeros in the place's
                            part of all four slices free it (docs/LAYOUT.md); pik_empty does so to all 64 places */
    PIK_EARLY = 7,       /* the time is earlier than the channel's latest, which pik_look shows */
    PIK_FAR = 8,         /* reminder: the number is more than 64 from the current one, ahead or behind */

    /* Rate requests. The reader checks 10 to 22 in this order, the writer 15, 16, 23, 18, 19, 20, 21, 24. */
    PIK_FRAME_LENGTH = 10,   /* the frame has fewer than 60 or more than 1,514 octets */
    PIK_ETHERTYPE = 11,      /* the Ethertype is not 0x886c */
    PIK_SS_TYPE = 12,        /* SSType is not 1 */
    PIK_SS_LENGTH = 13,      /* SSLength is below 8, or reaches past the frame's end */
    PIK_SS_VERSION = 14,     /* SSVersion is not 0 */
    PIK_OPCODE = 15,         /* OpCode is above 2 */
    PIK_NO_BAND = 16,        /* NumBands is 0 */
    PIK_COUNTS = 17,         /* SSLength is not 6 + 2 x NumBands + 6 x NumAddr */
    PIK_BAND_1 = 18,         /* band 1's PE is not 1 to 7 */
    PIK_BAND_2 = 19,         /* band 2 is there, and its PE is neither 0 nor 9 to 15 */
    PIK_RANKS = 20,          /* a rank is 0, where band 2's counts only if there is a band 2; or both bands have the same */
    PIK_NO_GROUP = 21,       /* an extra address is no group address: the low bit of its first octet is 0 */
    PIK_NEXT_ETHERTYPE = 22, /* Next Ethertype is not 0 */
    PIK_LAYOUT = 23,         /* writer: no frame holds this. An address is not whole; there is a third band; beside one band, PE and rank of
                                band 2 are not both 0; or SSLength would not be an octet */
    PIK_OUTPUT = 24,         /* writer: the output is too short */

    /* Capability sets. */
    PIK_CSA_OPCODE = 30 /* received frame: the opcode is above 1 */
};

/* ---- The channel table
 *
 * The host lends four slices with each call and keeps them in between; all zeros is the empty table. Between calls they may be copied or moved, not
 * written. docs/LAYOUT.md says what they hold. */

enum {
    PIK_PLACES = 64,
    PIK_KEYS = 128,
    PIK_WORDS = 2240,
    PIK_HANDLES = 2048,
    PIK_MARKS = 2048,

    /* What each answer buffer must have at least: at most 32 handles go up, 31 come back and 32 numbers are asked for in one call. */
    PIK_BUFFER = 32
};

/* A table's slices and an answer's buffers in one piece each, for hosts that like that; the functions take any slices. */
struct pik_table {
    uint64_t keys[PIK_KEYS];
    uint64_t words[PIK_WORDS];
    uint32_t handles[PIK_HANDLES];
    uint8_t marks[PIK_MARKS];
};

struct pik_buffers {
    uint32_t up[PIK_BUFFER];
    uint32_t returned[PIK_BUFFER];
    uint16_t nack[PIK_BUFFER];
};

/* Such a table, and such buffers, as the arguments of a call. The macros name what they are given several times: give them a plain pointer. */
#define PIK_TABLE(t) (t)->keys, PIK_KEYS, (t)->words, PIK_WORDS, (t)->handles, PIK_HANDLES, (t)->marks, PIK_MARKS
#define PIK_BUFFERS(b) (b)->up, PIK_BUFFER, (b)->returned, PIK_BUFFER, (b)->nack, PIK_BUFFER

/* The answer to a channel event: the number, how many entries of each buffer were written, and how many numbers were given up as lost in this call.
 * Entries past each count are as they were. Refused, all counts are 0. */
struct pik_answer {
    uint8_t number;
    size_t up;       /* handles handed up, in sequence order */
    size_t returned; /* handles that the box gives back unused, in sequence order */
    size_t nack;     /* numbers to be asked for again, in sequence order */
    size_t lost;
};

/* What the four events share
 *
 * - The box counts by two numbers of a channel: the current number, the newest that it knows to be sent, and the oldest missing number, which is the one
 *   that it expects next. Numbers 0 to 4,095 go round: 0 follows 4,095, and of two numbers it is the shorter way that says which one is ahead.
 * - Frames go up in sequence. One that comes early waits, in a window of 32 numbers up to the current one. Where the current number moves on by so much
 *   that older numbers leave the window, those that waited go up and those that were missing are lost.
 * - A channel is a destination, a source (six octets each, in the order in which they stand in a frame) and a priority 0 to 7. The first frame opens
 *   it, a close frees its place, and pik_empty frees all 64 places.
 * - A time is the host's count of ticks, in a unit of the host's. On one channel it may stand still but not go back: number 7. Every accepted event sets
 *   the channel's latest time, also where it changes nothing else.
 * - A handle is any number by which the host knows a frame's body. What went up is the upper layer's, in this order; what was returned is the host's to
 *   drop. A frame that was accepted and is in neither list waits: the channel keeps its handle until a later call names it. The handle of a frame that was
 *   refused was not taken: it is the host's to drop.
 * - Numbers to be asked for again are told once, in the call that finds them missing. Sending the request, and again later, is the host's part.
 * - One call serves one channel. A host with several open channels ticks each of them.
 * - A table that only these functions wrote has no key twice. If one of the host's own making has, the first of its places is the channel, and a close
 *   frees that one alone. */

/* Empties a table, whatever it held: all 64 places are zeros, and free. What waited in them is not returned. Number 1, or 0. */
uint8_t pik_empty(uint64_t *keys, size_t keys_length, uint64_t *words, size_t words_length, uint32_t *handles, size_t handles_length,
                  uint8_t *marks, size_t marks_length);

/* A data frame with this sequence number came in on a channel; `handle` stands for its body, which stays with the host. What is done with it depends on
 * where it lies:
 *
 * - No such channel is open: the frame opens one at the first free place, and goes up.
 * - 1 to 64 ahead of the current number: it is the current one now. The numbers that it skipped are missing from this time on and are asked for, but for
 *   those that left the window at once. The frame waits behind them; where none is missing it goes up in this call.
 * - The current number, or up to 64 behind it: if the number is missing, the frame fills the gap, and goes up with all that waited just behind it, as soon
 *   as no older number is missing. If not, the handle is returned: the number waits already, or the channel is past it.
 * - Farther away, either way: the sender has begun anew, and so does the channel. What waited is returned, the frame goes up, and nothing counts as lost.
 *
 * Numbers 1, 2, 3, 5, 6, 7. */
struct pik_answer pik_data(uint64_t *keys, size_t keys_length, uint64_t *words, size_t words_length, uint32_t *handles, size_t handles_length,
                           uint8_t *marks, size_t marks_length, uint32_t *up, size_t up_length, uint32_t *returned, size_t returned_length,
                           uint16_t *nack, size_t nack_length, const uint8_t destination[6], const uint8_t source[6], uint8_t priority,
                           uint64_t time, uint16_t number, uint32_t handle);

/* A reminder came in: the sender says up to which number it has sent. If that is 1 to 64 ahead, it is the current number now; it and all that lie between
 * are missing from this time on and are asked for, but for those that left the window at once. If it is the current one or up to 64 behind, the box knew
 * of it already, and only the latest time changes. A reminder brings no frame, so it neither opens a channel (number 4) nor restarts one (number 8).
 * Numbers 1, 2, 3, 4, 6, 7, 8. */
struct pik_answer pik_reminder(const uint64_t *keys, size_t keys_length, uint64_t *words, size_t words_length, uint32_t *handles, size_t handles_length,
                               uint8_t *marks, size_t marks_length, uint32_t *up, size_t up_length, uint32_t *returned, size_t returned_length,
                               uint16_t *nack, size_t nack_length, const uint8_t destination[6], const uint8_t source[6], uint8_t priority,
                               uint64_t time, uint16_t number);

/* The host's clock, for one channel. Once the oldest missing number has been missing for 150 ticks, it is given up as lost and what waited just behind it
 * goes up; so with the next one, until one is reached that has not been missing for so long. Nothing is given up by itself: without a tick, a frame may
 * wait for ever behind one that never comes. A tick asks for nothing and returns nothing. Numbers 1, 3, 4, 6, 7. */
struct pik_answer pik_tick(const uint64_t *keys, size_t keys_length, uint64_t *words, size_t words_length, uint32_t *handles, size_t handles_length,
                           uint8_t *marks, size_t marks_length, uint32_t *up, size_t up_length, uint32_t *returned, size_t returned_length,
                           uint16_t *nack, size_t nack_length, const uint8_t destination[6], const uint8_t source[6], uint8_t priority,
                           uint64_t time);

/* The host gives the channel up. All handles that wait come back in sequence order, none goes up, and nothing counts as lost. Its place is then zeros, and
 * free for any channel; a later frame with the same key opens a new one. Refused, as by number 7, the channel stays open; the latest time that pik_look
 * shows is never too early. Numbers 1, 3, 4, 6, 7. */
struct pik_answer pik_close(uint64_t *keys, size_t keys_length, uint64_t *words, size_t words_length, uint32_t *handles, size_t handles_length,
                            uint8_t *marks, size_t marks_length, uint32_t *up, size_t up_length, uint32_t *returned, size_t returned_length,
                            uint16_t *nack, size_t nack_length, const uint8_t destination[6], const uint8_t source[6], uint8_t priority,
                            uint64_t time);

/* What a look at a channel shows: its current number C, its oldest missing number M, the latest time, and how many numbers there are from M to C (0:
 * nothing is missing). Refused, all fields but the number are 0. */
struct pik_view {
    uint8_t number;
    uint16_t current;
    uint16_t oldest;
    uint64_t latest;
    size_t span;
};

/* A look at a channel's record; nothing changes by it. For each number from M to C, in sequence order, an entry of both buffers is written: 1 and the
 * handle where it waits, 0 and the time since when it is missing. Each buffer must have at least 32 entries. Numbers 1, 3, 4, 6. */
struct pik_view pik_look(const uint64_t *keys, size_t keys_length, const uint64_t *words, size_t words_length, const uint32_t *handles,
                         size_t handles_length, const uint8_t *marks, size_t marks_length, const uint8_t destination[6],
                         const uint8_t source[6], uint8_t priority, uint8_t *waits, size_t waits_length, uint64_t *values,
                         size_t values_length);

/* ---- Capability sets
 *
 * By these stations tell each other what they can do. A set is a word of 32 flags. A station is six of them, kept by the host and passed by value; each
 * event's answer has the station after it. NewTx and PreviousTx are the default set with what it used in this period and in the last, together
 * CurrentTx; OldestTx is the same of the period before. NewRx and PreviousRx are what it heard of others in this period and in the last, together
 * CurrentRx.
 *
 * The host has two timers. One marks the end of each period. The other, the retransmit timer, it starts and cancels as the answers say; when that one
 * runs out, it sends pik_station_frame once more. */

struct pik_station {
    uint32_t default_set;
    uint32_t new_tx;
    uint32_t previous_tx;
    uint32_t oldest_tx;
    uint32_t new_rx;
    uint32_t previous_rx;
};

/* The sets that a capability frame carries. */
struct pik_frame {
    uint32_t oldest_tx;
    uint32_t current_tx;
    uint32_t current_rx;
};

/* What the host is to do with its retransmit timer. */
enum pik_timer {
    PIK_TIMER_KEPT = 0,     /* nothing */
    PIK_TIMER_STARTED = 1,  /* cancel it if it runs, and start it */
    PIK_TIMER_CANCELLED = 2 /* cancel it if it runs */
};

/* The answer to an event of a station. Refused, nothing is sent or reported, the timer is kept, and the station is as it was. */
struct pik_station_answer {
    uint8_t number;
    bool sends;                 /* a frame is to be sent now, with the sets in `frame` */
    uint8_t timer;              /* one of enum pik_timer */
    uint32_t reported;          /* flags that are really new: CurrentRx lacked them before. Only a received frame has such */
    struct pik_station station; /* the station after the event */
    struct pik_frame frame;     /* the sets that a frame sent after the event carries */
};

/* A fresh station: NewTx is the default set, the others are empty. */
struct pik_station pik_station_fresh(uint32_t default_set);

/* The station begins to use these flags, and NewTx has them from now on. If CurrentTx lacked one of them, that is news: a frame with the sets after the
 * event is to be sent now, and the retransmit timer is started. If it had them all, nothing is sent and the timer is kept. Number 0 always. */
struct pik_station_answer pik_station_use(struct pik_station station, uint32_t flags);

/* A period is over. Each set takes the place of the older one: PreviousTx becomes OldestTx, NewTx becomes PreviousTx, NewRx becomes PreviousRx; the new
 * period begins with the default set in NewTx and nothing in NewRx. A frame with the sets after that is sent each time. The retransmit timer is started
 * anew where CurrentTx and OldestTx are then different, and cancelled where they are equal. Number 0 always. */
struct pik_station_answer pik_station_period(struct pik_station station);

/* A capability frame of another station came in, with these sets. NewRx takes its CurrentTx in, and `reported` has the flags that CurrentRx did not have
 * before. What the sender no longer uses, and so has in OldestTx but not in CurrentTx, then leaves NewRx and PreviousRx. Opcode 1 asks for an answer:
 * it starts the retransmit timer. Opcode 0 keeps it. Nothing is sent at once, and the frame's CurrentRx changes nothing. Number 30, or 0. */
struct pik_station_answer pik_station_receive(struct pik_station station, uint8_t opcode, struct pik_frame frame);

/* The sets that a frame sent now carries: OldestTx, CurrentTx and CurrentRx. It is what the host sends when its retransmit timer runs out; that is no
 * event, and the station stays as it is. */
struct pik_frame pik_station_frame(struct pik_station station);

/* ---- Rate requests */

/* The fixed fields of a request. A band 2 that is not there is PE 0, rank 0. */
struct pik_request {
    uint8_t destination[6];
    uint8_t source[6];
    uint8_t opcode; /* 0: change the rate; 1: ask for test frames; 2: such a test frame */
    uint8_t bands;  /* NumBands, how many the frame has */
    uint8_t pe1;    /* a band's payload encoding, which pik_rate_of turns into a rate */
    uint8_t rank1;  /* how much the band is wanted: the lower rank first */
    uint8_t pe2;
    uint8_t rank2;
};

/* A frame that was read. The addresses are the caller's own octets: `extent` of them, from octet `start` of the frame on. Refused, all fields but the
 * number are 0. */
struct pik_reading {
    uint8_t number;
    uint8_t addresses; /* how many: extent is 6 times that */
    struct pik_request request;
    size_t start;
    size_t extent;
};

/* A request that was written: how many octets, 0 if refused. */
struct pik_written {
    uint8_t number;
    size_t count;
};

/* Reads a frame, which came without its check sequence, and says what its fixed fields are and where in it the addresses stand; nothing is copied. A
 * third band and further ones are counted but not looked at, nor is anything after Next Ethertype. Any length may be given. Numbers 10 to 22, or 0. */
struct pik_reading pik_rate_read(const uint8_t *frame, size_t frame_length);

/* Writes a request with these addresses, six octets each, from the start of the output on: 60 octets, or more if the addresses need it, 270 at most.
 * Where there is no address, the length is 0 and the pointer any but NULL. Octets past the count are as they were. Refused, all of the output is. Numbers 15, 16, 23, 18, 19, 20, 21, 24, in this order, or 0. */
struct pik_written pik_rate_write(uint8_t *out, size_t out_length, struct pik_request request, const uint8_t *addresses,
                                  size_t addresses_length);

/* The rate of a PE in Mbit/s, or 0 where it has none: 4 to 16 for PE 1 to 7, 8 to 32 for PE 9 to 15. */
uint8_t pik_rate_of(uint8_t pe);

/* The band that a request chooses: 1 or 2, the one of lowest rank whose PE is not 0; 0 where both PEs are 0, which no accepted request has. */
uint8_t pik_rate_chosen(struct pik_request request);

#ifdef __cplusplus
}
#endif

#endif
