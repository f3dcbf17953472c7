/* The radio bench for a host in C or C++: this page is the manual.
 *
 * THE WAY IT WORKS. The host lends numbers and byte buffers, and each call gives an answer by value. The library keeps no
 * memory of its own, allocates nothing, opens nothing and has no global state: all that lasts is in the session that the host
 * lends. So calls on different sessions may run at the same time. TWO CALLS AT ONCE ON ONE SESSION, or one call while the
 * host writes to what it lends, are not allowed: nothing is claimed of them, of their answers or of the session afterwards. A
 * host with several threads keeps them apart by a lock of its own.
 *
 * ANSWERS. Every answer has the field `answer`: 0 (KB_ACCEPTED), or the number of the one reason for a refusal (enum
 * kb_reason). A refusal gives zeros in all other fields (but for a `place` and a trace's `entry`, and kb_run_record says which
 * it keeps) and CHANGES NOTHING: neither the session nor any lent buffer.
 * Where several reasons hold, the answer is the first in the order in which the call lists them here. docs/ANSWERS.md says of
 * each reason what to do about it.
 * Numbers are 32 bits wide and may be any: what is out of range is refused, never cut. A ticket of 65,537 is not ticket 1.
 * BUT C CONVERTS A WIDER OR A SIGNED NUMBER BEFORE THE CALL, where the library cannot see it: of 64 bits the upper half is
 * cut, so that 4,294,967,303 is loco 7, and -1 is 4,294,967,295, which is KB_NONE. Judge such numbers first; gcc shows them
 * by -Wconversion -Wsign-conversion.
 *
 * PLACES. A refused kb_frame, kb_read_gates, kb_gates_forward, kb_gates_back or kb_read_turnouts also tells in `place` where it
 * broke: the position of the first bit of the field at fault, counted from the start of the sub-packet that was read, whose
 * bit 0 is the top bit of its first byte.
 *   answer 2: 0, the type
 *   answer 3: 4, the length, where it is below 2; 11, the count, where the length is not the one for so many gates, or for
 *             these turnouts, or where there are too many gates to move forward
 *   answer 4: the first field that is not allowed: gate by gate, and in a gate number, suffix, class, whistling type; turnout
 *             by turnout, and in a turnout the speed
 *   answer 5: the first bit of the padding that is set
 *   answer 6: the first distance that cannot go back
 *   answer 1, and an accepted call: 0, since no field is at fault
 * FROM A PLACE TO A FIELD, for answers 4 and 6. Of gates: the gate is (place - 16) / 35, counted from 0, and what is left,
 * (place - 16) % 35, is 0 for its distance, 15 for its number, 25 for its suffix, 29 for its class, 33 for its whistling type.
 * Of gates in the old form, which kb_gates_forward reads: the gate is (place - 16) / 29, and what is left,
 * (place - 16) % 29, is 9 for its number, 19 for its suffix, 23 for its class, 27 for its whistling type. Of turnouts: the
 * field is a speed, and the turnout is (place - 13) % 27 / 5, counted from 0, since each one before it takes 5 bits, and 27
 * more where it has distances. So 13 is the first one's, 18 and 45 are the second's, 23, 50 and 77 the third's. The names for
 * these numbers stand below (KB_FIRST_GATE_AT, KB_FIRST_TURNOUT_AT and the others), and examples/host.c says a place in words.
 * The writers tell no place.
 *
 * BUFFERS. A buffer is a pointer and its length in bytes, and that many bytes must be there: the library cannot see a length
 * that lies. A buffer that a call changes must not overlap another buffer of the same call. Nothing before a buffer's start
 * or past its end is read or written.
 * NULL is no buffer, and no call looks for it: with a length above 0 it is read or written like any other address, and the
 * host ends by a fault. With a length of 0 nothing is read or written there, but no more is claimed of it. Where a buffer is
 * to be empty, lend the address of any byte, and 0.
 *
 * A SESSION is KB_SESSION_SIZE bytes (kb_session, or any buffer of that length), made by kb_start and changed by the other
 * calls alone. It has no pointers in it: it may be copied, saved and moved. A buffer of any other length is refused with 34
 * by every call on a session, before all other reasons but 24. Bytes that these calls did not make do no harm (every call
 * still ends, touches nothing else, and changes nothing on a refusal), but what they answer has no meaning.
 * A COPY IS FOR LOOKING, A STEP BACK IS FOR GOING BACK. A saved copy holds the ticket counter of its time. A host that goes
 * on from it is granted the tickets again that were granted since, and an old ticket may name a new train. kb_step_back
 * leaves the counter, and no ticket is granted twice.
 *
 * NAMES. `loco` is a loco number, 1 to 131,070; `ticket` is what kb_request granted, 1 to 65,535. Every later call on a train
 * names both. Locations are whole metres, 0 to 524,287, rising ahead. Modes: 1 SB, 2 SR, 3 LS, 4 FS, 5 OV, 6 OS, 7 TR, 8 PT,
 * 9 RV, 10 SH, 11 NL, 12 SF, 13 IS.
 *
 * LINKING. `rt lib`, in crates/host, writes crates/host/out/libhost.a, for x86-64 Linux and its C calling convention.
 * examples/host.c is a whole small host.
 * The library approves nothing: no equipment, no line, no train.
 */
#ifndef KAVACH_BENCH_H
#define KAVACH_BENCH_H

#include <stddef.h>
#include <stdint.h>

#ifdef __cplusplus
extern "C" {
#endif

/* The numbers that `answer` may be. One number may stand for several reasons; the call tells them apart, and of a read that is
 * refused with 3 its place. */
enum kb_reason {
    KB_ACCEPTED = 0,
    /* Sub-packets. */
    KB_SHORT = 1,       /* fewer than 2 bytes, or fewer than the length says; or the output is too small */
    KB_TYPE = 2,        /* type 8 to 15; for gates: a type that is not 3; for turnouts: a type that is not 4 */
    KB_LENGTH = 3,      /* length below 2; for gates: not the length for the count in the form that is read; for turnouts: not
                           their length, or one of them runs past the sub-packet; writing: not 9 bytes a gate or 5 a turnout,
                           or over 28 gates or 3 turnouts; moving gates forward: over 28 gates */
    KB_FIELD = 4,       /* a gate's or a turnout's field whose value is not allowed or, writing, too large for its width;
                           writing turnouts: a distance that is absent and not zero */
    KB_PADDING = 5,     /* the bits that fill up the last byte are not zero */
    KB_DISTANCE = 6,    /* moving gates back: a distance that is not a multiple of 10, or is above 5,110 */
    /* Sessions, the mode step, mode traces and the frame age. */
    KB_LOCO = 10,       /* a loco number that is not 1 to 131,070, of a request too */
    KB_BYTES = 11,      /* a request for other than 1 to 324 bytes */
    KB_REGISTERED = 12, /* the loco is registered already: use its ticket, or release it first */
    KB_FULL = 13,       /* 24 trains are registered */
    KB_NO_TICKET = 14,  /* the ticket counter is at 65,535; a step back gives none back, so start a new session */
    KB_NO_RUN = 15,     /* no free run of slots is long enough */
    KB_NO_TRAIN = 16,   /* no live train has this loco and ticket together */
    KB_RANGE = 17,      /* a flag, mode, location, frame or grid out of range, in a mode trace too; flags not 91 bytes; rear
                           above front */
    KB_NO_POSITION = 18, /* the order needs a position that was never reported */
    KB_NO_CLASS = 19,   /* a train of the SOS is in a mode without a row class, or the grid has no order for L2's class */
    KB_NO_PLACE = 20,   /* a train holds four orders already, none of them under the other's ticket */
    KB_NO_ORDER = 21,   /* the train has no order under that ticket */
    KB_TOO_FAR = 22,    /* a step back by more than the entries kept */
    KB_SAME_TRAIN = 23, /* both trains of an SOS are the same */
    KB_RECORD = 24,     /* recordings: wrong mark, kind or length, or a cut record; mode traces: wrong mark, or a cut entry */
    KB_SESSION = 34     /* the lent session has another length than KB_SESSION_SIZE */
};

/* Stands for no authority and no danger location, both ways; and in a kb_train for no position, and for an order's limit
 * where the order is bare. */
#define KB_NONE UINT32_C(4294967295)

/* The bytes of a session; kb_session_size() says the same at run time. */
#define KB_SESSION_SIZE 19456

typedef struct kb_session {
    uint8_t bytes[KB_SESSION_SIZE];
} kb_session;

/* The two arguments that lend a kb_session, given its address: kb_start(KB_LEND(&mine)). */
#define KB_LEND(session) (session)->bytes, sizeof (session)->bytes

/* The rows of the register, the slots, the flags of a mode step, the bytes of a gate outside its sub-packet, the most gates of
 * a sub-packet, its bytes then, these two in the old form, these three of turnouts, the bytes of the longest record of a
 * recording, and those of an entry of a mode trace. */
#define KB_ROWS 24
#define KB_SLOTS 44
#define KB_FLAGS 91
#define KB_GATE_SIZE 9
#define KB_MOST_GATES 28
#define KB_PACKET_SIZE 125
#define KB_OLD_MOST_GATES 31
#define KB_OLD_PACKET_SIZE 115
#define KB_TURNOUT_SIZE 5
#define KB_MOST_TURNOUTS 3
#define KB_TURNOUT_PACKET_SIZE 14
#define KB_LONGEST_RECORD 101
#define KB_TRACE_ENTRY_SIZE 95

/* Bit positions: of length, count and first gate in a sub-packet; the bits of a gate; and of its judged fields in a gate. */
#define KB_LENGTH_AT 4
#define KB_COUNT_AT 11
#define KB_FIRST_GATE_AT 16
#define KB_GATE_BITS 35
#define KB_NUMBER_AT 15
#define KB_SUFFIX_AT 25
#define KB_CLASS_AT 29
#define KB_WHISTLING_TYPE_AT 33

/* The same of a gate in the old form: its bits, and the bit positions of its judged fields in it. The first starts where it does
 * in the new form. */
#define KB_OLD_GATE_BITS 29
#define KB_OLD_NUMBER_AT 9
#define KB_OLD_SUFFIX_AT 19
#define KB_OLD_CLASS_AT 23
#define KB_OLD_WHISTLING_TYPE_AT 27

/* The bit position of the first turnout in a sub-packet; the bits of a turnout that is its speed alone, and of one with
 * distances. */
#define KB_FIRST_TURNOUT_AT 13
#define KB_SPEED_BITS 5
#define KB_TURNOUT_BITS 32

/* The speed codes of a turnout: 1 to KB_LAST_RESTRICTED are so many times 5 km/h, and have distances; unrestricted has none. */
#define KB_LAST_RESTRICTED 18
#define KB_UNRESTRICTED 31

/* What most calls answer; each call says what its three numbers are. */
typedef struct kb_answer {
    uint32_t answer;
    uint32_t first;
    uint32_t second;
    uint32_t third;
} kb_answer;

/* ---- Without a session ---- */

typedef struct kb_frame_answer {
    uint32_t answer;
    size_t place;  /* of a refusal, the first bit of the field at fault (see PLACES above); 0 where accepted */
    size_t offset; /* of the payload within the lent bytes: 0 */
    size_t length; /* the payload's bytes: the whole sub-packet, header included */
} kb_frame_answer;

/* Frames the first sub-packet of `bytes`, of any type, and ignores what follows it.
 * Refused: 1 fewer than 2 bytes; 2 type 8 to 15; 3 length below 2; 1 fewer bytes than the length says. Changes nothing. */
kb_frame_answer kb_frame(const uint8_t *bytes, size_t bytes_len);

typedef struct kb_gates_read {
    uint32_t answer;
    size_t place; /* of a refusal, the first bit of the field at fault (see PLACES above); 0 where accepted */
    size_t gates; /* gates read */
    size_t bytes; /* bytes of the sub-packet that was read */
} kb_gates_read;

/* Reads the gate sub-packet that `bytes` begins with into `gates`, and ignores what follows it. A gate takes KB_GATE_SIZE bytes
 * there: distance 2, number 2, high byte first, then suffix, manning, class, whistling and whistling type, one each.
 * Changes: the first 9 bytes a gate of `gates`; what lies behind them stays.
 * Refused: 1 fewer than 2 bytes; 2 type not 3; 3 length below 2; 1 fewer bytes than the length says; 3 length not the one for
 * the count, which is (16 + 35 * count) / 8 rounded up; 4 a number not 1 to 1022, a suffix or class of 7, a whistling type
 * of 3; 5 padding not zero; 1 `gates` too small. */
kb_gates_read kb_read_gates(const uint8_t *bytes, size_t bytes_len, uint8_t *gates, size_t gates_len);

typedef struct kb_gates_written {
    uint32_t answer;
    size_t gates; /* gates written */
    size_t bytes; /* bytes of the sub-packet that was written */
} kb_gates_written;

/* Writes all of `gates`, laid out as kb_read_gates leaves them, as one sub-packet to the start of `bytes`. KB_PACKET_SIZE bytes
 * always do. Writing what was read gives the same sub-packet again.
 * Changes: the sub-packet's bytes of `bytes`; what lies behind them stays.
 * Refused: 3 `gates` not a multiple of 9 bytes, or over 28 gates; 4 a field not allowed (as above) or too large for its width
 * (distance at most 32,767; manning and whistling 0 or 1); 1 `bytes` too small. */
kb_gates_written kb_write_gates(const uint8_t *gates, size_t gates_len, uint8_t *bytes, size_t bytes_len);

/* THE OLD FORM of a gate sub-packet has a distance of 9 bits in tens of metres, where that of kb_read_gates, the new form, has
 * 15 bits in metres; all else is the same. It holds up to KB_OLD_MOST_GATES gates, and its length is (16 + 29 * count) / 8
 * rounded up. The next two calls move a sub-packet from one form to the other. No bit tells the form: with a gate or more, a
 * sub-packet in the one is refused with 3 where the other is read, since its length is not the one for the count; without
 * gates both are the same. */
typedef struct kb_gates_moved {
    uint32_t answer;
    size_t place;   /* of a refusal, the first bit of the field at fault (see PLACES above); 0 where accepted */
    size_t gates;   /* gates moved */
    size_t used;    /* bytes of the sub-packet that was read */
    size_t written; /* bytes of the sub-packet that was written */
} kb_gates_moved;

/* Moves the gate sub-packet in the old form that `bytes` begins with to the start of `moved`, in the new form, and ignores what
 * follows it. Each distance is multiplied by 10. KB_PACKET_SIZE bytes of `moved` always do. kb_gates_back makes the same
 * sub-packet of it again.
 * Changes: the written sub-packet's bytes of `moved`; what lies behind them stays.
 * Refused: 1 fewer than 2 bytes; 2 type not 3; 3 length below 2; 1 fewer bytes than the length says; 3 length not the one for
 * the count in the old form, or 29 to 31 gates, which the new form cannot hold; 4 a number not 1 to 1022, a suffix or class
 * of 7, a whistling type of 3; 5 padding not zero; 1 `moved` too small. */
kb_gates_moved kb_gates_forward(const uint8_t *bytes, size_t bytes_len, uint8_t *moved, size_t moved_len);

/* Moves the gate sub-packet in the new form that `bytes` begins with to the start of `moved`, in the old form, and ignores what
 * follows it. Each distance is divided by 10. KB_OLD_PACKET_SIZE bytes of `moved` always do. kb_gates_forward makes the same
 * sub-packet of it again.
 * Changes: the written sub-packet's bytes of `moved`; what lies behind them stays.
 * Refused: 1 fewer than 2 bytes; 2 type not 3; 3 length below 2; 1 fewer bytes than the length says; 3 length not the one for
 * the count in the new form; 4 a field not allowed (as above); 5 padding not zero; 6 a distance that is not a multiple of 10, or
 * is above 5,110; 1 `moved` too small. */
kb_gates_moved kb_gates_back(const uint8_t *bytes, size_t bytes_len, uint8_t *moved, size_t moved_len);

typedef struct kb_turnouts_read {
    uint32_t answer;
    size_t place;    /* of a refusal, the first bit of the field at fault (see PLACES above); 0 where accepted */
    size_t turnouts; /* turnouts read */
    size_t bytes;    /* bytes of the sub-packet that was read */
} kb_turnouts_read;

/* Reads the turnout sub-packet that `bytes` begins with into `turnouts`, and ignores what follows it. A turnout takes
 * KB_TURNOUT_SIZE bytes there: speed 1, distance 2, release distance 2, high byte first. The speed is a code: 1 to 18 are 5 to
 * 90 km/h in steps of 5, 31 is unrestricted, 0 is unused, and 19 to 30 are reserved. A restricted speed, 1 to 18, carries both
 * distances, in metres; no other does, and where they are absent they are zero in `turnouts`. In the sub-packet a turnout
 * takes 32 bits where it has them (speed 5, distance 15, release distance 12), else the 5 of its speed.
 * Changes: the first 5 bytes a turnout of `turnouts`; what lies behind them stays.
 * Refused: 1 fewer than 2 bytes; 2 type not 4; 3 length below 2; 1 fewer bytes than the length says; 3 a turnout runs past the
 * sub-packet, or the length is not the turnouts', which is (13 + their bits) / 8 rounded up; 4 a speed of 0 or 19 to 30, which
 * takes 5 bits too; 5 padding not zero; 1 `turnouts` too small. */
kb_turnouts_read kb_read_turnouts(const uint8_t *bytes, size_t bytes_len, uint8_t *turnouts, size_t turnouts_len);

typedef struct kb_turnouts_written {
    uint32_t answer;
    size_t turnouts; /* turnouts written */
    size_t bytes;    /* bytes of the sub-packet that was written */
} kb_turnouts_written;

/* Writes all of `turnouts`, laid out as kb_read_turnouts leaves them, as one sub-packet to the start of `bytes`.
 * KB_TURNOUT_PACKET_SIZE bytes always do. Writing what was read gives the same sub-packet again.
 * Changes: the sub-packet's bytes of `bytes`; what lies behind them stays.
 * Refused: 3 `turnouts` not a multiple of 5 bytes, or over 3 turnouts; 4 a speed that is not 1 to 18 or 31, a distance above
 * 32,767, a release distance above 4,095, or a distance of either kind that is not zero beside a speed of 31; 1 `bytes` too
 * small. */
kb_turnouts_written kb_write_turnouts(const uint8_t *turnouts, size_t turnouts_len, uint8_t *bytes, size_t bytes_len);

typedef struct kb_age_answer {
    uint32_t answer;
    uint32_t age;         /* (station less onboard, modulo 86,400) / 2, rounded down */
    uint32_t condition24; /* 1 where the frame part of condition 24 holds: an age of 0 or 1 */
    uint32_t condition26; /* 1 where condition 26 holds: an age over 14 */
    uint32_t condition27; /* 1 where condition 27 holds: an age under 5 */
} kb_age_answer;

/* The age of the onboard frame by the station's, over midnight too: station 1 and onboard 86,399 have an age of 1. Refused: 17 a
 * frame number not 1 to 86,400. */
kb_age_answer kb_frame_age(uint32_t station, uint32_t onboard);

typedef struct kb_step_answer {
    uint32_t answer;
    uint32_t mode;     /* the next mode, or the same where no transition is open */
    uint32_t priority; /* of the transition, 1 the highest; 0 where the mode stays */
    uint32_t tie;      /* 1 where two or more open transitions share the best priority: the lowest target wins */
} kb_step_answer;

/* The mode step under KB_FLAGS flags, each 0 or 1; condition n is flags[n - 1]. Changes nothing.
 * Refused: 17 a mode not 1 to 13, flags not 91 bytes, or a flag above 1. */
kb_step_answer kb_next_mode(uint32_t mode, const uint8_t *flags, size_t flags_len);

/* The same step as it is read on paper (document 01, Modes), for whoever wants to argue about one: all 80 transitions one after
 * another, in the paper's order, with the best so far kept of those that leave the mode and are open. One that ties with the
 * best so far sets the tie mark, and the lower target stays; a better one clears the mark. For every mode and any flags the
 * answer is kb_next_mode's. Changes nothing.
 * Refused: 17 a mode not 1 to 13, flags not 91 bytes, or a flag above 1. */
kb_step_answer kb_next_mode_plain(uint32_t mode, const uint8_t *flags, size_t flags_len);

/* A MODE TRACE is entries one after another, with nothing between or behind them. An entry takes KB_TRACE_ENTRY_SIZE bytes:
 * the mark 4B 56, the mode before, KB_FLAGS flags as kb_next_mode takes them, and the mode after. It is right where its mode
 * before is the mode after of the entry before it (the first entry's is free) and its mode after is the one that kb_next_mode
 * gives. */
typedef struct kb_trace_answer {
    uint32_t answer;
    size_t entry; /* the first entry that is wrong or refused, counted from 1; 0 where every entry is right */
    uint32_t due; /* the mode that was due in a wrong entry; else 0 */
} kb_trace_answer;

/* Checks a trace entry by entry, up to the first that is wrong or refused: what stands behind it is not judged. THE TRACE IS
 * RIGHT WHERE `answer` AND `entry` ARE BOTH 0; an empty one is. Where the mode before of an entry is wrong, the mode due is
 * the mode after of the entry before it; else, where its mode after is wrong, the one that kb_next_mode gives. Changes
 * nothing.
 * Refused, each at its entry and before the entry is judged, with `entry` told: 24 wrong mark, or fewer than 95 bytes left; 17
 * a mode not 1 to 13, or a flag above 1. */
kb_trace_answer kb_check_trace(const uint8_t *trace, size_t trace_len);

/* What `wrong` may be. */
enum kb_wrong {
    KB_RIGHT = 0,
    KB_MODE_BEFORE = 1, /* the mode before is another than the mode after of the entry before it */
    KB_MODE_AFTER = 2   /* the mode after is another than kb_next_mode gives */
};

typedef struct kb_trace_entry_answer {
    uint32_t answer;
    uint32_t wrong; /* of enum kb_wrong; 0 where the entry is refused, too */
    uint32_t due;   /* the mode that was due in a wrong entry; else 0 */
} kb_trace_entry_answer;

/* Checks the entry that `entry` begins with, and ignores what follows it; `previous` is the mode after of the entry before it,
 * or 0 where none came before. To check a trace of any length, hold KB_TRACE_ENTRY_SIZE bytes of it or all that is left, and
 * pass the mode after of each entry that is right, entry[KB_TRACE_ENTRY_SIZE - 1], on as `previous` of the next, until one is
 * wrong or refused or nothing is left. An entry is judged as kb_check_trace judges it. Changes nothing.
 * Refused: 24 wrong mark, or fewer than 95 bytes; 17 `previous` above 13, a mode not 1 to 13, or a flag above 1. */
kb_trace_entry_answer kb_check_trace_entry(uint32_t previous, const uint8_t *entry, size_t entry_len);

/* ---- A session: start and the nine operations ----
 * Each changes the lent session where it is accepted, and no byte of it where it is refused. Each accepted operation but
 * kb_step_back is one entry that a step back can undo; the latest 128 are kept. 34 comes before the reasons that are listed. */

/* KB_SESSION_SIZE. */
size_t kb_session_size(void);

/* Makes the session empty, whatever the bytes were: no train, no entry, ticket counter 0. Numbers: zeros. Refused: 34 alone. */
kb_answer kb_start(uint8_t *session, size_t session_len);

/* Registers a loco that asks for `bytes` bytes: (bytes / 54) rounded up slots side by side, at the lowest free start. It
 * is in mode SB, in the first empty row, with no position, authority, danger location or order.
 * Numbers: its ticket, its first slot, its slots.
 * Refused: 10 loco out of range; 11 bytes not 1 to 324; 12 loco registered; 13 24 trains; 14 no ticket left; 15 no free run. */
kb_answer kb_request(uint8_t *session, size_t session_len, uint32_t loco, uint32_t bytes);

/* Takes a train out: its row is blank and its slots are free. Orders that other trains hold under its ticket stay.
 * Numbers: zeros. Refused: 10 loco out of range; 16 no such train. */
kb_answer kb_release(uint8_t *session, size_t session_len, uint32_t loco, uint32_t ticket);

/* Steps the train's mode under KB_FLAGS flags, as kb_next_mode does. A step that stays is an entry too.
 * Numbers: mode, priority, tie. Refused: 10; 16; 17 flags not 91 bytes, or a flag above 1. */
kb_answer kb_flags(uint8_t *session, size_t session_len, uint32_t loco, uint32_t ticket, const uint8_t *flags, size_t flags_len);

/* Reports a train's position. Numbers: as kb_end. Refused: 10; 16; 17 a location above 524,287, or the rear above the front. */
kb_answer kb_position(uint8_t *session, size_t session_len, uint32_t loco, uint32_t ticket, uint32_t front, uint32_t rear);

/* Grants an authority up to `end`, or none (KB_NONE). Numbers: as kb_end. Refused: 10; 16; 17 any other number above 524,287. */
kb_answer kb_authority(uint8_t *session, size_t session_len, uint32_t loco, uint32_t ticket, uint32_t end);

/* Tells the danger location, that of a signal at danger, or that there is none (KB_NONE). It does not bind a train in OV.
 * Numbers: as kb_end. Refused: 10; 16; 17 any other number above 524,287. */
kb_answer kb_danger(uint8_t *session, size_t session_len, uint32_t loco, uint32_t ticket, uint32_t location);

/* Raises an SOS between L2, named first, and L1, by grid 1 (absolute block, rear end), 2 (absolute block, head on),
 * 3 (automatic, signal ON, head on) or 4 (automatic, signal OFF, rear end). Each train that the measure concerns gets an order
 * under the other's ticket: M2 limits L2 to L1's rear less 300 (not below 0), M3 L2 to its own front, M4 each to its own front;
 * M5 is a bare order for L2, M6 for both. Both trains change, or neither.
 * Numbers: M, S, 0. S is the signal display: 1 as at site, 2 blank, 3 red.
 * Refused: 10 L2's loco, then L1's; 16 L2, then L1; 23 the same train; 17 grid not 1 to 4; 19 either train in a mode without a
 * class (all but SR, LS, FS, OV, OS, TR and PT), or no order in the grid (grids 1 and 2, for L2 in FS, TR or PT); 18 a position
 * missing; 20 no place. */
kb_answer kb_sos(uint8_t *session, size_t session_len, uint32_t loco2, uint32_t ticket2, uint32_t loco1, uint32_t ticket1,
    uint32_t grid);

/* Clears the train's order under the ticket of another. Numbers: as kb_end. Refused: 10; 16; 21 no such order. */
kb_answer kb_clear(uint8_t *session, size_t session_len, uint32_t loco, uint32_t ticket, uint32_t other);

/* Undoes the latest k entries kept, the latest first: trains, orders and slots are as they were before them. The ticket counter
 * stays, so no ticket is granted twice. k of 0 is accepted. Numbers: the entries kept then, 0, 0.
 * Refused: 22 k above the entries kept. */
kb_answer kb_step_back(uint8_t *session, size_t session_len, uint32_t k);

typedef struct kb_record_answer {
    uint64_t number; /* of the record: `before` and one */
    uint32_t kind;   /* 1 to 9, or 0 where the answer is 24 */
    uint32_t answer;
    uint32_t first;
    uint32_t second;
    uint32_t third;
    uint32_t used; /* bytes of the record, with its header; 0 where the answer is 24 */
} kb_record_answer;

/* KB_LONGEST_RECORD. */
size_t kb_longest_record(void);

/* Runs the first record of `held`, the bytes of a recording that are at hand, and ignores what follows it; `before` records came
 * before it. To play a recording, hold KB_LONGEST_RECORD bytes of it or all that is left, and call it again behind the bytes used,
 * until the answer is 24 or nothing is left. The kinds are the nine operations in the order above, 1 kb_request to 9 kb_step_back;
 * a record is 4B 56, the kind and the payload's length (a byte each) and the payload: the operation's numbers, high byte first,
 * locos and locations in 4 bytes, tickets, byte counts and k in 2, the grid in 1, and the 91 flags.
 * Numbers: those of the operation. `number`, `kind` and `used` are told of a record that is refused, too.
 * Refused: 24 wrong mark, kind or length, or a cut record (also: nothing held, or 4,294,967,295 records before); 34; then as the
 * operation. */
kb_record_answer kb_run_record(uint8_t *session, size_t session_len, const uint8_t *held, size_t held_len, uint32_t before);

/* ---- Questions: they change nothing ---- */

/* The ticket counter: the latest ticket granted, or 0. Numbers: it, 0, 0. Refused: 34 alone. */
kb_answer kb_counter(const uint8_t *session, size_t session_len);

/* The entries kept, 0 to 128. Numbers: they, 0, 0. Refused: 34 alone. */
kb_answer kb_kept(const uint8_t *session, size_t session_len);

/* Whether a slot is taken. Numbers: 1 or 0, 0, 0; 0 for a slot outside 1 to 44. Refused: 34 alone. */
kb_answer kb_is_taken(const uint8_t *session, size_t session_len, uint32_t slot);

/* A train's effective end: the least of the granted end, the danger location (unless the mode is OV) and each order's limit.
 * Numbers: 1, the end, 0; or zeros where no authority is granted. Refused: 10 loco out of range; 16 no such train. */
kb_answer kb_end(const uint8_t *session, size_t session_len, uint32_t loco, uint32_t ticket);

typedef struct kb_order {
    uint32_t ticket; /* of the other train; 0 where this place holds no order */
    uint32_t limit;  /* in metres; KB_NONE for a bare order */
} kb_order;

typedef struct kb_train_answer {
    uint32_t answer;
    uint32_t loco; /* 0 in an empty row */
    uint32_t ticket;
    uint32_t start; /* its first slot */
    uint32_t slots; /* how many */
    uint32_t mode;
    uint32_t left;      /* the mode left for Override while the mode is OV, else 0 */
    uint32_t front;     /* KB_NONE where no position was reported */
    uint32_t rear;      /* KB_NONE where no position was reported */
    uint32_t authority; /* the granted end, or KB_NONE */
    uint32_t danger;    /* the danger location, or KB_NONE */
    kb_order orders[4];
} kb_train_answer;

/* The train in a row of the register, 0 to 23. An empty row, and any row above 23, has loco 0. Refused: 34 alone, with zeros
 * in every field, where an empty row has KB_NONE for what is not there. */
kb_train_answer kb_train(const uint8_t *session, size_t session_len, uint32_t row);

#ifdef __cplusplus
}
#endif

#endif
