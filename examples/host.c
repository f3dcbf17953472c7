/* A small host: gates are read, and moved from the old form to the new one and back, turnouts are written and read, and a refusal is said
 * in words; a mode trace is checked; two trains are registered and move, one gets an authority, an SOS limits it, and a step back takes the
 * SOS back. README says how to build and run it. */
#include "../include/kavach_bench.h"
#include <stdio.h>
#include <stdlib.h>
#include <string.h>

static kb_session bench;

/* Says why a read of gates or of turnouts, or a move of gates, was refused, but for which field is at fault: that differs. */
static void print_refusal(const char *what, uint32_t answer, size_t place)
{
    printf("refused %u at bit %u: ", (unsigned)answer, (unsigned)place);
    switch (answer) {
    case KB_TYPE: printf("the type is not that of %s\n", what); break;
    case KB_LENGTH: printf("the %s\n", place == KB_LENGTH_AT ? "length is below 2" : "count is too high or does not fit the length"); break;
    case KB_FIELD: break;
    case KB_PADDING: printf("a bit of the padding is set\n"); break;
    case KB_DISTANCE: printf("not in tens of metres, or too far: "); break;
    default: printf("bytes are missing\n"); break;
    }
}

/* Says which field of which gate starts so many bits behind the first gate's first. Gates are counted from 1, as people do. In the old form
 * a gate has fewer bits, and so many fewer stand before each field that is judged. */
static void print_field(size_t bit, size_t gate_bits)
{
    const char *field = "?";
    switch (bit % gate_bits + (KB_GATE_BITS - gate_bits)) {
    case 0: field = "distance"; break;
    case KB_NUMBER_AT: field = "number"; break;
    case KB_SUFFIX_AT: field = "suffix"; break;
    case KB_CLASS_AT: field = "class"; break;
    case KB_WHISTLING_TYPE_AT: field = "whistling type"; break;
    }
    printf("gate %u, its %s\n", (unsigned)(bit / gate_bits + 1), field);
}

/* Reads a gate sub-packet, and says the distance of each gate, or where it broke. */
static void print_gates(const uint8_t *packet, size_t length)
{
    uint8_t gates[KB_MOST_GATES * KB_GATE_SIZE];
    kb_gates_read read = kb_read_gates(packet, length, gates, sizeof gates);
    size_t i;

    if (read.answer == KB_ACCEPTED) {
        printf("gates %u:", (unsigned)read.gates);
        for (i = 0; i < read.gates; i++)
            printf(" at %u m", (unsigned)(gates[i * KB_GATE_SIZE] * 256 + gates[i * KB_GATE_SIZE + 1]));
        printf("\n");
        return;
    }
    print_refusal("gates", read.answer, read.place);
    if (read.answer == KB_FIELD)
        print_field(read.place - KB_FIRST_GATE_AT, KB_GATE_BITS);
}

/* Says what a move of gates did, or where it broke; the gates that it read have so many bits. */
static void print_move(const char *where, size_t gate_bits, kb_gates_moved moved)
{
    if (moved.answer == KB_ACCEPTED) {
        printf("gates moved %s %u, from %u bytes to %u\n", where, (unsigned)moved.gates, (unsigned)moved.used, (unsigned)moved.written);
        return;
    }
    print_refusal("gates", moved.answer, moved.place);
    if (moved.answer == KB_FIELD || moved.answer == KB_DISTANCE)
        print_field(moved.place - KB_FIRST_GATE_AT, gate_bits);
}

/* Moves a gate from the old form to the new one, and back; then two gates back, of which the second stands at 655 m. */
static void try_moves(void)
{
    /* The gate of main, whose distance is 65 here. */
    static const uint8_t old[] = {0x30, 0xC1, 0x20, 0x81, 0x84, 0xA0};
    static const uint8_t gates[] = {650 / 256, 650 % 256, 0, 12, 1, 0, 2, 1, 0, 655 / 256, 655 % 256, 0, 13, 0, 1, 0, 0, 0};
    uint8_t packet[KB_PACKET_SIZE], moved[KB_OLD_PACKET_SIZE];
    kb_gates_moved forward = kb_gates_forward(old, sizeof old, packet, sizeof packet);
    kb_gates_written written;

    print_move("forward", KB_OLD_GATE_BITS, forward);
    print_gates(packet, forward.written);
    print_move("back", KB_GATE_BITS, kb_gates_back(packet, forward.written, moved, sizeof moved));
    written = kb_write_gates(gates, sizeof gates, packet, sizeof packet);
    print_move("back", KB_GATE_BITS, kb_gates_back(packet, written.bytes, moved, sizeof moved));
}

/* Says which turnout's speed starts so many bits behind the first turnout's: each one before it takes the bits of a speed, and some
 * take the bits of the distances besides. */
static void print_speed(size_t bit)
{
    printf("turnout %u, its speed\n", (unsigned)(bit % (KB_TURNOUT_BITS - KB_SPEED_BITS) / KB_SPEED_BITS + 1));
}

/* Reads a turnout sub-packet, and says what each turnout is, or where it broke. */
static void print_turnouts(const uint8_t *packet, size_t length)
{
    uint8_t turnouts[KB_MOST_TURNOUTS * KB_TURNOUT_SIZE];
    kb_turnouts_read read = kb_read_turnouts(packet, length, turnouts, sizeof turnouts);
    size_t i;

    for (i = 0; i < read.turnouts; i++) {
        const uint8_t *t = turnouts + i * KB_TURNOUT_SIZE;
        printf("turnout %u: ", (unsigned)(i + 1));
        if (t[0] == KB_UNRESTRICTED)
            printf("unrestricted\n");
        else
            printf("%u km/h at %u m, release distance %u m\n", t[0] * 5u, t[1] * 256u + t[2], t[3] * 256u + t[4]);
    }
    if (read.answer != KB_ACCEPTED)
        print_refusal("turnouts", read.answer, read.place);
    if (read.answer == KB_FIELD)
        print_speed(read.place - KB_FIRST_TURNOUT_AT);
}

/* Writes two turnouts and reads them back; then once more, with a speed that is reserved. */
static void try_turnouts(void)
{
    /* 30 km/h at 1,200 m, with a release distance of 400 m; and unrestricted, which has no distances. */
    static const uint8_t turnouts[] = {30 / 5, 1200 / 256, 1200 % 256, 400 / 256, 400 % 256, KB_UNRESTRICTED, 0, 0, 0, 0};
    uint8_t packet[KB_TURNOUT_PACKET_SIZE];
    kb_turnouts_written written = kb_write_turnouts(turnouts, sizeof turnouts, packet, sizeof packet);

    printf("turnouts written %u, in %u bytes\n", (unsigned)written.turnouts, (unsigned)written.bytes);
    if (written.answer != KB_ACCEPTED)
        exit(EXIT_FAILURE);
    print_turnouts(packet, written.bytes);
    /* The last byte begins with the last two bits of the second speed: 11111 becomes 11100. */
    packet[written.bytes - 1] = 0;
    print_turnouts(packet, written.bytes);
}

/* Checks a mode trace, and says whether it is right or which entry is not. */
static void print_trace(const uint8_t *trace, size_t length)
{
    kb_trace_answer checked = kb_check_trace(trace, length);

    if (checked.answer != KB_ACCEPTED)
        printf("trace refused %u at entry %u\n", (unsigned)checked.answer, (unsigned)checked.entry);
    else if (checked.entry != 0)
        printf("trace wrong at entry %u, where mode %u was due\n", (unsigned)checked.entry, (unsigned)checked.due);
    else
        printf("trace right\n");
}

/* Checks the same as a host does that holds an entry at a time: the mode after of each right entry is handed on to the next. */
static void print_entries(const uint8_t *trace, size_t length)
{
    uint32_t previous = 0;
    size_t at;
    for (at = 0; at < length; at += KB_TRACE_ENTRY_SIZE) {
        size_t left = length - at;
        size_t held = left < KB_TRACE_ENTRY_SIZE ? left : KB_TRACE_ENTRY_SIZE;
        kb_trace_entry_answer checked = kb_check_trace_entry(previous, trace + at, held);
        if (checked.answer != KB_ACCEPTED) {
            printf("  refused %u\n", (unsigned)checked.answer);
            return;
        }
        if (checked.wrong != KB_RIGHT) {
            printf("  mode %s wrong, %u was due\n", checked.wrong == KB_MODE_BEFORE ? "before" : "after", (unsigned)checked.due);
            return;
        }
        previous = trace[at + KB_TRACE_ENTRY_SIZE - 1];
        printf("  right, and ends in mode %u\n", (unsigned)previous);
    }
}

/* Puts an entry of a mode trace, in which one condition is set. */
static void put_entry(uint8_t *entry, uint8_t before, size_t condition, uint8_t after)
{
    memset(entry, 0, KB_TRACE_ENTRY_SIZE);
    entry[0] = 0x4B;
    entry[1] = 0x56;
    entry[2] = before;
    entry[2 + condition] = 1;
    entry[KB_TRACE_ENTRY_SIZE - 1] = after;
}

/* Checks a trace in which SB goes to OS (64), and OS to TR (69); then the same with FS in the place of TR, whole, by its entries and
 * cut. */
static void try_traces(void)
{
    uint8_t trace[2 * KB_TRACE_ENTRY_SIZE];

    put_entry(trace, 1, 64, 6);
    put_entry(trace + KB_TRACE_ENTRY_SIZE, 6, 69, 7);
    print_trace(trace, sizeof trace);
    put_entry(trace + KB_TRACE_ENTRY_SIZE, 6, 69, 4);
    print_trace(trace, sizeof trace);
    print_entries(trace, sizeof trace);
    print_trace(trace, sizeof trace - 1);
}

/* Prints an answer, and gives it on. */
static kb_answer told(const char *what, kb_answer given)
{
    printf("%-34s answer %2u: %u %u %u\n", what, (unsigned)given.answer, (unsigned)given.first, (unsigned)given.second,
        (unsigned)given.third);
    return given;
}

/* Ends the host where a call that must be accepted is not. */
static kb_answer accepted(const char *what, kb_answer given)
{
    if (told(what, given).answer != KB_ACCEPTED)
        exit(EXIT_FAILURE);
    return given;
}

/* Sets one condition and steps the train's mode. */
static void step(const char *what, uint32_t loco, uint32_t ticket, unsigned condition)
{
    uint8_t flags[KB_FLAGS];
    memset(flags, 0, sizeof flags);
    flags[condition - 1] = 1;
    accepted(what, kb_flags(KB_LEND(&bench), loco, ticket, flags, sizeof flags));
}

static void print_trains(void)
{
    uint32_t row;
    int i;
    for (row = 0; row < KB_ROWS; row++) {
        kb_train_answer t = kb_train(KB_LEND(&bench), row);
        if (t.loco == 0)
            continue;
        printf("  loco %u, ticket %u, mode %u, slots %u to %u", (unsigned)t.loco, (unsigned)t.ticket, (unsigned)t.mode,
            (unsigned)t.start, (unsigned)(t.start + t.slots - 1));
        if (t.front != KB_NONE)
            printf(", at %u to %u", (unsigned)t.rear, (unsigned)t.front);
        for (i = 0; i < 4; i++)
            if (t.orders[i].ticket != 0 && t.orders[i].limit != KB_NONE)
                printf(", limited to %u for ticket %u", (unsigned)t.orders[i].limit, (unsigned)t.orders[i].ticket);
        printf("\n");
    }
}

int main(void)
{
    /* One gate: 650 m, number 12, suffix a, manned, class B1, whistling, type 0. Then the same with the last bit set, which is
     * padding; and three gates, of which the third has a suffix of 7. */
    static const uint8_t sound[] = {0x30, 0xE1, 0x05, 0x14, 0x06, 0x12, 0x80};
    static const uint8_t padded[] = {0x30, 0xE1, 0x05, 0x14, 0x06, 0x12, 0x81};
    static const uint8_t third[] = {0x32, 0x03, 0x05, 0x14, 0x06, 0x12, 0x81, 0x5E, 0x00, 0xD1, 0x60, 0x43, 0x30, 0x1D, 0xEC, 0x00};
    uint32_t rear, ahead;

    print_gates(sound, sizeof sound);
    print_gates(padded, sizeof padded);
    print_gates(third, sizeof third);
    try_moves();
    try_turnouts();
    try_traces();
    printf("frame age %u\n", (unsigned)kb_frame_age(20, 11).age);

    accepted("start", kb_start(KB_LEND(&bench)));
    rear = accepted("loco 7 asks for 100 bytes", kb_request(KB_LEND(&bench), 7, 100)).first;
    ahead = accepted("loco 8 asks for 54 bytes", kb_request(KB_LEND(&bench), 8, 54)).first;
    told("loco 7 asks again", kb_request(KB_LEND(&bench), 7, 20));
    step("loco 7 to OS (64)", 7, rear, 64);
    step("loco 8 to OS (64)", 8, ahead, 64);
    accepted("loco 7 stands at 4000", kb_position(KB_LEND(&bench), 7, rear, 4000, 3800));
    accepted("loco 8 stands at 6300", kb_position(KB_LEND(&bench), 8, ahead, 6300, 6100));
    accepted("loco 7 may go to 9000", kb_authority(KB_LEND(&bench), 7, rear, 9000));
    accepted("danger location of loco 7 is 7500", kb_danger(KB_LEND(&bench), 7, rear, 7500));
    accepted("SOS, rear end: 7 behind 8", kb_sos(KB_LEND(&bench), 7, rear, 8, ahead, 1));
    accepted("end of loco 7", kb_end(KB_LEND(&bench), 7, rear));
    print_trains();
    accepted("step back by one", kb_step_back(KB_LEND(&bench), 1));
    accepted("end of loco 7", kb_end(KB_LEND(&bench), 7, rear));
    told("a wrong ticket releases nothing", kb_release(KB_LEND(&bench), 8, ahead + 1));
    accepted("loco 8 is released", kb_release(KB_LEND(&bench), 8, ahead));
    print_trains();
    return EXIT_SUCCESS;
}
