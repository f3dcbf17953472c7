/* Makes the calls that standard input holds, through the header, and writes what each answered. tests/host/src/wire.rs says how a
 * call and a reply look. Every lent buffer ends where a page without access begins, so that a byte read or written past its end is a
 * fault. Where a call says so, the session is compared with what it was before. */
#define _DEFAULT_SOURCE
#include "../../include/kavach_bench.h"
#include <stdio.h>
#include <stdlib.h>
#include <string.h>
#include <sys/mman.h>
#include <unistd.h>

/* Bytes in front of a session that are watched too, and how much longer than a session a lent one may be. */
#define LEAD 64
#define LONGER 8192
/* The most bytes that may be given: a long mode trace takes 6,650,000. */
#define GIVEN 8000000
#define WORDS 19

enum kind {
    START, REQUEST, RELEASE, FLAGS, POSITION, AUTHORITY, DANGER, SOS, CLEAR, STEP_BACK,
    COUNTER, KEPT, IS_TAKEN, END, TRAIN,
    FRAME, READ_GATES, WRITE_GATES, GATES_FORWARD, GATES_BACK, READ_TURNOUTS, WRITE_TURNOUTS, FRAME_AGE, NEXT_MODE, NEXT_MODE_PLAIN,
    CHECK_TRACE, CHECK_TRACE_ENTRY, SESSION_SIZE, RUN_RECORD, LONGEST_RECORD,
    FILL = 30, /* the session's bytes are those given */
    POKE = 31, /* byte n[0] of the session is n[1] */
    TURNS = 32 /* a request of loco n[0] for n[1] bytes and the release of what it got, n[2] times; the last request's answer */
};

struct call {
    uint32_t kind;
    uint32_t lent; /* bytes of the session that are lent */
    uint32_t n[5];
    uint32_t given; /* bytes that follow: flags, a packet, gates, turnouts, or a mode trace */
    uint32_t room;  /* bytes of the output that are lent */
    uint32_t watch; /* 1 where the session is to be compared with what it was before the call */
};

struct reply {
    uint32_t changed; /* 1 where a byte of the session, or in front of it, is another than before a call that is watched; 2 where one
                         of the given bytes is */
    uint32_t words[WORDS];
};

/* The ends of the three arenas: the session, what is given, the output. */
static uint8_t *session_end, *given_end, *output_end;
static uint8_t before[LEAD + LONGER + KB_SESSION_SIZE], as_given[GIVEN];
static struct reply reply;

static void stop(const char *why)
{
    fprintf(stderr, "caller: %s\n", why);
    exit(EXIT_FAILURE);
}

/* Memory for `size` bytes whose end is that of a page, with a page without access behind it. */
static uint8_t *arena_end(size_t size)
{
    size_t page = (size_t)sysconf(_SC_PAGESIZE);
    size_t whole = (size + page - 1) / page * page;
    uint8_t *start = mmap(NULL, whole + page, PROT_READ | PROT_WRITE, MAP_PRIVATE | MAP_ANONYMOUS, -1, 0);
    if (start == MAP_FAILED || mprotect(start + whole, page, PROT_NONE) != 0)
        stop("no memory");
    return start + whole;
}

static void read_exactly(void *bytes, size_t size)
{
    if (fread(bytes, 1, size, stdin) != size)
        stop("the calls end too early");
}

/* A length as a word; one that does not fit shows as the highest. */
static uint32_t word(size_t length)
{
    return length > UINT32_MAX ? UINT32_MAX : (uint32_t)length;
}

static void put_answer(kb_answer a)
{
    reply.words[0] = a.answer;
    reply.words[1] = a.first;
    reply.words[2] = a.second;
    reply.words[3] = a.third;
}

/* The answer of a call on a sub-packet, with its places, lengths and counts. */
static void put_sizes(uint32_t answer, size_t first, size_t second, size_t third)
{
    reply.words[0] = answer;
    reply.words[1] = word(first);
    reply.words[2] = word(second);
    reply.words[3] = word(third);
}

static void put_frame(kb_frame_answer a)
{
    put_sizes(a.answer, a.place, a.offset, a.length);
}

static void put_gates_read(kb_gates_read a)
{
    put_sizes(a.answer, a.place, a.gates, a.bytes);
}

static void put_gates_written(kb_gates_written a)
{
    put_sizes(a.answer, a.gates, a.bytes, 0);
}

static void put_gates_moved(kb_gates_moved a)
{
    put_sizes(a.answer, a.place, a.gates, a.used);
    reply.words[4] = word(a.written);
}

static void put_turnouts_read(kb_turnouts_read a)
{
    put_sizes(a.answer, a.place, a.turnouts, a.bytes);
}

static void put_turnouts_written(kb_turnouts_written a)
{
    put_sizes(a.answer, a.turnouts, a.bytes, 0);
}

static void put_age(kb_age_answer a)
{
    reply.words[0] = a.answer;
    reply.words[1] = a.age;
    reply.words[2] = a.condition24;
    reply.words[3] = a.condition26;
    reply.words[4] = a.condition27;
}

static void put_step(kb_step_answer a)
{
    reply.words[0] = a.answer;
    reply.words[1] = a.mode;
    reply.words[2] = a.priority;
    reply.words[3] = a.tie;
}

static void put_trace(kb_trace_answer a)
{
    reply.words[0] = a.answer;
    reply.words[1] = word(a.entry);
    reply.words[2] = a.due;
}

static void put_trace_entry(kb_trace_entry_answer a)
{
    reply.words[0] = a.answer;
    reply.words[1] = a.wrong;
    reply.words[2] = a.due;
}

static void put_train(kb_train_answer a)
{
    int i;
    reply.words[0] = a.answer;
    reply.words[1] = a.loco;
    reply.words[2] = a.ticket;
    reply.words[3] = a.start;
    reply.words[4] = a.slots;
    reply.words[5] = a.mode;
    reply.words[6] = a.left;
    reply.words[7] = a.front;
    reply.words[8] = a.rear;
    reply.words[9] = a.authority;
    reply.words[10] = a.danger;
    for (i = 0; i < 4; i++) {
        reply.words[11 + 2 * i] = a.orders[i].ticket;
        reply.words[12 + 2 * i] = a.orders[i].limit;
    }
}

static void put_record(kb_record_answer a)
{
    reply.words[0] = a.answer;
    reply.words[1] = a.first;
    reply.words[2] = a.second;
    reply.words[3] = a.third;
    reply.words[4] = a.kind;
    reply.words[5] = a.used;
    reply.words[6] = (uint32_t)a.number;
    reply.words[7] = (uint32_t)(a.number >> 32);
}

static kb_answer turns(uint8_t *s, size_t len, const uint32_t *n)
{
    kb_answer granted = {0};
    uint32_t i;
    for (i = 0; i < n[2]; i++) {
        granted = kb_request(s, len, n[0], n[1]);
        kb_release(s, len, n[0], granted.first);
    }
    return granted;
}

static void operate(const struct call *c, uint8_t *s, const uint8_t *given)
{
    const uint32_t *n = c->n;
    size_t len = c->lent;
    switch (c->kind) {
    case START: put_answer(kb_start(s, len)); break;
    case REQUEST: put_answer(kb_request(s, len, n[0], n[1])); break;
    case RELEASE: put_answer(kb_release(s, len, n[0], n[1])); break;
    case FLAGS: put_answer(kb_flags(s, len, n[0], n[1], given, c->given)); break;
    case POSITION: put_answer(kb_position(s, len, n[0], n[1], n[2], n[3])); break;
    case AUTHORITY: put_answer(kb_authority(s, len, n[0], n[1], n[2])); break;
    case DANGER: put_answer(kb_danger(s, len, n[0], n[1], n[2])); break;
    case SOS: put_answer(kb_sos(s, len, n[0], n[1], n[2], n[3], n[4])); break;
    case CLEAR: put_answer(kb_clear(s, len, n[0], n[1], n[2])); break;
    case STEP_BACK: put_answer(kb_step_back(s, len, n[0])); break;
    case COUNTER: put_answer(kb_counter(s, len)); break;
    case KEPT: put_answer(kb_kept(s, len)); break;
    case IS_TAKEN: put_answer(kb_is_taken(s, len, n[0])); break;
    case END: put_answer(kb_end(s, len, n[0], n[1])); break;
    case RUN_RECORD: put_record(kb_run_record(s, len, given, c->given, n[0])); break;
    case TRAIN: put_train(kb_train(s, len, n[0])); break;
    case TURNS: put_answer(turns(s, len, n)); break;
    default: stop("no such call");
    }
}

static void run(const struct call *c, const uint8_t *given, uint8_t *output)
{
    switch (c->kind) {
    case FRAME: put_frame(kb_frame(given, c->given)); break;
    case READ_GATES: put_gates_read(kb_read_gates(given, c->given, output, c->room)); break;
    case WRITE_GATES: put_gates_written(kb_write_gates(given, c->given, output, c->room)); break;
    case GATES_FORWARD: put_gates_moved(kb_gates_forward(given, c->given, output, c->room)); break;
    case GATES_BACK: put_gates_moved(kb_gates_back(given, c->given, output, c->room)); break;
    case READ_TURNOUTS: put_turnouts_read(kb_read_turnouts(given, c->given, output, c->room)); break;
    case WRITE_TURNOUTS: put_turnouts_written(kb_write_turnouts(given, c->given, output, c->room)); break;
    case FRAME_AGE: put_age(kb_frame_age(c->n[0], c->n[1])); break;
    case NEXT_MODE: put_step(kb_next_mode(c->n[0], given, c->given)); break;
    case NEXT_MODE_PLAIN: put_step(kb_next_mode_plain(c->n[0], given, c->given)); break;
    case CHECK_TRACE: put_trace(kb_check_trace(given, c->given)); break;
    case CHECK_TRACE_ENTRY: put_trace_entry(kb_check_trace_entry(c->n[0], given, c->given)); break;
    case SESSION_SIZE: reply.words[0] = word(kb_session_size()); break;
    case LONGEST_RECORD: reply.words[0] = word(kb_longest_record()); break;
    case FILL: memcpy(session_end - KB_SESSION_SIZE, given, KB_SESSION_SIZE); break;
    case POKE: session_end[(ptrdiff_t)c->n[0] - KB_SESSION_SIZE] = (uint8_t)c->n[1]; break;
    default: operate(c, session_end - c->lent, given);
    }
}

/* Remembers the session as it is before a call that is watched. Most of a run is spent here and in `changed`, so that the bytes are
 * copied only where a call since the last copy may have changed them. */
static void remember(int stale)
{
    if (stale)
        memcpy(before, session_end - sizeof before, sizeof before);
}

/* Whether a byte of what was lent as a session, or in front of it, is another than before. */
static uint32_t changed(size_t lent)
{
    size_t watched = LEAD + (lent > KB_SESSION_SIZE ? lent : KB_SESSION_SIZE);
    return memcmp(session_end - watched, before + sizeof before - watched, watched) != 0;
}

int main(void)
{
    static char in[1 << 16], out[1 << 16];
    struct call c;
    int stale = 1;
    session_end = arena_end(sizeof before);
    given_end = arena_end(GIVEN);
    output_end = arena_end(4096);
    setvbuf(stdin, in, _IOFBF, sizeof in);
    setvbuf(stdout, out, _IOFBF, sizeof out);
    while (fread(&c, sizeof c, 1, stdin) == 1) {
        uint8_t *given = given_end - c.given, *output = output_end - c.room;
        if (c.lent > KB_SESSION_SIZE + LONGER || c.given > GIVEN || c.room > 4096)
            stop("more is to be lent than there is");
        read_exactly(given, c.given);
        memcpy(as_given, given, c.given);
        /* What lies behind an answer in the output must stay: it is a pattern that the driver knows. */
        memset(output, 0xA5, c.room);
        memset(&reply, 0, sizeof reply);
        if (c.watch)
            remember(stale);
        run(&c, given, output);
        if (c.watch)
            reply.changed = changed(c.lent);
        stale = c.watch ? (int)reply.changed : stale || c.kind <= STEP_BACK || c.kind == RUN_RECORD || c.kind >= FILL;
        if (memcmp(as_given, given, c.given) != 0)
            reply.changed |= 2;
        fwrite(&reply, sizeof reply, 1, stdout);
        fwrite(output, 1, c.room, stdout);
    }
    return fflush(stdout) == 0 ? EXIT_SUCCESS : EXIT_FAILURE;
}
