/*
 * How much stack each call takes: the stack below is painted, the call made, and the lowest
 * byte looked for that is not as painted. For inputs of a few fields and of many, since what
 * a call takes should not depend on them. Prints a Markdown table.
 */
#include "taplevung.h"

/* declared here, so that the program can be compiled where only the freestanding headers are */
extern int printf(const char *, ...);
extern void *calloc(size_t, size_t);

#define DEPTH ((size_t)1 << 20)
#define STORE ((size_t)1 << 20)

static uint8_t *snapshot, *next, *delta, *later, *messages, *snapshots, *deltas, *out;
static size_t snapshot_length, next_length, delta_length, later_length, messages_length;
static taplevung_state state;

/* Origins, router keys and ASPAs with these tags; the first number of each key is the step. */
static size_t fill(uint8_t *to, uint32_t items, const uint8_t tags[3], uint8_t step)
{
    uint8_t *p = to;
    for (int kind = 0; kind < 3; kind++)
        for (uint32_t i = 0; i < items; i++) {
            size_t body = kind == 0 ? 23 : kind == 1 ? 24 + 91 : 4 + 4 * 8;
            for (size_t k = 0; k < 3 + body; k++)
                p[k] = 0;
            p[0] = tags[kind];
            p[2] = (uint8_t)body;
            uint8_t *key = p + 3 + (kind == 0);
            if (kind == 0) {
                p[3] = 4;
                p[3 + 17] = p[3 + 18] = 32;
            }
            key[0] = step;
            key[1] = (uint8_t)(i >> 8);
            key[2] = (uint8_t)i;
            for (uint8_t k = 0; kind == 2 && k < 8; k++)
                p[7 + 4 * k + 3] = k;
            p += 3 + body;
        }
    return (size_t)(p - to);
}

/* An answer that announces so many origins, the last in order first. */
static size_t answer(uint8_t *to, uint32_t items)
{
    static const uint8_t response[8] = {1, 3, 0, 0, 0, 0, 0, 8}, end[8] = {1, 7, 0, 0, 0, 0, 0, 24};
    static const uint8_t prefix[12] = {1, 4, 0, 0, 0, 0, 0, 20, 1, 32, 32, 0};
    uint8_t *p = to;
    for (int k = 0; k < 8; k++)
        *p++ = response[k];
    for (uint32_t i = items; i > 0; i--, p += 20)
        for (int k = 0; k < 20; k++)
            p[k] = k < 12 ? prefix[k] : k < 16 ? (uint8_t)(i >> (8 * (15 - k))) : 0;
    for (int k = 0; k < 24; k++)
        *p++ = k < 8 ? end[k] : 0;
    return (size_t)(p - to);
}

/* Each call, in a function of its own. */
static const taplevung_serial zero = {0};

static uint32_t do_construct(void)
{
    return taplevung_construct(snapshot, snapshot_length, next, next_length, zero, out, STORE).kind;
}
static uint32_t do_merge(void)
{
    return taplevung_merge(delta, delta_length, later, later_length, zero, out, STORE).kind;
}
static uint32_t do_apply(void)
{
    return taplevung_apply(snapshot, snapshot_length, delta, delta_length, out, STORE).kind;
}
static uint32_t do_create(void)
{
    return taplevung_create(1, 64, zero, snapshots, STORE, deltas, STORE).answer.kind;
}
static uint32_t do_update(void)
{
    return taplevung_update(state, next, next_length, snapshots, STORE, deltas, STORE).answer.kind;
}
static uint32_t do_query(void)
{
    taplevung_session session = {(uint16_t)state.session};
    taplevung_serial oldest = {state.newest.value - state.n};
    return taplevung_query(state, session, oldest, snapshots, STORE, deltas, STORE, out, STORE).answer.kind;
}
static uint32_t do_query_all(void)
{
    static uint8_t queries[6 * TAPLEVUNG_QUERY_LIMIT];
    for (uint32_t i = 0; i < TAPLEVUNG_QUERY_LIMIT; i++) {
        uint32_t serial = state.newest.value - i % (state.n + 1);
        queries[6 * i + 1] = (uint8_t)state.session;
        queries[6 * i + 5] = (uint8_t)serial;
    }
    static taplevung_replies all;
    all = taplevung_query_all(state, snapshots, STORE, deltas, STORE, queries, sizeof queries, out, STORE);
    return all.answer.kind;
}
static uint32_t do_full(void)
{
    return taplevung_full(state, snapshots, STORE, deltas, STORE).answer.kind;
}

static const taplevung_timing_values times = {3600, 600, 7200};

static uint32_t do_query_messages(void)
{
    taplevung_session session = {(uint16_t)state.session};
    taplevung_serial oldest = {state.newest.value - state.n};
    return taplevung_query_messages(
               1, state, session, oldest, times, snapshots, STORE, deltas, STORE, out, STORE).answer.kind;
}
static uint32_t do_full_messages(void)
{
    return taplevung_full_messages(1, state, times, snapshots, STORE, deltas, STORE, out, STORE).answer.kind;
}
static uint32_t do_notify_message(void)
{
    return taplevung_notify_message(1, state, out, STORE).answer.kind;
}
static uint32_t do_judge(void)
{
    return taplevung_judge(1, snapshot, snapshot_length, messages, messages_length, out, STORE).answer.kind;
}

static const struct {
    const char *name;
    uint32_t (*make)(void);
} calls[] = {
    {"construct", do_construct}, {"merge", do_merge}, {"apply", do_apply}, {"create", do_create},
    {"update", do_update},       {"query", do_query}, {"query_all", do_query_all}, {"full", do_full},
    {"query_messages", do_query_messages}, {"full_messages", do_full_messages}, {"notify_message", do_notify_message},
    {"judge, of 1 message and of 20,000", do_judge},
};
enum { CALLS = sizeof calls / sizeof *calls };

/* The lowest address below this frame that is not as painted; paints first if told to. */
__attribute__((noinline)) static uintptr_t below(int paint)
{
    volatile uint8_t here = 0;
    uintptr_t top = (uintptr_t)&here - 128, bottom = top - DEPTH;
    for (uintptr_t p = bottom; p < top; p++) {
        volatile uint8_t *at = (volatile uint8_t *)p;
        if (paint)
            *at = 0xa5;
        else if (*at != 0xa5)
            return p;
    }
    return top;
}

__attribute__((noinline)) static size_t stack_of(int call)
{
    uintptr_t top = below(1);
    if (calls[call].make() == 0)
        return 0;
    return top - below(0);
}

/* A history of n deltas over these inputs. */
static int history(uint32_t n)
{
    state = taplevung_create(7, 64, zero, snapshots, STORE, deltas, STORE).state;
    for (uint32_t step = 0; step <= n; step++) {
        const uint8_t *new_snapshot = step % 2 ? next : snapshot;
        size_t length = step % 2 ? next_length : snapshot_length;
        taplevung_made made = taplevung_update(state, new_snapshot, length, snapshots, STORE, deltas, STORE);
        if (made.answer.kind == 0)
            return 0;
        state = made.state;
    }
    return 1;
}

int main(void)
{
    static const uint8_t plain[3] = {1, 2, 3}, withdraw[3] = {0x12, 0x22, 0x32}, announce[3] = {0x11, 0x21, 0x31};
    static const uint32_t sizes[2] = {1, 40}, held[2] = {2, 64}, told[2] = {1, 20000};
    uint8_t **buffers[] = {&snapshot, &next, &delta, &later, &messages, &snapshots, &deltas, &out};
    size_t used[CALLS][2];
    for (size_t i = 0; i < sizeof buffers / sizeof *buffers; i++)
        if (!(*buffers[i] = calloc(STORE, 1)))
            return 2;
    for (int size = 0; size < 2; size++) {
        snapshot_length = fill(snapshot, sizes[size], plain, 1);
        next_length = fill(next, sizes[size], plain, 2);
        delta_length = fill(delta, sizes[size], withdraw, 1);
        later_length = fill(later, sizes[size], announce, 1);
        messages_length = answer(messages, told[size]);
        if (!history(held[size]))
            return 3;
        for (int call = 0; call < CALLS; call++)
            if ((used[call][size] = stack_of(call)) == 0)
                return 4;
    }
    printf("## Stack\n\nBytes of stack that a call takes, with what passes by value.\n\n");
    printf("| | 3 fields, 2 deltas held | 120 fields, 64 deltas held |\n|---|---|---|\n");
    for (int call = 0; call < CALLS; call++)
        printf("| %s | %lu | %lu |\n", calls[call].name, (unsigned long)used[call][0], (unsigned long)used[call][1]);
    return 0;
}
