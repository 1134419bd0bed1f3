/*
 * Makes the calls that it reads from its standard input and writes what came of each to its
 * standard output. Both are streams of the structs below, in the machine's own byte order,
 * each followed by the bytes of its three slices; long slices go without the zeros at their end.
 *
 * Each lent slice ends at a page that cannot be touched, so that a read or write past its end
 * is a crash; bytes before its start are compared afterwards.
 */
#include "taplevung.h"

/* Declared here and not by the system's headers, so that the program can be compiled for a
 * machine whose headers are not at hand. The constants are those of Linux. */
extern ptrdiff_t read(int, void *, size_t);
extern ptrdiff_t write(int, const void *, size_t);
extern void *mmap(void *, size_t, int, int, int, long);
extern int mprotect(void *, size_t, int);
extern void *memcpy(void *, const void *, size_t);
extern void *memset(void *, int, size_t);
enum { PROT_NONE_ = 0, PROT_READ_WRITE_ = 3, MAP_PRIVATE_ANONYMOUS_ = 0x22 };

enum entry {
    CONSTRUCT, MERGE, APPLY, CREATE, UPDATE, QUERY, QUERY_ALL, FULL, NOTIFY, READY, TIMING,
    QUERY_MESSAGES, FULL_MESSAGES, NOTIFY_MESSAGE, JUDGE
};

struct request {
    uint64_t entry, version, numbers[5];
    uint64_t lengths[3]; /* of the slices, and how much of each is sent */
    uint64_t sent[3];
    uint64_t list; /* the length of the queries, which come behind the slices */
    taplevung_state state;
};

struct reply {
    taplevung_answer answer;
    taplevung_state state;
    uint64_t numbers[3];
    uint64_t whole; /* 1 if nothing before a slice was written */
    uint64_t sent[3];
    uint64_t count; /* of replies, which come behind the slices */
};

/* Room for a slice: more than the longest that is lent, then the page. */
#define ROOM ((size_t)80 << 20)
#define PAGE ((size_t)65536)
#define BEFORE ((size_t)64)
#define LONG ((size_t)1048576)

static uint8_t *rooms[4]; /* the last for queries */
static taplevung_replies all;
static uint8_t input[65536];
static size_t input_at, input_end;

/* Reads n bytes; 0 at the end of the input. */
static int take(void *to, size_t n)
{
    uint8_t *p = to;
    while (n > 0) {
        if (input_at == input_end) {
            ptrdiff_t got = read(0, input, sizeof input);
            if (got <= 0)
                return 0;
            input_at = 0;
            input_end = (size_t)got;
        }
        size_t some = input_end - input_at < n ? input_end - input_at : n;
        memcpy(p, input + input_at, some);
        input_at += some;
        p += some;
        n -= some;
    }
    return 1;
}

static uint8_t output[65536];
static size_t output_at;

static int flush(void)
{
    for (size_t at = 0; at < output_at;) {
        ptrdiff_t put = write(1, output + at, output_at - at);
        if (put <= 0)
            return 0;
        at += (size_t)put;
    }
    output_at = 0;
    return 1;
}

static int give(const void *from, size_t n)
{
    const uint8_t *p = from;
    while (n > 0) {
        size_t some = sizeof output - output_at < n ? sizeof output - output_at : n;
        memcpy(output + output_at, p, some);
        output_at += some;
        p += some;
        n -= some;
        if (output_at == sizeof output && !flush())
            return 0;
    }
    return 1;
}

static void call(const struct request *q, uint8_t *const s[3], struct reply *r)
{
    const size_t *n = q->lengths;
    const uint64_t *given = q->numbers;
    uint32_t version = (uint32_t)q->version;
    int asked = q->entry == QUERY || q->entry == QUERY_MESSAGES;
    taplevung_serial serial = {(uint32_t)given[asked]}, start = {(uint32_t)given[2]};
    taplevung_session session = {(uint16_t)given[0]};
    const uint64_t *last = given + (asked ? 2 : 0);
    taplevung_timing_values times = {(uint32_t)last[0], (uint32_t)last[1], (uint32_t)last[2]};
    taplevung_made made;
    taplevung_told told;
    taplevung_sent sent;
    switch (q->entry) {
    case CONSTRUCT:
        r->answer = taplevung_construct(s[0], n[0], s[1], n[1], serial, s[2], n[2]);
        break;
    case MERGE:
        r->answer = taplevung_merge(s[0], n[0], s[1], n[1], serial, s[2], n[2]);
        break;
    case APPLY:
        r->answer = taplevung_apply(s[0], n[0], s[1], n[1], s[2], n[2]);
        break;
    case CREATE:
    case UPDATE:
        made = q->entry == CREATE
                   ? taplevung_create(given[0], (uint32_t)given[1], start, s[0], n[0], s[1], n[1])
                   : taplevung_update(q->state, s[0], n[0], s[1], n[1], s[2], n[2]);
        r->answer = made.answer;
        r->state = made.state;
        break;
    case QUERY:
    case FULL:
        told = q->entry == QUERY
                   ? taplevung_query(q->state, session, serial, s[0], n[0], s[1], n[1], s[2], n[2])
                   : taplevung_full(q->state, s[0], n[0], s[1], n[1]);
        r->answer = told.answer;
        r->numbers[0] = told.session.value;
        break;
    case QUERY_ALL:
        all = taplevung_query_all(
            q->state, s[0], n[0], s[1], n[1], rooms[3] + ROOM - q->list, q->list, s[2], n[2]);
        r->answer = all.answer;
        r->numbers[0] = all.session.value;
        r->count = all.count;
        break;
    case NOTIFY: {
        taplevung_notice notice = taplevung_notify(q->state);
        r->answer.serial = notice.serial;
        r->numbers[0] = notice.session.value;
        break;
    }
    case READY:
        r->numbers[0] = taplevung_ready(q->state);
        break;
    case TIMING: {
        taplevung_timing_values t = taplevung_timing(times.refresh, times.retry, times.expire);
        r->numbers[0] = t.refresh;
        r->numbers[1] = t.retry;
        r->numbers[2] = t.expire;
        break;
    }
    case QUERY_MESSAGES:
    case FULL_MESSAGES:
    case NOTIFY_MESSAGE:
        sent = q->entry == QUERY_MESSAGES
                   ? taplevung_query_messages(
                         version, q->state, session, serial, times, s[0], n[0], s[1], n[1], s[2], n[2])
               : q->entry == FULL_MESSAGES
                   ? taplevung_full_messages(version, q->state, times, s[0], n[0], s[1], n[1], s[2], n[2])
                   : taplevung_notify_message(version, q->state, s[2], n[2]);
        r->answer = sent.answer;
        r->numbers[0] = sent.session.value;
        r->numbers[1] = sent.router_keys_skipped;
        r->numbers[2] = sent.aspas_skipped;
        break;
    case JUDGE: {
        taplevung_judged j = taplevung_judge(version, s[0], n[0], s[1], n[1], s[2], n[2]);
        r->answer = j.answer;
        r->state.session = j.session.value;
        r->numbers[0] = j.timing.refresh;
        r->numbers[1] = j.timing.retry;
        r->numbers[2] = j.timing.expire;
        break;
    }
    }
}

int main(void)
{
    for (int i = 0; i < 4; i++) {
        rooms[i] = mmap(NULL, ROOM + PAGE, PROT_READ_WRITE_, MAP_PRIVATE_ANONYMOUS_, -1, 0);
        if ((uintptr_t)rooms[i] + 1 == 0 || mprotect(rooms[i] + ROOM, PAGE, PROT_NONE_) != 0)
            return 2;
    }
    struct request q;
    while (take(&q, sizeof q)) {
        uint8_t *slices[3];
        for (int i = 0; i < 3; i++) {
            if (q.lengths[i] > ROOM - BEFORE || q.sent[i] > q.lengths[i])
                return 3;
            slices[i] = rooms[i] + ROOM - q.lengths[i];
            memset(slices[i] - BEFORE, 0xc5, BEFORE);
            memset(slices[i] + q.sent[i], 0, q.lengths[i] - q.sent[i]);
            if (!take(slices[i], q.sent[i]))
                return 4;
        }
        if (q.list > ROOM || !take(rooms[3] + ROOM - q.list, q.list))
            return 4;
        struct reply r;
        memset(&r, 0, sizeof r);
        call(&q, slices, &r);
        r.whole = r.count <= TAPLEVUNG_QUERY_LIMIT;
        if (r.whole && q.entry == QUERY_ALL)
            for (const uint8_t *p = (const uint8_t *)(all.replies + r.count); p < (const uint8_t *)(&all + 1); p++)
                if (*p != 0)
                    r.whole = 0;
        for (int i = 0; i < 3; i++)
            for (size_t k = 1; k <= BEFORE; k++)
                if (slices[i][-(ptrdiff_t)k] != 0xc5)
                    r.whole = 0;
        for (int i = 0; i < 3; i++) {
            r.sent[i] = q.lengths[i];
            while (q.lengths[i] >= LONG && r.sent[i] > 0 && slices[i][r.sent[i] - 1] == 0)
                r.sent[i]--;
        }
        if (!give(&r, sizeof r))
            return 5;
        for (int i = 0; i < 3; i++)
            if (!give(slices[i], r.sent[i]))
                return 5;
        if (r.whole && !give(all.replies, r.count * sizeof *all.replies))
            return 5;
        if (!flush())
            return 5;
    }
    return 0;
}
