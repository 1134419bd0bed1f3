/*
 * Calls the library with what a fuzzer makes up and holds every answer to document 01's laws.
 *
 * Each lent slice stands against a page that cannot be touched, at its front or at its end, and
 * inputs are read-only, so that any touch outside of what was lent is a crash. After each call:
 * the answer and what was written are what rules.h says; a refusal has changed no byte; on
 * success the output past the answer is unchanged.
 */
#define _GNU_SOURCE
#include <stdio.h>
#include <stdlib.h>
#include <sys/mman.h>
#include <unistd.h>

#include "rules.h"

int LLVMFuzzerTestOneInput(const uint8_t *data, size_t size);

#define LAW(law)                                                                                    \
    do {                                                                                            \
        if (!(law)) {                                                                               \
            printf("line %d: broken: %s\n", __LINE__, #law);                                        \
            fflush(NULL);                                                                           \
            abort();                                                                                \
        }                                                                                           \
    } while (0)

/* What came of calls, as coverage beside the branches. */
__attribute__((used, section("__libfuzzer_extra_counters"))) uint8_t met[1 << 12];

static unsigned size_class(uint64_t n)
{
    unsigned bits = 0;
    for (; n; n >>= 1)
        bits++;
    return bits;
}

static void note(unsigned entry, const taplevung_answer *a)
{
    unsigned h = entry;
    h = h * 5 + a->kind;
    h = h * 13 + a->number;
    h = h * 3 + a->argument;
    h = h * 13 + size_class(a->offset);
    h = h * 17 + size_class(a->length);
    h = h * 7 + size_class(a->announced);
    h = h * 7 + size_class(a->withdrawn);
    met[h % sizeof met]++;
}

/*------------ Lending -----------------------------------------------------*/

#define ARENA ((size_t)1 << 20)
#define PAGE ((size_t)65536)

struct slice {
    uint8_t *bytes;
    size_t length;
};

/* An arena is seen twice, so that what the library may only read can still be filled. */
static uint8_t *read_only[3], *writable[3], *before[3];
static uint8_t scratch[4][ARENA];

/* The arena behind a file, between two pages that cannot be touched. */
static uint8_t *view(int file, int access)
{
    uint8_t *p = mmap(NULL, ARENA + 2 * PAGE, PROT_NONE, MAP_PRIVATE | MAP_ANONYMOUS, -1, 0);
    LAW((uintptr_t)p + 1 != 0);
    LAW(mmap(p + PAGE, ARENA, access, MAP_SHARED | MAP_FIXED, file, 0) == p + PAGE);
    return p + PAGE;
}

static void set_up(void)
{
    for (int i = 0; i < 3 && !before[i]; i++) {
        int file = memfd_create("arena", 0);
        LAW(file >= 0 && ftruncate(file, (long)ARENA) == 0);
        read_only[i] = view(file, PROT_READ);
        writable[i] = view(file, PROT_READ | PROT_WRITE);
        before[i] = mmap(NULL, ARENA, PROT_READ | PROT_WRITE, MAP_PRIVATE | MAP_ANONYMOUS, -1, 0);
        LAW((uintptr_t)before[i] + 1 != 0);
    }
}

/* Lends bytes of arena i, against the page before it or the one behind it, to be read or also written, and
 * keeps a copy of them. */
static struct slice lend(int i, const uint8_t *bytes, size_t length, int at_front, int written)
{
    LAW(length <= ARENA);
    size_t offset = at_front ? 0 : ARENA - length;
    memcpy(writable[i] + offset, bytes, length);
    memcpy(before[i], bytes, length);
    struct slice s = {(written ? writable : read_only)[i] + offset, length};
    return s;
}

/* An output of any bytes. */
static struct slice lend_output(int i, size_t length, int at_front)
{
    static uint8_t any[ARENA];
    if (any[0] == 0)
        memset(any, 0xa5, sizeof any);
    return lend(i, any, length, at_front, 1);
}

/* Whether what was lent from arena i is as it was, from an offset on. */
static int same_from(int i, struct slice s, size_t offset)
{
    return offset <= s.length && memcmp(s.bytes + offset, before[i] + offset, s.length - offset) == 0;
}

static int equal(const uint8_t *a, size_t an, const uint8_t *b, size_t bn)
{
    return an == bn && memcmp(a, b, an) == 0;
}

/*------------ Inputs ------------------------------------------------------*/

struct input {
    const uint8_t *at, *end;
};

static uint32_t u8(struct input *in)
{
    return in->at < in->end ? *in->at++ : 0;
}

static uint32_t u32(struct input *in)
{
    uint32_t x = u8(in);
    x = x << 8 | u8(in);
    x = x << 8 | u8(in);
    return x << 8 | u8(in);
}

/* How long an output is. */
static size_t room(struct input *in, uint32_t places)
{
    uint32_t length = u32(in);
    return length % (places & 8 ? length >> 31 ? ARENA / 8 : 4096 : 128);
}

/* An ascending list of providers: a few, or as many as there may be and a little more. Three in four are above all
 * customers, and not empty. */
static size_t put_list(struct input *in, uint8_t *to, int *long_lists)
{
    uint32_t shape = u8(in), count = shape & 7, step = 1 + (shape >> 3 & 1), from = shape >> 4 & 3;
    if (shape >= 0xfc && *long_lists > 0) {
        count = 4094 + (shape & 3);
        (*long_lists)--;
    }
    if (shape < 0xc0) {
        count += count == 0;
        from += 8;
    }
    for (uint32_t i = 0; i < count; i++) {
        uint32_t provider = from + i * step;
        uint8_t *p = to + 4 * i;
        p[0] = (uint8_t)(provider >> 24);
        p[1] = (uint8_t)(provider >> 16);
        p[2] = (uint8_t)(provider >> 8);
        p[3] = (uint8_t)provider;
    }
    return 4 * count;
}

/* One field, good but for bounds that a byte of the input may break; its length. */
static size_t put_field(struct input *in, enum form form, uint8_t *to, int *long_lists)
{
    uint32_t what = u8(in), kind = 1 + what % 3, action = 1 + (what >> 4) % (kind == 3 ? 3 : 2);
    uint8_t *body = to + 3;
    size_t n = 0;
    to[0] = (uint8_t)(form == SNAPSHOT ? kind : kind << 4 | action);
    if (kind == 1) {
        uint32_t shape = u8(in), prefix = u8(in), more = u8(in);
        memset(body, 0, 23);
        body[0] = shape & 1 ? 6 : 4;
        uint32_t bound = body[0] == 4 ? 32 : 128;
        if (!(shape & 0x80))
            prefix %= bound + 1;
        for (uint32_t bit = 0; bit < prefix && bit < 128; bit++)
            if (shape >> (1 + bit % 5) & 1)
                body[1 + bit / 8] |= (uint8_t)(128 >> bit % 8);
        body[17] = (uint8_t)prefix;
        body[18] = (uint8_t)(shape & 0x40 ? more : prefix + (prefix < bound ? more % (bound - prefix + 1) : 0));
        body[22] = shape >> 5 & 1;
        n = 23;
    } else if (kind == 2) {
        uint32_t shape = u8(in), info = u8(in);
        memset(body, (int)(shape & 3), 24);
        n = 24 + (shape & 0x80 ? 1020 + info % 8 : info % 40);
        memset(body + 24, (int)(shape >> 2 & 3), n - 24);
    } else {
        memset(body, 0, 4);
        body[3] = (uint8_t)(u8(in) & 7);
        n = 4;
        if (form == DELTA && action == 3) {
            size_t former = put_list(in, body + 6, long_lists);
            body[4] = (uint8_t)(former / 4 >> 8);
            body[5] = (uint8_t)(former / 4);
            n = 6 + former;
        }
        n += put_list(in, body + n, long_lists);
    }
    to[1] = (uint8_t)(n >> 8);
    to[2] = (uint8_t)n;
    return 3 + n;
}

static int above(enum form form, const uint8_t *a, size_t an, const uint8_t *b, size_t bn)
{
    unsigned ka = form == SNAPSHOT ? a[0] : a[0] >> 4, kb = form == SNAPSHOT ? b[0] : b[0] >> 4;
    if (ka != kb)
        return ka > kb;
    return compare_bytes(a + 3, ka == 3 ? 4 : an - 3, b + 3, kb == 3 ? 4 : bn - 3) > 0;
}

/* A snapshot or a delta: bytes as they come, or fields, put in order or not, then damaged or not. */
static size_t put_bytes(struct input *in, enum form form, uint8_t *to)
{
    enum { FIELDS = 16, ROOM = ARENA / 4 };
    uint32_t mode = u8(in);
    size_t length = 0;
    if ((mode & 7) == 7) {
        for (uint32_t n = u8(in) * 2; n > 0; n--)
            to[length++] = (uint8_t)u8(in);
        return length;
    }
    int long_lists = 2;
    size_t starts[FIELDS], lengths[FIELDS], count = 0;
    static uint8_t fields[ARENA];
    for (uint32_t n = mode >> 4, used = 0; n > 0; n--) {
        size_t own = put_field(in, form, fields + used, &long_lists);
        size_t at = count;
        /* in order, and each key once, unless the mode says otherwise */
        if ((mode & 7) != 6)
            while (at > 0 && !above(form, fields + used, own, fields + starts[at - 1], lengths[at - 1]))
                at--;
        if ((mode & 7) != 6 && at < count &&
            !above(form, fields + starts[at], lengths[at], fields + used, own))
            continue;
        memmove(starts + at + 1, starts + at, (count - at) * sizeof *starts);
        memmove(lengths + at + 1, lengths + at, (count - at) * sizeof *lengths);
        starts[at] = used;
        lengths[at] = own;
        used += (uint32_t)own;
        count++;
    }
    for (size_t i = 0; i < count && length + lengths[i] <= ROOM; length += lengths[i++])
        memcpy(to + length, fields + starts[i], lengths[i]);
    if ((mode & 15) == 8 && length > 0) {
        size_t at = (u32(in) & 0xffff) % length;
        to[at] ^= (uint8_t)u8(in);
        length -= u8(in) & 3 & length;
    }
    return length;
}

static size_t put_number(uint8_t *to, size_t bytes, uint32_t x)
{
    for (size_t i = bytes; i > 0; x >>= 8)
        to[--i] = (uint8_t)x;
    return bytes;
}

/* Another cache's message: version, type, two bytes, and the length with these many bytes behind the header. */
static size_t told_header(uint8_t *to, uint8_t version, uint8_t type, uint32_t two, size_t body)
{
    to[0] = version;
    to[1] = type;
    put_number(to + 2, 2, two);
    put_number(to + 4, 4, (uint32_t)(8 + body));
    return 8 + body;
}

/* The message of an origin or a router key, by its field. */
static size_t told_payload(uint8_t *to, uint8_t version, const uint8_t *field, uint8_t flags)
{
    size_t body = (size_t)field[1] << 8 | field[2], address = field[3] == 4 ? 4 : 16;
    if (field[0] == 2) {
        memcpy(to + 8, field + 3, body);
        return told_header(to, version, 9, (uint32_t)flags << 8, body);
    }
    to[8] = flags;
    to[9] = field[20];
    to[10] = field[21];
    to[11] = 0;
    memcpy(to + 12, field + 4, address);
    memcpy(to + 12 + address, field + 22, 4);
    return told_header(to, version, field[3], 0, 8 + address);
}

/* An answer to one who holds the snapshot of n bytes: bytes as they come, or messages that mostly fit, then damaged or
 * not. */
static size_t put_messages(struct input *in, uint8_t *to, uint8_t version, const uint8_t *snapshot, size_t n)
{
    uint32_t mode = u8(in);
    size_t length = 0;
    if ((mode & 7) == 7) {
        for (uint32_t left = u8(in) * 2; left > 0; left--)
            to[length++] = (uint8_t)u8(in);
        return length;
    }
    static uint8_t field[65536 * 2];
    uint8_t *set = scratch[3];
    int fitting = check(SNAPSHOT, snapshot, n).number == 0;
    memcpy(set, snapshot, n);
    uint32_t session = u8(in);
    length = told_header(to, version, 3, session, 0);
    for (uint32_t left = mode >> 3; left > 0; left--) {
        uint32_t what = u8(in);
        int long_lists = 0;
        size_t own = put_field(in, SNAPSHOT, field, &long_lists);
        if (field[0] == 3) {
            /* a message of another type, with whatever length */
            to[length + 8] = to[length + 9] = to[length + 10] = to[length + 11] = 0;
            length += told_header(to + length, version, (uint8_t)(what & 15), session, what >> 4 & 4);
            continue;
        }
        /* the flags that fit, or as they come */
        uint8_t flags = (uint8_t)(what & 3);
        if (fitting && what & 0x70) {
            flags = take_record(set, n, field, own, 1) >= 0;
            n = flags ? n + own : (size_t)take_record(set, n, field, own, 0);
        }
        length += told_payload(to + length, version, field, flags);
    }
    /* the length of its version, or of the other */
    size_t body = (version == 0) == ((mode & 7) == 4) ? 16 : 4;
    length += told_header(to + length, version, 7, session ^ ((mode & 7) == 5), body);
    for (size_t i = body; i > 0; i--)
        to[length - i] = (uint8_t)u8(in);
    if ((mode & 7) == 6) {
        size_t at = (u32(in) & 0xffff) % length;
        to[at] ^= (uint8_t)u8(in);
        size_t cut = u8(in) & 31;
        length -= cut < length ? cut : length;
    }
    return length;
}

/*------------ Laws --------------------------------------------------------*/

static int refused_with(const taplevung_answer *a, uint32_t number, uint32_t argument, uint64_t offset)
{
    return a->kind == 0 && a->number == number && a->argument == argument && a->offset == offset &&
           a->serial.value == 0 && a->length == 0 && a->announced == 0 && a->withdrawn == 0;
}

static int accepted(const taplevung_answer *a)
{
    return a->kind != 0 && a->number == 0 && a->argument == 0 && a->offset == 0;
}

/* The counts that a delta's tags give. */
static int counted(const taplevung_answer *a, const uint8_t *p)
{
    uint64_t announced = 0, withdrawn = 0;
    for (size_t at = 0; at < a->length; at += 3 + ((size_t)p[at + 1] << 8 | p[at + 2]))
        *((p[at] & 15) == 2 ? &withdrawn : &announced) += 1;
    return a->announced == announced && a->withdrawn == withdrawn;
}

/* Checks the first two slices; 1 if the answer is refusal 1, 12 or 2, as it must be. */
static int bad_input(const taplevung_answer *a, struct slice first, enum form f, struct slice second, enum form g)
{
    struct verdict v = check(f, first.bytes, first.length);
    uint32_t argument = 1;
    if (v.number == 0) {
        v = check(g, second.bytes, second.length);
        argument = 2;
    }
    if (v.number == 0) {
        LAW(a->kind != 0 || (a->number != 1 && a->number != 12 && a->number != 2));
        return 0;
    }
    LAW(refused_with(a, v.number, argument, v.offset));
    return 1;
}

/* The answer of a call with an output, given all that it ought to write: that much and no more, or
 * refusal 4 and nothing. 1 if it was written. */
static int written(const taplevung_answer *a, struct slice out, enum form form, const uint8_t *whole, size_t length)
{
    if (length > out.length) {
        LAW(refused_with(a, 4, 0, 0) && same_from(2, out, 0));
        return 0;
    }
    LAW(accepted(a) && a->length == length);
    LAW(memcmp(out.bytes, whole, length) == 0 && same_from(2, out, length));
    LAW(form == DELTA ? counted(a, out.bytes) : a->announced == 0 && a->withdrawn == 0);
    return 1;
}

static const taplevung_serial zero = {0};

static void difference(struct input *in)
{
    uint32_t places = u8(in);
    taplevung_serial serial = {u32(in)};
    size_t old_length = put_bytes(in, SNAPSHOT, scratch[0]), new_length = put_bytes(in, SNAPSHOT, scratch[1]);
    struct slice old_snapshot = lend(0, scratch[0], old_length, places & 1, 0);
    struct slice new_snapshot = lend(1, scratch[1], new_length, places & 2, 0);
    struct slice out = lend_output(2, room(in, places), places & 4);
    taplevung_answer a = taplevung_construct(old_snapshot.bytes, old_length, new_snapshot.bytes, new_length,
                                             serial, out.bytes, out.length);
    note(0, &a);
    if (bad_input(&a, old_snapshot, SNAPSHOT, new_snapshot, SNAPSHOT)) {
        LAW(same_from(2, out, 0));
        return;
    }
    size_t length = difference_into(scratch[2], scratch[0], old_length, scratch[1], new_length);
    if (written(&a, out, DELTA, scratch[2], length))
        LAW(length ? a.kind == 1 && a.serial.value == serial.value + 1 : a.kind == 2 && a.serial.value == 0);
}

static void merge(struct input *in)
{
    uint32_t places = u8(in);
    taplevung_serial serial = {u32(in)};
    size_t earlier_length = put_bytes(in, DELTA, scratch[0]), later_length = put_bytes(in, DELTA, scratch[1]);
    struct slice earlier = lend(0, scratch[0], earlier_length, places & 1, 0);
    struct slice later = lend(1, scratch[1], later_length, places & 2, 0);
    struct slice out = lend_output(2, room(in, places), places & 4);
    taplevung_answer a = taplevung_merge(earlier.bytes, earlier_length, later.bytes, later_length, serial,
                                         out.bytes, out.length);
    note(1, &a);
    if (bad_input(&a, earlier, DELTA, later, DELTA)) {
        LAW(same_from(2, out, 0));
        return;
    }
    size_t length = merge_into(scratch[2], scratch[0], earlier_length, scratch[1], later_length);
    if (written(&a, out, DELTA, scratch[2], length))
        LAW(a.kind == 1 && a.serial.value == serial.value);
}

static void application(struct input *in)
{
    uint32_t places = u8(in);
    size_t snapshot_length = put_bytes(in, SNAPSHOT, scratch[0]), delta_length;
    if (places & 16) {
        /* the difference to another snapshot, which can be applied */
        size_t next_length = put_bytes(in, SNAPSHOT, scratch[2]);
        delta_length = (size_t)taplevung_construct(scratch[0], snapshot_length, scratch[2], next_length, zero,
                                                   scratch[1], ARENA).length;
    } else {
        delta_length = put_bytes(in, DELTA, scratch[1]);
    }
    struct slice snapshot = lend(0, scratch[0], snapshot_length, places & 1, 0);
    struct slice delta = lend(1, scratch[1], delta_length, places & 2, 0);
    struct slice out = lend_output(2, room(in, places), places & 4);
    taplevung_answer a =
        taplevung_apply(snapshot.bytes, snapshot_length, delta.bytes, delta_length, out.bytes, out.length);
    note(2, &a);
    if (bad_input(&a, snapshot, SNAPSHOT, delta, DELTA)) {
        LAW(same_from(2, out, 0));
        return;
    }
    size_t bad = 0;
    ptrdiff_t length = apply_into(scratch[2], scratch[0], snapshot_length, scratch[1], delta_length, &bad);
    if (length < 0)
        LAW(refused_with(&a, 3, 2, bad) && same_from(2, out, 0));
    else if (written(&a, out, SNAPSHOT, scratch[2], (size_t)length))
        LAW(a.kind == 1 && a.serial.value == 0);
}

static void judging(struct input *in)
{
    uint32_t places = u8(in), version = u8(in) & 3;
    size_t snapshot_length = put_bytes(in, SNAPSHOT, scratch[0]);
    size_t messages_length = put_messages(in, scratch[1], version != 0, scratch[0], snapshot_length);
    struct slice snapshot = lend(0, scratch[0], snapshot_length, places & 1, 0);
    struct slice messages = lend(1, scratch[1], messages_length, places & 2, 0);
    struct slice out = lend_output(2, room(in, places), places & 4);
    taplevung_judged j = taplevung_judge(version, snapshot.bytes, snapshot.length, messages.bytes, messages.length,
                                         out.bytes, out.length);
    const taplevung_answer *a = &j.answer;
    note(11, a);
    taplevung_judged rule = {{0, 0, 1, {0}, 0, 0, 0, 0}, {0}, {0, 0, 0}};
    struct verdict v = check(SNAPSHOT, scratch[0], snapshot_length);
    rule.answer.number = v.number;
    rule.answer.offset = v.offset;
    if (v.number == 0) {
        memcpy(scratch[2], scratch[0], snapshot_length);
        rule = judge_into(scratch[2], snapshot_length, version != 0, scratch[1], messages_length);
    }
    if (rule.answer.kind != 0 && rule.answer.length <= out.length) {
        LAW(accepted(a) && a->kind == 1 && a->serial.value == rule.answer.serial.value);
        LAW(a->length == rule.answer.length && a->announced == rule.answer.announced);
        LAW(a->withdrawn == rule.answer.withdrawn && j.session.value == rule.session.value);
        LAW(memcmp(&j.timing, &rule.timing, sizeof j.timing) == 0);
        LAW(memcmp(out.bytes, scratch[2], a->length) == 0 && same_from(2, out, a->length));
        return;
    }
    if (rule.answer.kind != 0)
        LAW(refused_with(a, 4, 0, 0));
    else
        LAW(refused_with(a, rule.answer.number, rule.answer.argument, rule.answer.offset));
    LAW(j.session.value == 0 && j.timing.refresh == 0 && j.timing.retry == 0 && j.timing.expire == 0);
    LAW(same_from(2, out, 0));
}

/*------------ A history ---------------------------------------------------*/

/* Its stores are mostly short, for they are copied before each call. */
struct history {
    taplevung_state state;
    uint8_t snapshots[ARENA / 8], deltas[ARENA / 2];
    size_t snapshots_length, deltas_length;
};
enum { SHORT_SNAPSHOTS = 1024, SHORT_DELTAS = 4096 };

static int formed(const struct history *h)
{
    return well_formed(&h->state, h->snapshots, h->snapshots_length, h->deltas, h->deltas_length);
}

static void update(struct input *in, struct history *h, uint32_t places)
{
    size_t length = put_bytes(in, SNAPSHOT, scratch[0]);
    struct slice new_snapshot = lend(0, scratch[0], length, places & 1, 0);
    struct slice snapshots = lend(1, h->snapshots, h->snapshots_length, places & 2, 1);
    struct slice deltas = lend(2, h->deltas, h->deltas_length, places & 4, 1);
    taplevung_state s = h->state;
    taplevung_made made = taplevung_update(s, new_snapshot.bytes, length, snapshots.bytes, snapshots.length,
                                           deltas.bytes, deltas.length);
    const taplevung_answer *a = &made.answer;
    note(3, a);
    struct verdict v = check(SNAPSHOT, scratch[0], length);
    int good = formed(h);
    if (good && v.number == 0) {
        size_t added = difference_into(scratch[1], h->snapshots, s.snapshot, scratch[0], length);
        uint64_t dropped = s.n == s.keep ? s.deltas[0] : 0, kept = held(&s) - dropped;
        int unchanged = s.active && added == 0;
        int full = length > h->snapshots_length || (s.active && kept + added > h->deltas_length);
        if (!unchanged && !full) {
            LAW(accepted(a) && a->kind == (s.active ? 3 : 1));
            LAW(made.state.session == s.session && made.state.keep == s.keep && made.state.active == 1);
            LAW(made.state.snapshot == length && made.state.newest.value == a->serial.value);
            LAW(made.state.start.value == s.start.value);
            LAW(equal(snapshots.bytes, length, scratch[0], length) && same_from(1, snapshots, length));
            if (s.active) {
                LAW(a->serial.value == s.newest.value + 1 && a->length == added && counted(a, scratch[1]));
                LAW(made.state.n == s.n + (s.n < s.keep));
                LAW(memcmp(deltas.bytes, h->deltas + dropped, kept) == 0);
                LAW(memcmp(deltas.bytes + kept, scratch[1], added) == 0);
                LAW(made.state.deltas[made.state.n - 1] == added);
                LAW(memcmp(made.state.deltas, s.deltas + (s.n == s.keep), (made.state.n - 1) * sizeof *s.deltas) == 0);
            } else {
                LAW(a->serial.value == s.start.value && a->length == 0 && made.state.n == 0);
            }
            LAW(held(&made.state) == (s.active ? kept + added : 0));
            LAW(same_from(2, deltas, held(&made.state)));
            for (uint32_t i = made.state.n; i < 64; i++)
                LAW(made.state.deltas[i] == 0);
            h->state = made.state;
            memcpy(h->snapshots, snapshots.bytes, snapshots.length);
            memcpy(h->deltas, deltas.bytes, deltas.length);
            LAW(formed(h));
            return;
        }
        if (unchanged)
            LAW(accepted(a) && a->kind == 2 && a->serial.value == s.newest.value && a->length == 0);
        else
            LAW(refused_with(a, 9, 0, 0));
    } else {
        LAW(good ? refused_with(a, v.number, 1, v.offset) : refused_with(a, 7, 0, 0));
    }
    LAW(memcmp(&made.state, &s, offsetof(taplevung_state, deltas) + sizeof s.deltas) == 0);
    LAW(same_from(1, snapshots, 0) && same_from(2, deltas, 0));
}

/* The last d deltas, merged one after another. */
static const uint8_t *since(const struct history *h, uint32_t d, size_t *length)
{
    const taplevung_state *s = &h->state;
    uint8_t *now = scratch[0], *then = scratch[1];
    size_t at = 0;
    *length = 0;
    for (uint32_t i = 0; i < s->n; at += s->deltas[i++])
        if (i + d >= s->n) {
            *length = merge_into(then, now, *length, h->deltas + at, s->deltas[i]);
            uint8_t *swap = now;
            now = then;
            then = swap;
        }
    return now;
}

static int is_served(const taplevung_state *s, taplevung_serial serial)
{
    return s->n == 0 ? serial.value == s->start.value : s->newest.value - serial.value <= s->n;
}

static void query(struct input *in, struct history *h, uint32_t places)
{
    uint32_t behind = u8(in);
    const taplevung_state *s = &h->state;
    taplevung_session session = {(uint16_t)(s->session ^ (places >> 7))};
    taplevung_serial serial = {s->newest.value - (behind & 128 ? u32(in) : behind)};
    struct slice snapshots = lend(0, h->snapshots, h->snapshots_length, places & 1, 0);
    struct slice deltas = lend(1, h->deltas, h->deltas_length, places & 2, 0);
    struct slice out = lend_output(2, room(in, places), places & 4);
    taplevung_told told = taplevung_query(*s, session, serial, snapshots.bytes, snapshots.length, deltas.bytes,
                                          deltas.length, out.bytes, out.length);
    const taplevung_answer *a = &told.answer;
    note(4, a);
    uint32_t d = s->newest.value - serial.value;
    uint32_t number = !formed(h) ? 7 : session.value != (uint16_t)s->session ? 5 : !is_served(s, serial) ? 6 : 0;
    if (number != 0) {
        LAW(refused_with(a, number, 0, 0) && told.session.value == 0 && same_from(2, out, 0));
        return;
    }
    size_t length;
    const uint8_t *now = since(h, d, &length);
    if (written(a, out, DELTA, now, length))
        LAW(a->kind == 1 && a->serial.value == s->newest.value && told.session.value == (uint16_t)s->session);
    else
        LAW(told.session.value == 0);
}

/* Messages, as far as what they are is in scratch[2]: these and no more, or refusal 4 and nothing. 1 if written. */
static int sent_all(const taplevung_sent *sent, struct slice out, uint32_t kind, uint32_t number, size_t length)
{
    const taplevung_answer *a = &sent->answer;
    if (length > out.length) {
        LAW(refused_with(a, 4, 0, 0) && sent->session.value == 0 && sent->aspas_skipped == 0);
        LAW(sent->router_keys_skipped == 0 && same_from(2, out, 0));
        return 0;
    }
    LAW(a->kind == kind && a->number == number && a->argument == 0 && a->offset == 0 && a->length == length);
    LAW(memcmp(out.bytes, scratch[2], length) == 0 && same_from(2, out, length));
    return 1;
}

/* The same of data: what the messages count, and what they name. */
static void sent_data(const taplevung_sent *sent, struct slice out, const taplevung_state *s, struct messages m)
{
    const taplevung_answer *a = &sent->answer;
    if (!sent_all(sent, out, 1, 0, m.length))
        return;
    LAW(a->serial.value == s->newest.value && sent->session.value == (uint16_t)s->session);
    LAW(a->announced == m.announced && a->withdrawn == m.withdrawn);
    LAW(sent->router_keys_skipped == m.keys && sent->aspas_skipped == m.aspas);
}

static void messages(struct input *in, struct history *h, uint32_t places)
{
    uint32_t behind = u8(in), what = u8(in);
    const taplevung_state *s = &h->state;
    taplevung_session session = {(uint16_t)(s->session ^ (places >> 7))};
    taplevung_serial serial = {s->newest.value - (behind & 128 ? u32(in) : behind)};
    taplevung_timing_values times = {what & 4 ? u32(in) : 3600, what & 8 ? u32(in) : 600, what & 16 ? u32(in) : 7200};
    struct slice snapshots = lend(0, h->snapshots, h->snapshots_length, places & 1, 0);
    struct slice deltas = lend(1, h->deltas, h->deltas_length, places & 2, 0);
    struct slice out = lend_output(2, room(in, places), places & 4);
    uint16_t own = (uint16_t)s->session;
    uint32_t version = what >> 5 & 3;
    uint8_t told = version != 0;
    if ((what & 3) == 0) {
        taplevung_sent sent = taplevung_notify_message(version, *s, out.bytes, out.length);
        note(7, &sent.answer);
        put_serial(scratch[2], told, 0, own, s->newest.value);
        struct messages m = {12, 0, 0, 0, 0};
        sent_data(&sent, out, s, m);
        return;
    }
    int full = (what & 3) == 1;
    taplevung_sent sent = full ? taplevung_full_messages(version, *s, times, snapshots.bytes, snapshots.length,
                                                         deltas.bytes, deltas.length, out.bytes, out.length)
                               : taplevung_query_messages(version, *s, session, serial, times, snapshots.bytes,
                                                          snapshots.length, deltas.bytes, deltas.length, out.bytes,
                                                          out.length);
    note(8 + full, &sent.answer);
    if (!formed(h)) {
        LAW(refused_with(&sent.answer, 7, 0, 0) && sent.session.value == 0 && same_from(2, out, 0));
        LAW(sent.router_keys_skipped == 0 && sent.aspas_skipped == 0);
    } else if (full) {
        sent_data(&sent, out, s,
                  messages_into(scratch[2], told, SNAPSHOT, h->snapshots, s->snapshot, own, s->newest.value, times));
    } else if (session.value == own && is_served(s, serial)) {
        size_t length;
        const uint8_t *now = since(h, s->newest.value - serial.value, &length);
        sent_data(&sent, out, s, messages_into(scratch[2], told, DELTA, now, length, own, s->newest.value, times));
    } else {
        int other = session.value != own;
        uint8_t *end = other ? put_error(scratch[2], told, session.value, serial.value)
                             : put_header(scratch[2], told, 8, 0, 8);
        if (sent_all(&sent, out, other ? 3 : 2, other ? 5 : 6, (size_t)(end - scratch[2])))
            LAW(sent.session.value == 0 && sent.router_keys_skipped == 0 && sent.aspas_skipped == 0 &&
                sent.answer.serial.value == 0 && sent.answer.announced == 0 && sent.answer.withdrawn == 0);
    }
}

/* Queries in one call: as one by one, each with the output still unused. */
static void query_all(struct input *in, struct history *h, uint32_t places)
{
    static uint8_t list[6 * 386];
    const taplevung_state *s = &h->state;
    uint32_t shape = u8(in), count = shape < 250 ? shape % 16 : 383 + shape % 3;
    size_t length = 6 * count + (shape % 16 == 15);
    uint8_t *alone = scratch[2];
    for (size_t i = 0; i < count; i++) {
        uint32_t behind = i < 16 ? u8(in) : list[6 * (i - 16) + 5], serial = s->newest.value - behind % 80;
        uint16_t session = (uint16_t)(s->session ^ (behind >> 7 & behind >> 6));
        uint8_t query[6] = {session >> 8, session & 255, serial >> 24, serial >> 16 & 255, serial >> 8 & 255, serial & 255};
        memcpy(list + 6 * i, query, 6);
    }
    struct slice snapshots = lend(0, h->snapshots, h->snapshots_length, places & 1, 0);
    struct slice deltas = lend(1, h->deltas, h->deltas_length, places & 2, 0);
    struct slice out = lend_output(2, room(in, places), places & 4);
    memcpy(alone, out.bytes, out.length);
    taplevung_replies all = taplevung_query_all(*s, snapshots.bytes, snapshots.length, deltas.bytes, deltas.length,
                                                list, length, out.bytes, out.length);
    note(10, &all.answer);
    uint32_t number = !formed(h) ? 7 : length % 6 != 0 || count > TAPLEVUNG_QUERY_LIMIT ? 11 : 0;
    if (number != 0) {
        LAW(refused_with(&all.answer, number, 0, 0) && all.session.value == 0 && all.count == 0 && same_from(2, out, 0));
        return;
    }
    size_t used = 0;
    LAW(all.count == count && all.session.value == (uint16_t)s->session && all.answer.serial.value == s->newest.value);
    for (size_t i = 0; i < count; i++) {
        const uint8_t *q = list + 6 * i;
        taplevung_session session = {(uint16_t)(q[0] << 8 | q[1])};
        taplevung_serial serial = {(uint32_t)q[2] << 24 | (uint32_t)q[3] << 16 | (uint32_t)q[4] << 8 | q[5]};
        taplevung_answer a = taplevung_query(*s, session, serial, snapshots.bytes, snapshots.length, deltas.bytes,
                                             deltas.length, alone + used, out.length - used).answer;
        const taplevung_reply *r = &all.replies[i];
        LAW(r->kind == a.kind && r->number == a.number && r->offset == (a.kind == 1 ? used : 0));
        LAW(r->length == a.length && r->announced == a.announced && r->withdrawn == a.withdrawn);
        used += a.length;
    }
    LAW(all.answer.kind == 1 && all.answer.length == used && equal(out.bytes, out.length, alone, out.length));
}

static void questions(const struct history *h, uint32_t places)
{
    const taplevung_state *s = &h->state;
    struct slice snapshots = lend(0, h->snapshots, h->snapshots_length, places & 1, 0);
    struct slice deltas = lend(1, h->deltas, h->deltas_length, places & 2, 0);
    taplevung_told told = taplevung_full(*s, snapshots.bytes, snapshots.length, deltas.bytes, deltas.length);
    const taplevung_answer *a = &told.answer;
    note(5, a);
    if (formed(h)) {
        LAW(accepted(a) && a->kind == 1 && a->length == s->snapshot && a->serial.value == s->newest.value);
        LAW(told.session.value == (uint16_t)s->session && a->announced == 0 && a->withdrawn == 0);
    } else {
        LAW(refused_with(a, 7, 0, 0) && told.session.value == 0);
    }
    taplevung_notice notice = taplevung_notify(*s);
    LAW(notice.session.value == (uint16_t)s->session && notice.serial.value == s->newest.value);
    LAW(taplevung_ready(*s) == (s->active != 0));
}

/* Changes a number of the state or a byte of a store. */
static void tamper(struct input *in, struct history *h)
{
    uint32_t what = u8(in), value = u8(in);
    taplevung_state *s = &h->state;
    switch (what & 15) {
    case 0:
        s->keep = value;
        break;
    case 1:
        s->active = value;
        break;
    case 2:
        s->newest.value = u32(in);
        break;
    case 3:
        s->n = value & 128 ? u32(in) : value;
        break;
    case 4:
        s->snapshot = value & 128 ? u32(in) : value;
        break;
    case 5:
        s->deltas[value % 64] = u32(in);
        break;
    case 6:
        s->deltas[value % 8] += 1 + (what >> 4);
        break;
    case 7:
        h->snapshots[(u32(in) & 0xffff) % sizeof h->snapshots] ^= (uint8_t)value;
        break;
    case 8:
        h->deltas[(u32(in) & 0xffff) % sizeof h->deltas] ^= (uint8_t)value;
        break;
    case 9:
        h->snapshots_length = u32(in) % sizeof h->snapshots;
        break;
    case 10:
        h->deltas_length = u32(in) % sizeof h->deltas;
        break;
    case 11:
        /* just long enough, give or take a byte */
        h->deltas_length = s->n <= 64 ? (size_t)held(s) % (sizeof h->deltas - 4) + value % 3 : 0;
        break;
    case 12:
        s->start.value = value & 128 ? u32(in) : s->newest.value + value % 3;
        break;
    case 13:
        h->snapshots_length = sizeof h->snapshots;
        h->deltas_length = sizeof h->deltas;
        break;
    default:
        h->snapshots_length = SHORT_SNAPSHOTS;
        h->deltas_length = SHORT_DELTAS;
    }
}

/* A history and what is done with it, as long as the input says. */
static void history(struct input *in)
{
    static struct history h;
    memset(h.snapshots, 0xb6, SHORT_SNAPSHOTS);
    memset(h.deltas, 0xb7, SHORT_DELTAS);
    uint32_t sizes = u8(in), keep = u8(in) % 67, near = u8(in);
    /* 0, or within 31 of the middle or the wrap */
    taplevung_serial start = {near < 128 ? 0 : (near & 64 ? 0x80000000u : 0) - 31 + (near & 63)};
    h.snapshots_length = sizes & 15 ? SHORT_SNAPSHOTS : 1 + u8(in);
    h.deltas_length = sizes >> 4 ? SHORT_DELTAS : u8(in);
    struct slice snapshots = lend(0, h.snapshots, h.snapshots_length, sizes & 1, 0);
    struct slice deltas = lend(1, h.deltas, h.deltas_length, sizes & 2, 0);
    taplevung_made made =
        taplevung_create(0x10000 + sizes, keep, start, snapshots.bytes, snapshots.length, deltas.bytes, deltas.length);
    note(6, &made.answer);
    taplevung_state fresh = {0};
    if (keep < 1 || keep > 64) {
        LAW(refused_with(&made.answer, 8, 0, 0));
    } else {
        fresh.session = 0x10000 + sizes;
        fresh.keep = keep;
        fresh.newest = fresh.start = start;
        LAW(accepted(&made.answer) && made.answer.kind == 1 && made.answer.length == 0);
        LAW(made.answer.serial.value == start.value);
    }
    LAW(memcmp(&made.state, &fresh, offsetof(taplevung_state, deltas) + sizeof fresh.deltas) == 0);
    h.state = fresh;
    for (int steps = 0; in->at < in->end && steps < 100; steps++) {
        uint32_t what = u8(in);
        switch (what >> 4 & 7) {
        case 0:
        case 1:
        case 2:
            update(in, &h, what);
            break;
        case 3:
            query(in, &h, what);
            break;
        case 4:
            messages(in, &h, what);
            break;
        case 5:
            query_all(in, &h, what);
            break;
        case 6:
            questions(&h, what);
            break;
        default:
            if (what & 8)
                tamper(in, &h);
        }
    }
}

int LLVMFuzzerTestOneInput(const uint8_t *data, size_t size)
{
    struct input in = {data, data + size};
    set_up();
    uint32_t entry = u8(&in);
    switch (entry & 7) {
    case 0:
        difference(&in);
        break;
    case 1:
        merge(&in);
        break;
    case 2:
        application(&in);
        break;
    case 3: {
        uint32_t refresh = u32(&in), retry = u32(&in), expire = u32(&in);
        taplevung_timing_values t = taplevung_timing(refresh, retry, expire);
        taplevung_timing_values rule = timing_of(refresh, retry, expire);
        LAW(t.refresh == rule.refresh && t.retry == rule.retry && t.expire == rule.expire);
        break;
    }
    case 4:
        judging(&in);
        break;
    default:
        history(&in);
    }
    return 0;
}
