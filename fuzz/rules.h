/*
 * Document 01's rules and those of the requests once more, in C: what is good, what a well-formed history is, difference,
 * merge, application, the times, the router messages and what the messages of another cache do. The library is held to these.
 */
#ifndef RULES_H
#define RULES_H

#include <string.h>

#include "taplevung.h"

enum form { SNAPSHOT, DELTA };

struct verdict {
    uint32_t number; /* 0 good, 1, 12 or 2 refused */
    size_t offset;
};

static int compare_bytes(const uint8_t *a, size_t an, const uint8_t *b, size_t bn)
{
    for (size_t i = 0; i < an && i < bn; i++)
        if (a[i] != b[i])
            return a[i] < b[i] ? -1 : 1;
    return an < bn ? -1 : an > bn;
}

static int good_list(const uint8_t *p, size_t n)
{
    if (n % 4 != 0 || n > 4 * 4096)
        return 0;
    for (size_t i = 4; i < n; i += 4)
        if (compare_bytes(p + i - 4, 4, p + i, 4) >= 0)
            return 0;
    return 1;
}

static int good_origin(const uint8_t *p, size_t n)
{
    if (n != 23 || (p[0] != 4 && p[0] != 6))
        return 0;
    unsigned bound = p[0] == 4 ? 32 : 128, prefix = p[17], most = p[18];
    if (prefix > bound || most < prefix || most > bound)
        return 0;
    for (unsigned bit = prefix; bit < 128; bit++)
        if (p[1 + bit / 8] & 128 >> bit % 8)
            return 0;
    return 1;
}

static int good_body(enum form form, uint8_t tag, const uint8_t *p, size_t n)
{
    unsigned kind = form == SNAPSHOT ? tag : tag >> 4, action = form == SNAPSHOT ? 1 : tag & 15;
    if (kind == 3 && action == 3) {
        if (n < 6)
            return 0;
        size_t former = 4 * ((size_t)p[4] << 8 | p[5]);
        return n - 6 >= former && good_list(p + 6, former) && good_list(p + 6 + former, n - 6 - former);
    }
    if (action != 1 && action != 2)
        return 0;
    switch (kind) {
    case 1:
        return good_origin(p, n);
    case 2:
        return n >= 24 && n <= 24 + 1024;
    case 3:
        return n >= 4 && good_list(p + 4, n - 4);
    default:
        return 0;
    }
}

/* Of a list of providers that is good by itself. */
static int sensible_list(const uint8_t *customer, const uint8_t *p, size_t n)
{
    for (size_t i = 0; i < n; i += 4)
        if (memcmp(customer, p + i, 4) == 0)
            return 0;
    return n > 0;
}

/* Of a good body. */
static int sensible(enum form form, uint8_t tag, const uint8_t *p, size_t n)
{
    if ((form == SNAPSHOT ? tag : tag >> 4) != 3)
        return 1;
    if (form == SNAPSHOT || (tag & 15) != 3)
        return sensible_list(p, p + 4, n - 4);
    size_t former = 4 * ((size_t)p[4] << 8 | p[5]);
    return sensible_list(p, p + 6, former) && sensible_list(p, p + 6 + former, n - 6 - former);
}

static struct verdict check(enum form form, const uint8_t *p, size_t n)
{
    struct verdict fine = {0, 0};
    const uint8_t *last = NULL;
    size_t last_key = 0;
    unsigned last_kind = 0;
    for (size_t at = 0; at < n;) {
        struct verdict bad = {1, at};
        if (n - at < 3)
            return bad;
        size_t body = (size_t)p[at + 1] << 8 | p[at + 2];
        if (n - at - 3 < body || !good_body(form, p[at], p + at + 3, body))
            return bad;
        if (!sensible(form, p[at], p + at + 3, body)) {
            bad.number = 12;
            return bad;
        }
        unsigned kind = form == SNAPSHOT ? p[at] : p[at] >> 4;
        size_t key = kind == 3 ? 4 : body;
        if (last && (kind < last_kind ||
                     (kind == last_kind && compare_bytes(last, last_key, p + at + 3, key) >= 0))) {
            bad.number = 2;
            return bad;
        }
        last = p + at + 3;
        last_key = key;
        last_kind = kind;
        at += 3 + body;
    }
    return fine;
}

/*------------ Difference, merge, application, of good bytes ----------------*/

/* A field, and for an ASPA its former providers and its new ones. */
struct field {
    unsigned kind, action; /* 1 announce (or an item of a snapshot), 2 withdraw, 3 update */
    const uint8_t *start, *key, *former, *now;
    size_t length, key_length, former_length, now_length;
};

static struct field field_at(enum form form, const uint8_t *p)
{
    struct field f = {form == SNAPSHOT ? p[0] : p[0] >> 4, form == SNAPSHOT ? 1 : p[0] & 15, p, p + 3, p, p, 0, 0, 0, 0};
    size_t body = (size_t)p[1] << 8 | p[2];
    f.length = 3 + body;
    f.key_length = f.kind == 3 ? 4 : body;
    if (f.kind != 3)
        return f;
    f.now = f.former = p + 7;
    *(f.action == 2 ? &f.former_length : &f.now_length) = body - 4;
    if (f.action == 3) {
        f.former = p + 9;
        f.former_length = 4 * ((size_t)p[7] << 8 | p[8]);
        f.now = f.former + f.former_length;
        f.now_length = body - 6 - f.former_length;
    }
    return f;
}

static int compare_keys(const struct field *a, const struct field *b)
{
    if (a->kind != b->kind)
        return a->kind < b->kind ? -1 : 1;
    return compare_bytes(a->key, a->key_length, b->key, b->key_length);
}

/* Writes a field of a delta, or with action 0 an item of a snapshot; its length. */
static size_t emit(uint8_t *to, const struct field *of, unsigned action, const struct field *former,
                   const struct field *now)
{
    uint8_t *p = to + 3;
    memcpy(p, of->key, of->key_length);
    p += of->key_length;
    if (action == 3) {
        *p++ = (uint8_t)(former->former_length / 4 >> 8);
        *p++ = (uint8_t)(former->former_length / 4);
    }
    if (action == 2 || action == 3) {
        memcpy(p, former->former, former->former_length);
        p += former->former_length;
    }
    if (action != 2) {
        memcpy(p, now->now, now->now_length);
        p += now->now_length;
    }
    to[0] = (uint8_t)(action == 0 ? of->kind : of->kind << 4 | action);
    to[1] = (uint8_t)((size_t)(p - to - 3) >> 8);
    to[2] = (uint8_t)(p - to - 3);
    return (size_t)(p - to);
}

/* Two walks at once: the fields that are next, and how their keys compare. */
struct walk {
    const uint8_t *a, *a_end, *b, *b_end;
    enum form a_form, b_form;
    struct field x, y;
    int order; /* below 0: x alone is next; above: y alone; 0: both */
};

static int next(struct walk *w)
{
    if (w->a == w->a_end && w->b == w->b_end)
        return 0;
    if (w->a < w->a_end)
        w->x = field_at(w->a_form, w->a);
    if (w->b < w->b_end)
        w->y = field_at(w->b_form, w->b);
    w->order = w->a == w->a_end ? 1 : w->b == w->b_end ? -1 : compare_keys(&w->x, &w->y);
    if (w->order <= 0)
        w->a += w->x.length;
    if (w->order >= 0)
        w->b += w->y.length;
    return 1;
}

static int same_list(const uint8_t *a, size_t an, const uint8_t *b, size_t bn)
{
    return compare_bytes(a, an, b, bn) == 0;
}

static size_t difference_into(uint8_t *to, const uint8_t *a, size_t an, const uint8_t *b, size_t bn)
{
    struct walk w = {.a = a, .a_end = a + an, .b = b, .b_end = b + bn, .a_form = SNAPSHOT, .b_form = SNAPSHOT};
    size_t length = 0;
    while (next(&w)) {
        /* what is held is what will be former */
        w.x.former = w.x.now;
        w.x.former_length = w.x.now_length;
        if (w.order < 0)
            length += emit(to + length, &w.x, 2, &w.x, &w.x);
        else if (w.order > 0)
            length += emit(to + length, &w.y, 1, &w.y, &w.y);
        else if (!same_list(w.x.now, w.x.now_length, w.y.now, w.y.now_length))
            length += emit(to + length, &w.x, 3, &w.x, &w.y);
    }
    return length;
}

static size_t merge_into(uint8_t *to, const uint8_t *a, size_t an, const uint8_t *b, size_t bn)
{
    struct walk w = {.a = a, .a_end = a + an, .b = b, .b_end = b + bn, .a_form = DELTA, .b_form = DELTA};
    size_t length = 0;
    while (next(&w)) {
        const struct field *e = &w.x, *l = &w.y;
        unsigned action = 0; /* nothing */
        if (w.order != 0) {
            e = l = w.order < 0 ? e : l;
            action = e->action;
        } else if (e->action == 1) {
            action = l->action == 2 ? 0 : 1;
        } else if (l->action == 2) {
            action = 2;
        } else if (e->action == 3 && l->action == 1) {
            action = 3;
        } else if (e->kind == 3) {
            action = same_list(e->former, e->former_length, l->now, l->now_length) ? 0 : 3;
        }
        if (action != 0)
            length += emit(to + length, l, action, e, l);
    }
    return length;
}

/* The length of the snapshot made; or -1, and the offset of the item that cannot be applied. */
static ptrdiff_t apply_into(uint8_t *to, const uint8_t *a, size_t an, const uint8_t *b, size_t bn, size_t *bad)
{
    struct walk w = {.a = a, .a_end = a + an, .b = b, .b_end = b + bn, .a_form = SNAPSHOT, .b_form = DELTA};
    size_t length = 0;
    while (next(&w)) {
        const struct field *x = &w.x, *y = &w.y;
        *bad = (size_t)(y->start - b);
        if (w.order < 0) {
            length += emit(to + length, x, 0, x, x);
            continue;
        }
        if ((w.order > 0) != (y->action == 1))
            return -1;
        if (w.order == 0 && !same_list(x->now, x->now_length, y->former, y->former_length))
            return -1;
        if (y->action != 2)
            length += emit(to + length, y, 0, y, y);
    }
    return (ptrdiff_t)length;
}

/*------------ Histories ----------------------------------------------------*/

static uint64_t held(const taplevung_state *s)
{
    uint64_t sum = 0;
    for (uint32_t i = 0; i < s->n; i++)
        sum += s->deltas[i];
    return sum;
}

static int well_formed(const taplevung_state *s, const uint8_t *snapshots, size_t snapshots_length,
                       const uint8_t *deltas, size_t deltas_length)
{
    if (s->keep < 1 || s->keep > 64 || s->n > s->keep)
        return 0;
    if ((!s->active || s->n == 0) && s->newest.value != s->start.value)
        return 0;
    if (!s->active && (s->n != 0 || s->snapshot != 0))
        return 0;
    if (s->snapshot > snapshots_length || held(s) > deltas_length)
        return 0;
    if (check(SNAPSHOT, snapshots, s->snapshot).number != 0)
        return 0;
    for (uint32_t i = 0; i < s->n; deltas += s->deltas[i++])
        if (check(DELTA, deltas, s->deltas[i]).number != 0)
            return 0;
    return 1;
}

/*------------ The messages of another cache --------------------------------*/

static size_t number_at(const uint8_t *p, size_t bytes)
{
    size_t x = 0;
    for (size_t i = 0; i < bytes; i++)
        x = x << 8 | p[i];
    return x;
}

/* The field of the record that a message of n bytes speaks of, and what it does to it; its length, or 0 if it may not be. */
static size_t record_of(uint8_t *to, const uint8_t *p, size_t n, int *announces)
{
    size_t body = 23;
    unsigned flags = p[2];
    if ((p[1] == 4 && n == 20) || (p[1] == 6 && n == 32)) {
        flags = p[8];
        memset(to, 0, 26);
        to[3] = p[1];
        memcpy(to + 4, p + 12, n - 16);
        to[20] = p[9];
        to[21] = p[10];
        memcpy(to + 22, p + n - 4, 4);
    } else if (p[1] == 9 && n >= 32 && n <= 32 + 1024) {
        body = n - 8;
        memcpy(to + 3, p + 8, body);
    } else {
        return 0;
    }
    to[0] = p[1] == 9 ? 2 : 1;
    to[1] = (uint8_t)(body >> 8);
    to[2] = (uint8_t)body;
    *announces = flags == 1;
    return flags <= 1 && good_body(SNAPSHOT, to[0], to + 3, body) ? 3 + body : 0;
}

/* Takes a record into the snapshot of n bytes at `to`, or out of it; its length then, or -1 if it is there, or not there,
 * already. */
static ptrdiff_t take_record(uint8_t *to, size_t n, const uint8_t *record, size_t length, int announces)
{
    struct field wanted = field_at(SNAPSHOT, record);
    size_t at = 0;
    int order = 1;
    for (; at < n; at += field_at(SNAPSHOT, to + at).length) {
        struct field f = field_at(SNAPSHOT, to + at);
        if ((order = compare_keys(&f, &wanted)) >= 0)
            break;
    }
    if ((at < n && order == 0) == announces)
        return -1;
    if (!announces) {
        memmove(to + at, to + at + length, n - at - length);
        return (ptrdiff_t)(n - length);
    }
    memmove(to + at + length, to + at, n - at);
    memcpy(to + at, record, length);
    return (ptrdiff_t)(n + length);
}

/* What the n bytes of messages of a version at p make of the good snapshot of `length` bytes at `to`: 13, 14 or 15 and
 * where, or all that is said of a call that is accepted. */
static taplevung_judged judge_into(uint8_t *to, size_t length, uint8_t version, const uint8_t *p, size_t n)
{
    static uint8_t record[2048];
    taplevung_judged said = {{0, 13, 2, {0}, 0, 0, 0, 0}, {0}, {0, 0, 0}}, done = {{1, 0, 0, {0}, 0, 0, 0, 0}, {0}, {0, 0, 0}};
    for (size_t at = 0, size; at < n; at += size) {
        said.answer.offset = at;
        if (n - at < 8 || p[at] != version)
            return said;
        size = number_at(p + at + 4, 4);
        const uint8_t *m = p + at;
        uint16_t session = (uint16_t)number_at(m + 2, 2);
        if (size < 8 || size > n - at || (at == 0) != (m[1] == 3) || (at == 0 && size != 8))
            return said;
        if (at == 0) {
            done.session.value = session;
            continue;
        }
        if (m[1] == 7) {
            if (size != (version == 0 ? 12 : 24) || session != done.session.value)
                return said;
            said.answer.offset = at + size;
            if (at + size != n)
                return said;
            done.answer.serial.value = (uint32_t)number_at(m + 8, 4);
            done.answer.length = length;
            if (version == 0)
                return done;
            done.timing.refresh = (uint32_t)number_at(m + 12, 4);
            done.timing.retry = (uint32_t)number_at(m + 16, 4);
            done.timing.expire = (uint32_t)number_at(m + 20, 4);
            return done;
        }
        int announces = 0;
        size_t own = record_of(record, m, size, &announces);
        if (own == 0 || (version == 0 && m[1] == 9))
            return said;
        ptrdiff_t now = take_record(to, length, record, own, announces);
        if (now < 0) {
            said.answer.number = announces ? 15 : 14;
            return said;
        }
        length = (size_t)now;
        *(announces ? &done.answer.announced : &done.answer.withdrawn) += 1;
    }
    said.answer.offset = n;
    return said;
}

/*------------ Times --------------------------------------------------------*/

static uint32_t within(uint32_t x, uint32_t least, uint32_t most)
{
    return x < least ? least : x > most ? most : x;
}

static taplevung_timing_values timing_of(uint32_t refresh, uint32_t retry, uint32_t expire)
{
    taplevung_timing_values t = {within(refresh, 1, 86400), within(retry, 1, 7200), within(expire, 600, 172800)};
    if (t.expire <= t.refresh)
        t.expire = t.refresh + 1;
    if (t.expire <= t.retry)
        t.expire = t.retry + 1;
    return t;
}

/*------------ Router messages, RFC 6810 (version 0) and RFC 8210 (1) -------*/

static uint8_t *put32(uint8_t *p, uint32_t x)
{
    for (int i = 0; i < 4; i++)
        p[i] = (uint8_t)(x >> (24 - 8 * i));
    return p + 4;
}

static uint8_t *put_run(uint8_t *p, const uint8_t *from, size_t n)
{
    memcpy(p, from, n);
    return p + n;
}

static uint8_t *put_header(uint8_t *p, uint8_t version, unsigned type, unsigned two, size_t length)
{
    p[0] = version;
    p[1] = (uint8_t)type;
    p[2] = (uint8_t)(two >> 8);
    p[3] = (uint8_t)two;
    return put32(p + 4, (uint32_t)length);
}

/* A Serial Notify (type 0) or a Serial Query (type 1). */
static uint8_t *put_serial(uint8_t *p, uint8_t version, unsigned type, uint16_t session, uint32_t serial)
{
    return put32(put_header(p, version, type, session, 12), serial);
}

/* Code 0, the Serial Query enclosed, no text. */
static uint8_t *put_error(uint8_t *p, uint8_t version, uint16_t session, uint32_t serial)
{
    return put32(put_serial(put32(put_header(p, version, 10, 0, 28), 12), version, 1, session, serial), 0);
}

/* An origin or a router key. */
static uint8_t *put_payload(uint8_t *p, uint8_t version, const struct field *f, int announce)
{
    const uint8_t *b = f->key;
    if (f->kind == 2)
        return put_run(put_header(p, version, 9, announce ? 0x100 : 0, 8 + f->key_length), b, f->key_length);
    size_t address = b[0] == 4 ? 4 : 16;
    p = put_header(p, version, b[0], 0, 16 + address);
    *p++ = (uint8_t)announce;
    *p++ = b[17];
    *p++ = b[18];
    *p++ = 0;
    return put_run(put_run(p, b + 1, address), b + 19, 4);
}

struct messages {
    size_t length;
    uint64_t announced, withdrawn, keys, aspas; /* the last two are skipped */
};

/* What a good delta or snapshot says. */
static struct messages messages_into(uint8_t *to, uint8_t version, enum form form, const uint8_t *from, size_t n,
                                     uint16_t session, uint32_t serial, taplevung_timing_values times)
{
    struct messages m = {0, 0, 0, 0, 0};
    uint8_t *p = put_header(to, version, 3, session, 8);
    for (size_t at = 0; at < n;) {
        struct field f = field_at(form, from + at);
        at += f.length;
        if (f.kind == 3 || (f.kind == 2 && version == 0)) {
            *(f.kind == 3 ? &m.aspas : &m.keys) += 1;
            continue;
        }
        *(f.action == 2 ? &m.withdrawn : &m.announced) += 1;
        p = put_payload(p, version, &f, f.action != 2);
    }
    taplevung_timing_values t = timing_of(times.refresh, times.retry, times.expire);
    p = put32(put_header(p, version, 7, session, version == 0 ? 12 : 24), serial);
    if (version != 0)
        p = put32(put32(put32(p, t.refresh), t.retry), t.expire);
    m.length = (size_t)(p - to);
    return m;
}

#endif
