/*
 * taplevung: RPKI payload deltas and their history, on bytes.
 *
 * A snapshot is the whole payload at one moment. A delta is what changed between two
 * snapshots. Both are runs of fields: a tag byte, a two-byte big-endian length, a body,
 * in strictly ascending order. A history keeps the newest snapshot and the last deltas
 * and says what a router is to be sent.
 *
 * How all functions behave:
 *
 *  - A slice is a pointer and then a length in bytes. The pointer must not be NULL and
 *    must be good for that many bytes; for length 0 any such pointer will do.
 *  - An output, or a store that is written, must not overlap any other argument.
 *  - Nothing is allocated, nothing is kept between calls and there are no globals, so
 *    calls on different buffers can run in different threads.
 *  - An answer of kind TAPLEVUNG_REFUSED has the refusal's number, argument and offset,
 *    and 0 everywhere else. A refused call has written nothing: the output and both
 *    stores are as they were.
 *  - On success the output holds the answer in its first `length` bytes; the bytes past
 *    those are as they were.
 */
#ifndef TAPLEVUNG_H
#define TAPLEVUNG_H

#include <stdbool.h>
#include <stddef.h>
#include <stdint.h>

#ifdef __cplusplus
extern "C" {
#endif

/* The longest snapshot, and snapshot store, in bytes. */
#define TAPLEVUNG_SNAPSHOT_LIMIT 16777216
/* The longest delta, and delta store, in bytes. */
#define TAPLEVUNG_DELTA_LIMIT 33554432
/* The most deltas that a history keeps. The least is 1. */
#define TAPLEVUNG_KEEP_LIMIT 64
/* The most queries in one call. A query is six bytes. */
#define TAPLEVUNG_QUERY_LIMIT 384

/* The version of a router's messages: 0 is RFC 6810, any other number is RFC 8210. */
enum {
    TAPLEVUNG_RFC_6810 = 0, /* no router keys; an End of Data of 12 bytes, without times */
    TAPLEVUNG_RFC_8210 = 1
};

/* What `kind` of an answer says. Where two names have one number, the call tells them apart. */
enum {
    TAPLEVUNG_REFUSED = 0,   /* any call: see number, argument and offset */
    TAPLEVUNG_DONE = 1,      /* merge, apply, create, query, query_all, full, judge */
    TAPLEVUNG_DELTA = 1,     /* construct: a delta was written */
    TAPLEVUNG_NO_CHANGE = 2, /* construct: the snapshots are equal, nothing was written */
    TAPLEVUNG_FIRST = 1,     /* update: the history's first snapshot, the serial stays */
    TAPLEVUNG_UNCHANGED = 2, /* update: the snapshot is the one that is held already */
    TAPLEVUNG_CHANGED = 3,   /* update: a delta was added, the serial is one higher */
    TAPLEVUNG_DATA = 1,      /* messages: what was asked for was written */
    TAPLEVUNG_CACHE_RESET = 2, /* messages: a Cache Reset was written, the query is not served */
    TAPLEVUNG_ERROR_REPORT = 3 /* messages: an Error Report was written, the session is another */
};

/* What `number` of a refused answer says, and of one that sends a router away. */
enum {
    TAPLEVUNG_BAD_FIELD = 1,     /* a field is cut short, has an unknown tag or a bad body */
    TAPLEVUNG_OUT_OF_ORDER = 2,  /* a field does not stand above the one before it */
    TAPLEVUNG_DOES_NOT_FIT = 3,  /* an item of the delta cannot be applied to the snapshot */
    TAPLEVUNG_NO_ROOM = 4,       /* the answer is longer than the output */
    TAPLEVUNG_OTHER_SESSION = 5, /* the query names another session */
    TAPLEVUNG_NOT_SERVED = 6,    /* the deltas since the query's serial are not held */
    TAPLEVUNG_ILL_FORMED = 7,    /* the state and the stores are no history */
    TAPLEVUNG_BAD_KEEP = 8,      /* a history keeps 1 to 64 deltas */
    TAPLEVUNG_STORE_FULL = 9,    /* the snapshot, or the deltas to be held, exceed their store */
    TAPLEVUNG_TOO_LONG = 10,     /* an input, or a store at creation, is over its limit */
    TAPLEVUNG_BAD_LIST = 11,     /* more than 384 queries, or a list that is cut inside one */
    TAPLEVUNG_SENSELESS = 12,    /* an ASPA has no providers, or names its customer among them */
    TAPLEVUNG_FAULTY = 13,       /* a message that RFC 8210 does not allow there, or none where one is due */
    TAPLEVUNG_ABSENT = 14,       /* a message withdraws a record that is absent */
    TAPLEVUNG_PRESENT = 15       /* a message announces a record that is present */
};

/* The serial of a snapshot. After 4,294,967,295 comes 0. */
typedef struct {
    uint32_t value;
} taplevung_serial;

/* The session as routers see it: the low 16 bits of a history's session. */
typedef struct {
    uint16_t value;
} taplevung_session;

/*
 * A history, but for the bytes in its two stores. Keep it beside them and hand all three
 * to the next call. Held bytes start at offset 0 of their store; deltas stand oldest
 * first, without gaps.
 */
typedef struct {
    uint64_t session;
    uint32_t keep;           /* how many deltas are kept, 1 to 64 */
    uint32_t active;         /* 0 until the first snapshot; then 1 (any other number will do) */
    taplevung_serial newest; /* the serial of the held snapshot */
    taplevung_serial start;  /* the serial that the history started with */
    uint32_t n;              /* how many deltas are held, at most keep */
    uint32_t snapshot;       /* the length of the held snapshot */
    uint32_t deltas[64];     /* the lengths of the held deltas; those past n are ignored */
} taplevung_state;

/* What a call says. What each number holds is told at each function. */
typedef struct {
    uint32_t kind;           /* refused, or what was done */
    uint32_t number;         /* a refusal's number; 6 with a Cache Reset, 5 with an Error Report; else 0 */
    uint32_t argument;       /* which argument is at fault, 1 or 2, for nos. 1, 2, 3, 10, 12 to 15; else 0 */
    taplevung_serial serial;
    uint64_t offset;         /* where in it the field or message starts, for nos. 1, 2, 3, 12 to 15; else 0 */
    uint64_t length;
    uint64_t announced;      /* items of a delta that announce or update */
    uint64_t withdrawn;      /* items of a delta that withdraw */
} taplevung_answer;

/* The answer of create and update, and the state from then on. */
typedef struct {
    taplevung_answer answer;
    taplevung_state state;
} taplevung_made;

/* The answer of query and full, and the session to name to the router. */
typedef struct {
    taplevung_session session;
    taplevung_answer answer;
} taplevung_told;

/* What one query of taplevung_query_all gets. */
typedef struct {
    uint32_t kind, number;         /* 1 and 0, or TAPLEVUNG_REFUSED and the refusal */
    uint64_t offset, length;       /* where its delta starts in the output, and how long it is */
    uint64_t announced, withdrawn; /* of that delta */
} taplevung_reply;

/* The answer of query_all, the session to name to the routers, and a reply for each query. */
typedef struct {
    taplevung_answer answer;
    taplevung_session session;
    uint32_t count; /* how many queries there were; replies past it are zeros */
    taplevung_reply replies[TAPLEVUNG_QUERY_LIMIT];
} taplevung_replies;

/* What a Serial Notify says. */
typedef struct {
    taplevung_session session;
    taplevung_serial serial;
} taplevung_notice;

/* The three intervals of an End of Data message, in seconds. */
typedef struct {
    uint32_t refresh, retry, expire;
} taplevung_timing_values;

/* The answer of the calls that write router messages. */
typedef struct {
    taplevung_answer answer;
    taplevung_session session;    /* the one that the messages name */
    uint64_t router_keys_skipped; /* items that there is no message for */
    uint64_t aspas_skipped;
} taplevung_sent;

/* The answer of judge, and the session and the intervals of the End of Data. */
typedef struct {
    taplevung_answer answer;
    taplevung_session session;
    taplevung_timing_values timing;
} taplevung_judged;

/*
 * Writes the difference between two snapshots to the output.
 *
 * TAPLEVUNG_DELTA: serial is old_serial plus 1; length, announced and withdrawn are the
 * delta's. TAPLEVUNG_NO_CHANGE: every other number is 0 and nothing is written.
 * Refusals: 10, then 1, 12 and 2 (argument 1 the old snapshot, 2 the new one), then 4.
 */
taplevung_answer taplevung_construct(
    const uint8_t *old_snapshot, size_t old_length,
    const uint8_t *new_snapshot, size_t new_length,
    taplevung_serial old_serial,
    uint8_t *out, size_t out_length);

/*
 * Writes one delta that does what two do, the earlier and then the later.
 *
 * TAPLEVUNG_DONE: serial is later_serial; length, announced and withdrawn are those of
 * the delta written, which may be empty.
 * Refusals: 10, then 1, 12 and 2 (argument 1 the earlier delta, 2 the later one), then 4.
 */
taplevung_answer taplevung_merge(
    const uint8_t *earlier, size_t earlier_length,
    const uint8_t *later, size_t later_length,
    taplevung_serial later_serial,
    uint8_t *out, size_t out_length);

/*
 * Writes the snapshot that a delta makes of a snapshot.
 *
 * TAPLEVUNG_DONE: length is that of the snapshot written; every other number is 0.
 * Refusals: 10, then 1, 12 and 2 (argument 1 the snapshot, 2 the delta), then 3 (argument 2,
 * the first item that cannot be applied), then 4.
 */
taplevung_answer taplevung_apply(
    const uint8_t *snapshot, size_t snapshot_length,
    const uint8_t *delta, size_t delta_length,
    uint8_t *out, size_t out_length);

/*
 * Makes a history with no snapshot yet, whose first serial is `start`: 0, or after a
 * planned restart the serial that goes on from the history before, under a new session.
 * The stores are only measured; their bytes are neither read nor written.
 *
 * TAPLEVUNG_DONE: serial is `start`, every other number of the answer is 0, and `state`
 * is the new history.
 * Refused: `state` is all zero. Refusals: 8, then 10 (argument 1 the snapshot store, 2
 * the delta store).
 */
taplevung_made taplevung_create(
    uint64_t session, uint32_t keep, taplevung_serial start,
    const uint8_t *snapshots, size_t snapshots_length,
    const uint8_t *deltas, size_t deltas_length);

/*
 * Takes a new snapshot into a history. If it differs from the held one, the difference
 * is added to the deltas, and if `keep` are held already the oldest is dropped first.
 * Each store's bytes past what is then held are as they were.
 *
 * TAPLEVUNG_FIRST, TAPLEVUNG_UNCHANGED, TAPLEVUNG_CHANGED: serial is the newest serial;
 * length, announced and withdrawn are those of the delta that was added, else 0. `state`
 * is the history from now on. Unchanged or refused: `state` is the one that was given
 * and both stores are as they were.
 * Refusals: 7, then 10, 1, 12 and 2 (argument 1, the new snapshot), then 9.
 */
taplevung_made taplevung_update(
    taplevung_state state,
    const uint8_t *new_snapshot, size_t new_length,
    uint8_t *snapshots, size_t snapshots_length,
    uint8_t *deltas, size_t deltas_length);

/*
 * Writes the delta for a router that is at `serial` of `session`. With n deltas held, n
 * above 0, the serials 0 to n steps before the newest are served; with none held only
 * the start serial.
 *
 * TAPLEVUNG_DONE: `session` and serial are those to name to the router; length,
 * announced and withdrawn are those of the delta written, which is empty if the router
 * is up to date. Refused: `session` is 0.
 * Refusals: 7, then 5, 6 and 4.
 */
taplevung_told taplevung_query(
    taplevung_state state, taplevung_session session, taplevung_serial serial,
    const uint8_t *snapshots, size_t snapshots_length,
    const uint8_t *deltas, size_t deltas_length,
    uint8_t *out, size_t out_length);

/*
 * Answers up to 384 queries as taplevung_query does, one by one, each with the output that
 * is still unused: the deltas lie one behind the other. `queries` has six bytes for each:
 * the session in 2, the serial in 4, big-endian. The history is checked once, and routers
 * at the same serial share one walk over its deltas.
 *
 * TAPLEVUNG_DONE: `session` and serial are those to name to the routers, length is what is
 * used of the output. Each reply has kind TAPLEVUNG_DONE, or number 5, 6 or 4: a query that
 * does not fit uses nothing, and later ones are still tried. Refused: all else is 0.
 * Refusals of the call: 7, then 11.
 */
taplevung_replies taplevung_query_all(
    taplevung_state state,
    const uint8_t *snapshots, size_t snapshots_length,
    const uint8_t *deltas, size_t deltas_length,
    const uint8_t *queries, size_t queries_length,
    uint8_t *out, size_t out_length);

/*
 * Says what a router is sent that asks for everything: the first `length` bytes of the
 * snapshot store, none before the first snapshot.
 *
 * TAPLEVUNG_DONE: `session` and serial are those to name to the router; announced and
 * withdrawn are 0. Refused: `session` is 0. Refusals: 7.
 */
taplevung_told taplevung_full(
    taplevung_state state,
    const uint8_t *snapshots, size_t snapshots_length,
    const uint8_t *deltas, size_t deltas_length);

/* Says what session and serial to notify routers of. Never refuses. */
taplevung_notice taplevung_notify(taplevung_state state);

/* Says whether the history has a snapshot yet. Never refuses. */
bool taplevung_ready(taplevung_state state);

/*
 * Writes the messages of a version that answer the Serial Query of a router at `serial` of
 * `session`.
 *
 * TAPLEVUNG_DATA: a Cache Response, an IPv4 Prefix, IPv6 Prefix or Router Key message for
 * each item of the delta that taplevung_query writes, in its order, and an End of Data
 * with the times that taplevung_timing makes of `times`; in version 0 without times.
 * `session` and serial are those that the messages name; length is that of all of them,
 * announced and withdrawn count the messages between the two. Neither RFC has one for
 * ASPAs, and RFC 6810 has none for router keys: these are skipped and counted.
 * TAPLEVUNG_CACHE_RESET: that message alone was written, where taplevung_query refuses
 * with 6. TAPLEVUNG_ERROR_REPORT: one of code 0 that encloses the Serial Query, without
 * text, where it refuses with 5. Of both only number and length are not 0.
 * Refusals: 7, then 4, whatever it is that does not fit.
 */
taplevung_sent taplevung_query_messages(
    uint32_t version, taplevung_state state,
    taplevung_session session, taplevung_serial serial, taplevung_timing_values times,
    const uint8_t *snapshots, size_t snapshots_length,
    const uint8_t *deltas, size_t deltas_length,
    uint8_t *out, size_t out_length);

/*
 * Writes the messages that answer a Reset Query: as above, with the held snapshot's items
 * announced. Before the first snapshot there is none between Cache Response and End of
 * Data; a server that would rather say that it has no data asks taplevung_ready first.
 *
 * TAPLEVUNG_DATA: as above; withdrawn is 0. Refusals: 7, then 4.
 */
taplevung_sent taplevung_full_messages(
    uint32_t version, taplevung_state state, taplevung_timing_values times,
    const uint8_t *snapshots, size_t snapshots_length,
    const uint8_t *deltas, size_t deltas_length,
    uint8_t *out, size_t out_length);

/*
 * Writes the Serial Notify of what taplevung_notify says.
 *
 * TAPLEVUNG_DATA: `session` and serial are those that it names; length is 12. Refusals: 4.
 */
taplevung_sent taplevung_notify_message(
    uint32_t version, taplevung_state state, uint8_t *out, size_t out_length);

/*
 * Brings each interval into the range of RFC 8210: refresh 1 to 86,400, retry 1 to 7,200,
 * expire 600 to 172,800. An expire that is then not larger than both others becomes the
 * larger of them plus 1. Never refuses.
 */
taplevung_timing_values taplevung_timing(uint32_t refresh, uint32_t retry, uint32_t expire);

/*
 * Judges the answer of another cache: the messages of a version from a Cache Response to an
 * End of Data, taken one after another by one who holds the snapshot. They may come in any
 * order, and a record may be announced and withdrawn again. Writes the snapshot that they
 * leave; the ASPAs of the one given stay as they are, in version 0 its router keys too.
 *
 * TAPLEVUNG_DONE: serial, `session` and `timing` are those of the End of Data, the three
 * intervals as they stand, in version 0 zeros; length is that of the snapshot written; announced and withdrawn
 * are the messages with flags 1 and 0. Refused: `session` and `timing` are 0.
 * Refusals: 10, then 1, 12 and 2 (argument 1, the snapshot), then the first faulty message
 * (argument 2), by 13 before 14 and 15, then 4. No. 13 is a message cut short; a version
 * other than the one asked for; a type that may not stand there (a Router Key in version 0
 * too), or that has another length; flags other
 * than 0 and 1; a record that would be a bad body in a snapshot; an End of Data of another
 * session than the Cache Response's; no End of Data (the offset is then the end); bytes
 * behind it (the first of them). Fields that the RFC calls zero are not looked at.
 */
taplevung_judged taplevung_judge(
    uint32_t version,
    const uint8_t *snapshot, size_t snapshot_length,
    const uint8_t *messages, size_t messages_length,
    uint8_t *out, size_t out_length);

#ifdef __cplusplus
}
#endif

#endif
