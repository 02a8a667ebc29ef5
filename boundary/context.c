/* The subscriber's context, asked of the archive: every length that fits and the next that does not, through reader,
   writer, delivery and take; counts that say other than their bytes; statuses in their order; the record's rules. */
#include "desk.h"

/* The parameters of a notification of a mute: property 4.1, the value, 1. */
#define VALUE_BYTES 6u

static const melorwyth_subscription panel = {
    .emitter = FIRST_MUTE, .event = CHANGED, .object = 9, .method = 0x00030001};
static uint8_t area[MELORWYTH_AREA], output[MELORWYTH_OUTPUT], message[MELORWYTH_BUFFER];
static uint8_t context[TOO_LONG]; /* none of its bytes is 0 */
static const uint16_t far[] = {255, 256, 256 + 4, 256 + 64, 0x4000, 0x8000, 0xFFFF}; /* counts far from any length */
static melorwyth_record record;

static void begin(void)
{
    for (unsigned i = 0; i < sizeof context; i++)
        context[i] = (uint8_t)(i + 1);
    record = melorwyth_fresh(0);
    expect("clearing", melorwyth_clear(area, sizeof area).number, MELORWYTH_DONE);
    for (uint8_t n = 0; n < 2; n++) {
        melorwyth_opened o = melorwyth_open(record);
        record = o.record;
        expect("opened", o.connection, n);
    }
}

#include "ask.h"

static unsigned add(uint8_t n, const melorwyth_subscription *s, const uint8_t *with, uint16_t count)
{
    uint8_t parameters[LEAST_ADD + TOO_LONG];
    size_t length = adding(parameters, s, with, count);
    return ask(n, SUBSCRIPTION_MANAGER, ADD, 5, parameters, length);
}

static unsigned leave(uint8_t n, const melorwyth_subscription *s)
{
    uint8_t parameters[16];
    size_t length = naming(parameters, s);
    return ask(n, SUBSCRIPTION_MANAGER, REMOVE, 2, parameters, length);
}

/* The next message to send is this connection's, and tells it the value with its context. */
static void told(uint8_t n, const uint8_t *with, uint16_t count, uint8_t value)
{
    uint8_t bytes[LEAST_NOTIFIED + TOO_LONG];
    size_t length = notified(bytes, &panel, with, count, value);
    melorwyth_taken k = melorwyth_take(record, output, sizeof output);
    record = k.record;
    expect("taken", k.number, MELORWYTH_DONE);
    expect("a notification", k.kind, MELORWYTH_TAKE_NOTIFICATION);
    expect("whose", k.connection, n);
    expect("its length", k.length, length);
    expect("its bytes", memcmp(output, bytes, length) == 0, 1);
}

/* Entry 0 has a context of this count and so many parameter bytes, or it is refused with fault 6. */
static void read_as(const uint8_t *bytes, size_t length, int fits, uint16_t count, size_t parameters)
{
    melorwyth_reading r = melorwyth_read_message(bytes, length);
    expect("the message", r.number, fits ? MELORWYTH_DONE : MELORWYTH_REFUSAL_FAULT);
    expect("its fault", r.fault, fits ? 0 : MELORWYTH_FAULT_DATA);
    melorwyth_entry e = melorwyth_read_entry(bytes, length, 0);
    expect("the entry", e.number, fits ? MELORWYTH_DONE : MELORWYTH_REFUSAL_FAULT);
    expect("its fault", e.fault, fits ? 0 : MELORWYTH_FAULT_DATA);
    expect("its context's count", e.context_count, fits ? count : 0);
    melorwyth_part p = melorwyth_entry_context(bytes, length, 0);
    expect("its context's start", p.start, fits ? 25 : 0);
    expect("its context's length", p.length, fits ? count : 0);
    p = melorwyth_entry_part(bytes, length, 0);
    expect("its part's start", p.start, fits ? 33u + count : 0);
    expect("its part's length", p.length, fits ? parameters : 0);
}

/* The message is taken in, or closes its connection. */
static void delivered_as(const uint8_t *bytes, size_t length, int fits)
{
    melorwyth_delivered d = melorwyth_deliver(record, area, sizeof area, 0, bytes, length, output, sizeof output);
    expect("delivered", d.number, MELORWYTH_DONE);
    expect("its kind", d.kind, fits ? MELORWYTH_DELIVER_MESSAGE : MELORWYTH_DELIVER_CLOSED);
    expect("its fault", d.fault, fits ? 0 : MELORWYTH_FAULT_DATA);
    expect("all taken", d.taken, length);
    expect("no reply", d.length, 0);
    expect("still open", d.record.device.connections[0].live, fits);
}

/* The entry of this message starts one and is appended to one, or is refused and leaves the buffer as it was. */
static void written_as(const uint8_t *bytes, size_t length, int fits)
{
    static uint8_t before[MELORWYTH_BUFFER];
    const uint8_t *entry = bytes + 10;
    const unsigned number = fits ? MELORWYTH_DONE : MELORWYTH_REFUSAL_BAD_ENTRY;
    memset(message, 0xA5, sizeof message);
    memcpy(before, message, sizeof before);
    melorwyth_written w = melorwyth_start(message, sizeof message, MELORWYTH_TYPE_NOTIFICATION, entry, length - 10);
    expect("started", w.number, number);
    expect("its length", w.length, fits ? length : 0);
    expect("what was started", memcmp(message, fits ? bytes : before, length) == 0, 1);
    size_t front = notified(message, &panel, context, 1, MELORWYTH_MUTED);
    memcpy(before, message, sizeof before);
    w = melorwyth_append(message, sizeof message, MELORWYTH_TYPE_NOTIFICATION, entry, length - 10);
    expect("appended", w.number, number);
    expect("its length", w.length, fits ? front + length - 10 : 0);
    expect("what was appended", memcmp(message + front, fits ? entry : before + front, length - 10) == 0, 1);
    memcpy(message, bytes, length);
    w = melorwyth_append(message, sizeof message, MELORWYTH_TYPE_NOTIFICATION, before + 10, front - 10);
    expect("appended to", w.number, fits ? MELORWYTH_DONE : MELORWYTH_REFUSAL_FAULT);
    expect("its fault", w.fault, fits ? 0 : MELORWYTH_FAULT_DATA);
}

/* A notification whose context has so many bytes and another count: what is behind the context moves, while something is left. */
static void miscounted(uint16_t given, uint16_t count)
{
    uint8_t bytes[2 * (LEAST_NOTIFIED + TOO_LONG)];
    size_t length = notified(bytes, &panel, context, given, MELORWYTH_MUTED);
    size_t left = given + VALUE_BYTES - count;
    int fits = count <= MELORWYTH_CONTEXT && count < given + VALUE_BYTES;
    put16(bytes + 23, count);
    read_as(bytes, length, fits, count, left);
    written_as(bytes, length, fits);
    delivered_as(bytes, length, fits);
    /* with a sound entry behind it, into which a context may not reach */
    memcpy(bytes + length, bytes + 10, length - 10);
    put16(bytes + length + 13, 0);
    put32(bytes + 3, (uint32_t)(2 * length - 11));
    bytes[9] = 2;
    read_as(bytes, 2 * length - 10, fits, count, left);
    delivered_as(bytes, 2 * length - 10, fits);
}

/* Every length that fits and the next, each with every count about it and some far away. */
static void notifications(void)
{
    for (uint16_t given = 0; given <= TOO_LONG; given++) {
        for (uint16_t count = 0; count <= TOO_LONG + VALUE_BYTES; count++)
            miscounted(given, count);
        for (size_t i = 0; i < sizeof far / sizeof *far; i++)
            miscounted(given, far[i]);
    }
}

/* 3.1 with every length that fits: the entry, the notification, and the entry free again. With the next: nothing. */
static void subscribed(uint16_t count)
{
    const melorwyth_record before = record;
    melorwyth_record wanted = record;
    melorwyth_subscription *s = &wanted.device.subscriptions[0];
    const uint8_t muted = MELORWYTH_MUTED, unmuted = MELORWYTH_UNMUTED;
    if (count > MELORWYTH_CONTEXT) {
        expect("added with too much", add(0, &panel, context, count), 7);
        same("added with too much", &record, &before);
        return;
    }
    *s = panel;
    s->used = true;
    s->context_count = (uint8_t)count;
    memcpy(s->context, context, count);
    expect("added", add(0, &panel, context, count), 0);
    same("added", &record, &wanted);
    expect("muted", ask(1, FIRST_MUTE, SET, 1, &muted, 1), 0);
    told(0, context, count, muted);
    expect("unmuted", ask(0, FIRST_MUTE, SET, 1, &unmuted, 1), 0);
    told(0, context, count, unmuted);
    expect("removed", leave(0, &panel), 0);
    same("removed", &record, &before);
}

/* Status 4 for whatever does not fit, of a context that fits and of one that does not. */
static void misfits(uint16_t given)
{
    uint8_t parameters[LEAST_ADD + TOO_LONG] = {0};
    const melorwyth_record before = record;
    size_t length = adding(parameters, &panel, context, given);
    for (unsigned count = 1; count < 256; count++)
        if (count != 5)
            expect("a wrong count", ask(0, SUBSCRIPTION_MANAGER, ADD, (uint8_t)count, parameters, length), 4);
    for (size_t other = 1; other <= sizeof parameters; other++)
        if (other != length)
            expect("a wrong length", ask(0, SUBSCRIPTION_MANAGER, ADD, 5, parameters, other), 4);
    for (size_t last = length - 2; last < length; last++) {
        parameters[last] = 1;
        expect("another last pair", ask(0, SUBSCRIPTION_MANAGER, ADD, 5, parameters, length), 4);
        parameters[last] = 0;
    }
    for (uint16_t count = 0; count <= TOO_LONG; count++) {
        put16(parameters + 16, count);
        if (count != given)
            expect("another context's count", ask(0, SUBSCRIPTION_MANAGER, ADD, 5, parameters, length), 4);
    }
    for (size_t i = 0; i < sizeof far / sizeof *far; i++) {
        put16(parameters + 16, far[i]);
        expect("a far count", ask(0, SUBSCRIPTION_MANAGER, ADD, 5, parameters, length), 4);
    }
    same("what does not fit", &record, &before);
}

/* A mode other than 1 is 7, as a context that is too long is; no mute and no event 1.1 come before both. */
static void values(uint16_t given)
{
    uint8_t parameters[LEAST_ADD + TOO_LONG];
    melorwyth_subscription no_mute = panel, no_event = panel;
    no_mute.emitter = FIRST_MUTE + MELORWYTH_MUTES;
    no_event.event = CHANGED + 1;
    expect("no mute", add(0, &no_mute, context, given), 6);
    expect("another event", add(0, &no_event, context, given), 6);
    size_t length = adding(parameters, &panel, context, given);
    parameters[length - 3] = 2;
    expect("another mode", ask(0, SUBSCRIPTION_MANAGER, ADD, 5, parameters, length), 7);
}

/* A context tells no two subscriptions apart; two connections have each its own. */
static void twins(void)
{
    static const uint8_t other[TOO_LONG] = {0xEE, 0};
    expect("the first", add(0, &panel, context, 4), 0);
    for (uint16_t count = 0; count <= MELORWYTH_CONTEXT; count++)
        expect("with another context", add(0, &panel, other, count), 9);
    expect("7 before 9", add(0, &panel, other, TOO_LONG), 7);
    expect("of another connection", add(1, &panel, other, MELORWYTH_CONTEXT), 0);
    const uint8_t muted = MELORWYTH_MUTED;
    expect("a set", ask(0, FIRST_MUTE, SET, 1, &muted, 1), 0);
    told(0, context, 4, muted);
    told(1, other, MELORWYTH_CONTEXT, muted);
    expect("nothing more", melorwyth_take(record, output, sizeof output).kind, MELORWYTH_TAKE_NOTHING);
}

/* With all entries used: 7, then 9, then 10. */
static void full(void)
{
    melorwyth_subscription s = panel;
    for (s.object = 10; s.object < 10 + MELORWYTH_SUBSCRIPTIONS - 2; s.object++)
        expect("another object", add(0, &s, context, (uint16_t)s.object), 0);
    expect("too much for a full table", add(0, &s, context, TOO_LONG), 7);
    expect("held in a full table", add(0, &panel, context, 0), 9);
    expect("a full table", add(0, &s, context, 0), 10);
    expect("removed", leave(1, &panel), 0);
    expect("in its place", add(0, &s, context, MELORWYTH_CONTEXT), 0);
}

/* Whether the record rules hold of a record whose entry is this. */
static void obeys(const char *what, int place, melorwyth_subscription s, int good)
{
    melorwyth_record r = record;
    r.device.subscriptions[place] = s;
    melorwyth_opened o = melorwyth_open(r);
    expect(what, o.number, good ? MELORWYTH_DONE : MELORWYTH_REFUSAL_BAD_RECORD);
    if (!good)
        same(what, &o.record, &r);
    expect(what, melorwyth_take(r, output, sizeof output).number, good ? MELORWYTH_DONE : MELORWYTH_REFUSAL_BAD_RECORD);
}

/* A count is at most 64, and bytes past it are zero. */
static void used_entry(void)
{
    melorwyth_subscription s = panel;
    s.used = true;
    for (unsigned count = 0; count < 256; count++) {
        s.context_count = (uint8_t)count;
        memset(s.context, 0, sizeof s.context);
        obeys("a context of zeros", 0, s, count <= MELORWYTH_CONTEXT);
        memcpy(s.context, context, count < sizeof s.context ? count : sizeof s.context);
        obeys("a context", 0, s, count <= MELORWYTH_CONTEXT);
        memset(s.context, 0, sizeof s.context);
        for (unsigned i = 0; i < MELORWYTH_CONTEXT && count < MELORWYTH_CONTEXT; i++) {
            s.context[i] = 1;
            obeys("a byte past the count", 0, s, i < count);
            s.context[i] = 0;
        }
    }
}

/* A free entry is all zero. */
static void free_entry(void)
{
    static const melorwyth_subscription unused;
    for (unsigned i = 0; i < MELORWYTH_CONTEXT; i++) {
        melorwyth_subscription s = unused;
        s.context[i] = 1;
        obeys("a free entry's byte", 31, s, 0);
        s = unused;
        s.context_count = (uint8_t)(i + 1);
        obeys("a free entry's count", 31, s, 0);
    }
}

int main(void)
{
    static const uint16_t given[] = {0, 1, 4, MELORWYTH_CONTEXT - 1, MELORWYTH_CONTEXT, TOO_LONG};
    begin();
    notifications();
    for (uint16_t count = 0; count <= TOO_LONG; count++)
        subscribed(count);
    for (size_t i = 0; i < sizeof given / sizeof *given; i++) {
        misfits(given[i]);
        values(given[i]);
    }
    used_entry();
    free_entry();
    twins();
    full();
    return verdict("context");
}
