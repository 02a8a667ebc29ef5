/* Holds the archive to the header's layout. A record with another value in every
   field comes back unmoved through refused calls; then calls that change known
   fields alone, whose every field is compared; then every field of every answer. */
#include "desk.h"

static uint8_t area[MELORWYTH_AREA], output[MELORWYTH_OUTPUT], message[MELORWYTH_BUFFER];
static melorwyth_record record; /* as the calls hand it back */
static melorwyth_record wanted; /* as it has to be */

/* Numbers that differ from each other in every byte that a field has. */
static uint64_t next(void)
{
    static uint64_t state = 88172645463325252u;
    state ^= state << 13;
    state ^= state >> 7;
    state ^= state << 17;
    return state;
}

/* A record with another value in every field; it breaks the record rules. */
static melorwyth_record filled(void)
{
    melorwyth_record r = melorwyth_fresh((uint32_t)next());
    for (int i = 0; i < MELORWYTH_CONNECTIONS; i++) {
        melorwyth_connection *c = &r.device.connections[i];
        c->live = next() & 1;
        c->form = (uint8_t)next();
        c->beat = next();
        c->silence = next();
        c->quiet = next();
        c->due = next() & 1;
    }
    for (int i = 0; i < MELORWYTH_SUBSCRIPTIONS; i++) {
        melorwyth_subscription *s = &r.device.subscriptions[i];
        s->used = next() & 1;
        s->waiting = next() & 1;
        s->connection = (uint8_t)next();
        s->context_count = (uint8_t)next();
        s->emitter = (uint32_t)next();
        s->event = (uint32_t)next();
        s->object = (uint32_t)next();
        s->method = (uint32_t)next();
        for (int k = 0; k < MELORWYTH_CONTEXT; k++)
            s->context[k] = (uint8_t)next();
    }
    for (int i = 0; i < MELORWYTH_MUTES; i++) {
        r.device.mutes[i] = (uint8_t)next();
        r.device.holders[i] = (uint8_t)next();
        r.held[i] = (uint16_t)next();
    }
    r.device.mechanism.armed = next() & 1;
    for (int i = 0; i < MELORWYTH_KEY; i++)
        r.device.mechanism.key[i] = (uint8_t)next();
    for (int i = 0; i < 4; i++)
        r.device.mechanism.address[i] = (uint8_t)next();
    r.device.mechanism.port = (uint16_t)next();
    return r;
}

/* Refusal 1 of every call hands the record back as it came, and nothing else. */
static void refused_calls(void)
{
    melorwyth_record r = filled();
    melorwyth_opened o = melorwyth_open(r);
    expect("open refuses", o.number, MELORWYTH_REFUSAL_BAD_RECORD);
    expect("open names none", o.connection, 0);
    same("a refused open", &o.record, &r);
    melorwyth_closed c = melorwyth_close(r, area, sizeof area, 3);
    expect("close refuses", c.number, MELORWYTH_REFUSAL_BAD_RECORD);
    same("a refused close", &c.record, &r);
    melorwyth_ticked t = melorwyth_tick(r, area, sizeof area, 77);
    expect("tick refuses", t.number, MELORWYTH_REFUSAL_BAD_RECORD);
    expect("tick closes none", t.closed, 0);
    same("a refused tick", &t.record, &r);
    melorwyth_delivered d = melorwyth_deliver(r, area, sizeof area, 3, message, 9, output, sizeof output);
    expect("deliver refuses", d.number, MELORWYTH_REFUSAL_BAD_RECORD);
    expect("no kind", d.kind, 0);
    expect("no fault", d.fault, 0);
    expect("none taken", d.taken, 0);
    expect("no reply", d.length, 0);
    same("a refused delivery", &d.record, &r);
    melorwyth_taken k = melorwyth_take(r, output, sizeof output);
    expect("take refuses", k.number, MELORWYTH_REFUSAL_BAD_RECORD);
    expect("nothing taken", k.kind, MELORWYTH_TAKE_NOTHING);
    expect("for nobody", k.connection, 0);
    expect("no length", k.length, 0);
    same("a refused take", &k.record, &r);
    melorwyth_reset z = melorwyth_datagram(r, area, sizeof area, message, MELORWYTH_DATAGRAM);
    expect("datagram refuses", z.number, MELORWYTH_REFUSAL_BAD_RECORD);
    expect("no reset", z.reset, 0);
    same("a refused datagram", &z.record, &r);
}

/* Delivers to connection n, and compares the whole record with what is wanted. */
static void deliver(const char *what, uint8_t n, const uint8_t *piece, size_t length, uint8_t kind, size_t reply)
{
    melorwyth_delivered d = melorwyth_deliver(record, area, sizeof area, n, piece, length, output, sizeof output);
    record = d.record;
    expect(what, d.number, MELORWYTH_DONE);
    expect("kind", d.kind, kind);
    expect("no fault", d.fault, 0);
    expect("taken", d.taken, length);
    expect("reply", d.length, reply);
    same(what, &record, &wanted);
}

static void tick(const char *what, uint32_t reading, uint8_t closed)
{
    melorwyth_ticked t = melorwyth_tick(record, area, sizeof area, reading);
    record = t.record;
    expect(what, t.number, MELORWYTH_DONE);
    expect("closed", t.closed, closed);
    wanted.device.reading = reading;
    same(what, &record, &wanted);
}

/* A fresh record: the reading, unmuted channels, and zeros. */
static void fresh(void)
{
    wanted.device.reading = 0xF0E0D0C0u;
    memset(wanted.device.mutes, 2, sizeof wanted.device.mutes);
    record = melorwyth_fresh(wanted.device.reading);
    same("fresh", &record, &wanted);
    memset(area, 0xA5, sizeof area);
    expect("cleared", melorwyth_clear(area, sizeof area).number, MELORWYTH_DONE);
    for (size_t i = 0; i < sizeof area; i++)
        expect("a byte of the area", area[i], 0);
}

/* Every connection: opened, then a byte of a message, then the rest, a keep-alive in milliseconds. */
static void connections(void)
{
    for (uint8_t n = 0; n < MELORWYTH_CONNECTIONS; n++) {
        melorwyth_opened o = melorwyth_open(record);
        record = o.record;
        expect("opened", o.number, MELORWYTH_DONE);
        expect("the lowest free", o.connection, n);
        wanted.device.connections[n].live = true;
        same("open", &record, &wanted);
        uint32_t beat = 0x01020304u + n;
        size_t length = melorwyth_keep_alive(message, sizeof message, MELORWYTH_FORM_MILLISECONDS, beat).length;
        wanted.held[n] = n + 1;
        deliver("the first bytes", n, message, n + 1u, MELORWYTH_DELIVER_MORE, 0);
        wanted.held[n] = 0;
        wanted.device.connections[n].form = MELORWYTH_FORM_MILLISECONDS;
        wanted.device.connections[n].beat = beat;
        deliver("the rest of a keep-alive", n, message + n + 1, length - n - 1u, MELORWYTH_DELIVER_MESSAGE, length);
    }
    melorwyth_opened full = melorwyth_open(record);
    expect("a ninth", full.number, MELORWYTH_REFUSAL_TABLE_FULL);
    same("a ninth", &full.record, &wanted);
}

/* Every mute: held by another connection, and then set. */
static void mutes(void)
{
    const uint8_t muted = 1;
    for (uint8_t i = 0; i < MELORWYTH_MUTES; i++) {
        size_t length = command(message, 5, FIRST_MUTE + i, LOCK, 0, NULL, 0);
        wanted.device.holders[i] = (uint8_t)(8 - i);
        deliver("a lock", 7 - i, message, length, MELORWYTH_DELIVER_MESSAGE, 20);
        length = command(message, 6, FIRST_MUTE + i, SET, 1, &muted, 1);
        wanted.device.mutes[i] = muted;
        deliver("a set", 7 - i, message, length, MELORWYTH_DELIVER_MESSAGE, 20);
    }
}

/* Every subscription entry: added with other numbers each, and with the shortest and longest contexts in turn. */
static void subscriptions(void)
{
    static const uint8_t counts[4] = {0, 1, MELORWYTH_CONTEXT - 1, MELORWYTH_CONTEXT};
    for (uint8_t i = 0; i < MELORWYTH_SUBSCRIPTIONS; i++) {
        melorwyth_subscription *s = &wanted.device.subscriptions[i];
        uint8_t parameters[LEAST_ADD + TOO_LONG];
        s->used = true;
        s->connection = i % MELORWYTH_CONNECTIONS;
        s->context_count = counts[i % 4];
        s->emitter = FIRST_MUTE + (i % 7u);
        s->event = CHANGED;
        s->object = (uint32_t)next();
        s->method = (uint32_t)next();
        for (int k = 0; k < s->context_count; k++)
            s->context[k] = (uint8_t)next();
        size_t length = adding(parameters, s, s->context, s->context_count);
        length = command(message, 7, SUBSCRIPTION_MANAGER, ADD, 5, parameters, length);
        deliver("a subscription", s->connection, message, length, MELORWYTH_DELIVER_MESSAGE, 20);
    }
}

/* A set marks the subscriptions to its mute, with contexts of all four lengths; taking clears the lowest mark. */
static void marks(void)
{
    const uint8_t unmuted = 2;
    for (uint8_t i = 0; i < MELORWYTH_SUBSCRIPTIONS; i++)
        wanted.device.subscriptions[i].waiting = i % 7 == 2;
    wanted.device.mutes[2] = unmuted;
    size_t length = command(message, 8, FIRST_MUTE + 2, SET, 1, &unmuted, 1);
    deliver("a set that marks", 5, message, length, MELORWYTH_DELIVER_MESSAGE, 20);
    for (uint8_t i = 2; i < MELORWYTH_SUBSCRIPTIONS; i += 7) {
        melorwyth_subscription *s = &wanted.device.subscriptions[i];
        uint8_t told[LEAST_NOTIFIED + TOO_LONG];
        length = notified(told, s, s->context, s->context_count, unmuted);
        melorwyth_taken k = melorwyth_take(record, output, sizeof output);
        record = k.record;
        expect("taken", k.number, MELORWYTH_DONE);
        expect("a notification", k.kind, MELORWYTH_TAKE_NOTIFICATION);
        expect("whose", k.connection, i % MELORWYTH_CONNECTIONS);
        expect("its length", k.length, length);
        expect("its bytes", memcmp(output, told, length) == 0, 1);
        s->waiting = false;
        same("take", &record, &wanted);
    }
}

/* Time: silence and quiet grow, due is set, a keep-alive is taken, one falls silent. */
static void supervision(void)
{
    const uint32_t start = record.device.reading;
    size_t length = melorwyth_keep_alive(message, sizeof message, MELORWYTH_FORM_SECONDS, 2).length;
    wanted.device.connections[6].form = MELORWYTH_FORM_SECONDS;
    wanted.device.connections[6].beat = 2000;
    deliver("seconds", 6, message, length, MELORWYTH_DELIVER_MESSAGE, length);
    for (int n = 0; n < MELORWYTH_CONNECTIONS; n++)
        wanted.device.connections[n].silence = wanted.device.connections[n].quiet = 1999;
    tick("one less than H", start + 1999, 0);
    for (int n = 0; n < MELORWYTH_CONNECTIONS; n++)
        wanted.device.connections[n].silence = wanted.device.connections[n].quiet = 2000;
    wanted.device.connections[6].quiet = 0;
    wanted.device.connections[6].due = true;
    tick("H", start + 2000, 0);
    melorwyth_taken k = melorwyth_take(record, output, sizeof output);
    record = k.record;
    expect("a keep-alive", k.kind, MELORWYTH_TAKE_KEEP_ALIVE);
    expect("for connection", k.connection, 6);
    expect("of length", k.length, 12);
    wanted.device.connections[6].due = false;
    same("a keep-alive taken", &record, &wanted);
}

/* The reset mechanism: another value in every field, by the last connection that is closed. */
static void mechanism(void)
{
    melorwyth_mechanism *m = &wanted.device.mechanism;
    uint8_t parameters[64];
    m->armed = true;
    for (int i = 0; i < MELORWYTH_KEY; i++)
        m->key[i] = (uint8_t)(0x11 * i + 3);
    m->address[0] = 239;
    m->address[1] = 1;
    m->address[2] = 20;
    m->address[3] = 103;
    m->port = 0xABCD;
    size_t length = arming(parameters, m->key, "239.1.20.103", m->port);
    length = command(message, 9, DEVICE_MANAGER, SET_RESET_KEY, 2, parameters, length);
    deliver("a reset key", 5, message, length, MELORWYTH_DELIVER_MESSAGE, 20);
}

/* What is wanted once connection n is closed. */
static void close_wanted(uint8_t n)
{
    static const melorwyth_connection closed;
    static const melorwyth_subscription unused;
    wanted.device.connections[n] = closed;
    for (int i = 0; i < MELORWYTH_SUBSCRIPTIONS; i++)
        if (wanted.device.subscriptions[i].connection == n)
            wanted.device.subscriptions[i] = unused;
    for (int i = 0; i < MELORWYTH_MUTES; i++)
        if (wanted.device.holders[i] == n + 1)
            wanted.device.holders[i] = 0;
    wanted.held[n] = 0;
}

/* Closures: by silence, by the host, and by each fault. */
static void closures(void)
{
    static const uint8_t faulty[6][12] = {
        {0x00},
        {0x3B, 0, 2, 0, 0, 0, 11, 4, 0, 1},
        {0x3B, 0, 1, 0, 0, 8, 1, 4, 0, 1},
        {0x3B, 0, 1, 0, 0, 0, 11, 5, 0, 1},
        {0x3B, 0, 1, 0, 0, 0, 11, 4, 0, 0},
        {0x3B, 0, 1, 0, 0, 0, 11, 1, 0, 1, 0, 0}};
    static const size_t deciding[6] = {1, 10, 10, 10, 10, 12};
    for (int n = 0; n < MELORWYTH_CONNECTIONS; n++)
        wanted.device.connections[n].silence = wanted.device.connections[n].quiet = 6000;
    close_wanted(6);
    tick("3 H", record.device.reading + 4000, 1u << 6);
    melorwyth_closed c = melorwyth_close(record, area, sizeof area, 7);
    record = c.record;
    expect("the host's close", c.number, MELORWYTH_DONE);
    close_wanted(7);
    same("the host's close", &record, &wanted);
    for (uint8_t n = 0; n < 6; n++) {
        melorwyth_delivered d = melorwyth_deliver(record, area, sizeof area, n, faulty[n], 12, output, sizeof output);
        record = d.record;
        expect("closed", d.number, MELORWYTH_DONE);
        expect("kind", d.kind, MELORWYTH_DELIVER_CLOSED);
        expect("fault", d.fault, n + 1u);
        expect("taken", d.taken, deciding[n]);
        expect("no reply", d.length, 0);
        close_wanted(n);
        same("a fault", &record, &wanted);
    }
}

/* Whoever set the key is closed; the key is there, and a reset leaves a fresh record. */
static void reset(void)
{
    static const melorwyth_record zeros;
    uint8_t datagram[MELORWYTH_DATAGRAM];
    datagram_of(datagram, record.device.mechanism.key);
    uint32_t reading = record.device.reading;
    wanted = zeros;
    wanted.device.reading = reading;
    memset(wanted.device.mutes, 2, sizeof wanted.device.mutes);
    melorwyth_reset z = melorwyth_datagram(record, area, sizeof area, datagram, sizeof datagram);
    record = z.record;
    expect("the datagram", z.number, MELORWYTH_DONE);
    expect("a reset", z.reset, 1);
    same("a reset", &record, &wanted);
}

/* Of an entry of the message that is no notification, or refused. */
static void no_context(const char *what, size_t length, size_t index)
{
    melorwyth_part p = melorwyth_entry_context(message, length, index);
    expect(what, p.start, 0);
    expect(what, p.length, 0);
}

/* The reader's answers on a notification, each field with a number of its own. */
static void reading_notification(void)
{
    static const uint8_t told[33] = {0, 0, 0, 33, 1, 2, 3, 4, 5, 6, 7, 8, 2, 0, 4, 9, 10, 11, 12, 13, 14, 15, 16,
                                     17, 18, 19, 20, 21, 22, 23, 24, 25, 26};
    size_t length = melorwyth_start(message, sizeof message, MELORWYTH_TYPE_NOTIFICATION, told, sizeof told).length;
    melorwyth_written w = melorwyth_append(message, sizeof message, MELORWYTH_TYPE_NOTIFICATION, told, sizeof told);
    expect("appended", w.number, MELORWYTH_DONE);
    expect("longer", w.length, length + sizeof told);
    melorwyth_reading r = melorwyth_read_message(message, sizeof message);
    expect("read", r.number, MELORWYTH_DONE);
    expect("type", r.kind, MELORWYTH_TYPE_NOTIFICATION);
    expect("count", r.count, 2);
    expect("length", r.length, w.length);
    melorwyth_entry e = melorwyth_read_entry(message, sizeof message, 1);
    expect("kind", e.kind, MELORWYTH_TYPE_NOTIFICATION);
    expect("target", e.target, 0x01020304);
    expect("level", e.level, 0x0506);
    expect("index", e.index, 0x0708);
    expect("count", e.count, 2);
    expect("context's count", e.context_count, 4);
    expect("emitter", e.emitter, 0x0D0E0F10);
    expect("event's level", e.event_level, 0x1112);
    expect("event's index", e.event_index, 0x1314);
    melorwyth_part p = melorwyth_entry_part(message, sizeof message, 1);
    expect("start", p.start, 10 + 33 + 27);
    expect("length", p.length, 6);
    p = melorwyth_entry_context(message, sizeof message, 1);
    expect("context's start", p.start, 10 + 33 + 15);
    expect("context's length", p.length, 4);
}

/* Commands and responses, with zeros where a notification's count would stand. */
static void without_context(void)
{
    static const uint8_t kinds[3] = {MELORWYTH_TYPE_COMMAND, MELORWYTH_TYPE_COMMAND_WANTING_REPLY,
                                     MELORWYTH_TYPE_RESPONSE};
    static const uint8_t entry[32] = {[3] = 32, [9] = 1, [16] = 1};
    for (size_t k = 0; k < sizeof kinds; k++) {
        melorwyth_written w = melorwyth_start(message, sizeof message, kinds[k], entry, sizeof entry);
        expect("written", w.number, MELORWYTH_DONE);
        expect("no context's count", melorwyth_read_entry(message, w.length, 0).context_count, 0);
        no_context("no context", w.length, 0);
    }
}

static void reading_response(void)
{
    static const uint8_t response[12] = {0, 0, 0, 12, 31, 32, 33, 34, 35, 36, 37, 38};
    melorwyth_start(message, sizeof message, MELORWYTH_TYPE_RESPONSE, response, sizeof response);
    melorwyth_entry e = melorwyth_read_entry(message, sizeof message, 0);
    expect("kind", e.kind, MELORWYTH_TYPE_RESPONSE);
    expect("handle", e.handle, 0x1F202122);
    expect("status", e.status, 35);
    expect("count", e.count, 36);
}

/* One entry of that type, count and so many parameter bytes: started, read and delivered as it fits or not. */
static void counted(uint8_t kind, uint8_t count, uint8_t bytes)
{
    static const uint8_t least[4] = {17, 17, 23, 10}, place[4] = {16, 16, 12, 9};
    uint8_t none = kind == MELORWYTH_TYPE_NOTIFICATION;
    int fits = count >= none && (count == none) == (bytes == 0);
    uint8_t whole[40] = {0x3B, 0, 1, 0, 0, 0, (uint8_t)(9 + least[kind] + bytes), kind, 0, 1};
    size_t length = 10u + least[kind] + bytes;
    whole[13] = (uint8_t)(least[kind] + bytes);
    whole[10 + place[kind]] = count;
    melorwyth_written w = melorwyth_start(message, sizeof message, kind, whole + 10, length - 10);
    expect("started", w.number, fits ? MELORWYTH_DONE : MELORWYTH_REFUSAL_BAD_ENTRY);
    melorwyth_entry e = melorwyth_read_entry(whole, length, 0);
    expect("read", e.number, fits ? MELORWYTH_DONE : MELORWYTH_REFUSAL_FAULT);
    expect("its fault", e.fault, fits ? 0 : MELORWYTH_FAULT_DATA);
    expect("its count", e.count, fits ? count : 0);
    expect("its part", melorwyth_entry_part(whole, length, 0).length, fits ? bytes : 0);
    melorwyth_opened o = melorwyth_open(record);
    melorwyth_delivered d =
        melorwyth_deliver(o.record, area, sizeof area, o.connection, whole, length, output, sizeof output);
    expect("delivered", d.number, MELORWYTH_DONE);
    expect("its kind", d.kind, fits ? MELORWYTH_DELIVER_MESSAGE : MELORWYTH_DELIVER_CLOSED);
    expect("its fault", d.fault, fits ? 0 : MELORWYTH_FAULT_DATA);
    expect("still open", d.record.device.connections[o.connection].live, fits);
}

/* No parameters and no parameter bytes are the same, for each type. */
static void counts(void)
{
    static const uint8_t given[4] = {0, 1, 2, 255};
    for (uint8_t kind = 0; kind < 4; kind++)
        for (int c = 0; c < 4; c++)
            for (uint8_t bytes = 0; bytes < 3; bytes++)
                counted(kind, given[c], bytes);
}

/* The other fields of reader and writer, and their refusals. */
static void refusals(void)
{
    size_t length = command(message, 0x01020304, 0x05060708, 0x090A0B0C, 13, message, 1);
    melorwyth_entry e = melorwyth_read_entry(message, length, 0);
    expect("a command", e.kind, MELORWYTH_TYPE_COMMAND);
    expect("handle", e.handle, 0x01020304);
    expect("target", e.target, 0x05060708);
    expect("level", e.level, 0x090A);
    expect("index", e.index, 0x0B0C);
    expect("count", e.count, 13);
    no_context("no such context", length, 1);
    no_context("a short message's context", length - 1, 0);
    expect("no such entry", melorwyth_read_entry(message, length, 1).number, MELORWYTH_REFUSAL_NO_ENTRY);
    expect("no such part", melorwyth_entry_part(message, length, 1).start, 0);
    expect("short", melorwyth_read_message(message, length - 1).number, MELORWYTH_REFUSAL_SHORT);
    expect("a large value", melorwyth_keep_alive(message, sizeof message, 1, 65536).number,
           MELORWYTH_REFUSAL_BAD_ENTRY);
    expect("a small buffer", melorwyth_keep_alive(message, 2048, 1, 1).number, MELORWYTH_REFUSAL_NO_ROOM);
    length = melorwyth_keep_alive(message, sizeof message, MELORWYTH_FORM_MILLISECONDS, 0x01020304).length;
    melorwyth_reading r = melorwyth_read_message(message, length);
    expect("form", r.form, MELORWYTH_FORM_MILLISECONDS);
    expect("value", r.value, 0x01020304);
    no_context("a keep-alive's context", length, 0);
    message[7] = 5;
    no_context("a faulty message's context", length, 0);
    r = melorwyth_read_message(message, length);
    expect("a fault", r.number, MELORWYTH_REFUSAL_FAULT);
    expect("which", r.fault, MELORWYTH_FAULT_TYPE);
    expect("which, of an entry", melorwyth_read_entry(message, length, 0).fault, MELORWYTH_FAULT_TYPE);
    melorwyth_written w = melorwyth_append(message, sizeof message, 0, output, 17);
    expect("append to it", w.number, MELORWYTH_REFUSAL_FAULT);
    expect("which", w.fault, MELORWYTH_FAULT_TYPE);
    expect("an area too short", melorwyth_clear(area, sizeof area - 1).number, MELORWYTH_REFUSAL_BAD_AREA);
}

int main(void)
{
    for (int i = 0; i < 3; i++)
        refused_calls();
    fresh();
    connections();
    mutes();
    subscriptions();
    marks();
    mechanism();
    supervision();
    closures();
    reset();
    reading_notification();
    reading_response();
    without_context();
    counts();
    refusals();
    return verdict("fields");
}
