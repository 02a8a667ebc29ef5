/* The technician's question, asked of the archive: a tablet locks channel 5
   with a heartbeat of 30 s and falls silent. When is the next one let in? */
#include "desk.h"

#define CHANNEL_5 MELORWYTH_OBJECT_CHANNEL(5)
#define START 4294950000u /* the counter goes round while the tablet is silent */

static uint8_t area[MELORWYTH_AREA], output[MELORWYTH_OUTPUT], message[MELORWYTH_BUFFER];
static melorwyth_record record;
static uint32_t heartbeats;

static uint8_t opened(const char *who)
{
    melorwyth_opened o = melorwyth_open(record);
    record = o.record;
    expect("opening", o.number, MELORWYTH_DONE);
    printf("%s is connection %u\n", who, o.connection);
    return o.connection;
}

/* Delivers the first bytes of the message; the kind of the answer. */
static melorwyth_delivered delivered(uint8_t n, size_t length)
{
    melorwyth_delivered d = melorwyth_deliver(record, area, sizeof area, n, message, length, output, sizeof output);
    record = d.record;
    expect("delivery", d.number, MELORWYTH_DONE);
    expect("bytes taken", d.taken, length);
    return d;
}

/* Asks for the lock of channel 5: the status of the reply, which is read with the library's reader. */
static unsigned lock(uint8_t n, uint32_t handle)
{
    melorwyth_delivered d = delivered(n, command(message, handle, CHANNEL_5, LOCK, 0, NULL, 0));
    expect("a whole message", d.kind, MELORWYTH_DELIVER_MESSAGE);
    melorwyth_entry e = melorwyth_read_entry(output, d.length, 0);
    expect("a reply", e.number, MELORWYTH_DONE);
    expect("a response", e.kind, MELORWYTH_TYPE_RESPONSE);
    expect("its handle", e.handle, handle);
    return e.status;
}

/* Brings the time since the start, and sends what is due; the connections that were closed. */
static unsigned at(uint32_t milliseconds)
{
    melorwyth_ticked t = melorwyth_tick(record, area, sizeof area, START + milliseconds);
    record = t.record;
    expect("tick", t.number, MELORWYTH_DONE);
    for (;;) {
        melorwyth_taken k = melorwyth_take(record, output, sizeof output);
        record = k.record;
        expect("take", k.number, MELORWYTH_DONE);
        if (k.kind == MELORWYTH_TAKE_NOTHING)
            return t.closed;
        expect("a keep-alive", k.kind, MELORWYTH_TAKE_KEEP_ALIVE);
        heartbeats++;
    }
}

static void told(const char *what, unsigned got, unsigned want)
{
    printf("%s: %u\n", what, got);
    expect(what, got, want);
}

int main(void)
{
    record = melorwyth_fresh(START);
    expect("clearing", melorwyth_clear(area, sizeof area).number, MELORWYTH_DONE);
    uint8_t tablet = opened("the tablet");
    uint8_t technician = opened("the technician");

    melorwyth_written w = melorwyth_keep_alive(message, sizeof message, MELORWYTH_FORM_SECONDS, 30);
    melorwyth_delivered d = delivered(tablet, w.length);
    told("the tablet's heartbeat of 30 s is answered by bytes", (unsigned)d.length, 12);
    told("the tablet locks channel 5, status", lock(tablet, 7), 0);
    told("the technician locks channel 5, status", lock(technician, 8), 3);

    for (uint32_t second = 1; second < 60; second++)
        expect("nobody is closed", at(second * 1000), 0);
    /* half a message is not heard */
    size_t half = command(message, 9, CHANNEL_5, LOCK, 0, NULL, 0) / 2;
    expect("half a message", delivered(tablet, half).kind, MELORWYTH_DELIVER_MORE);
    for (uint32_t second = 60; second < 90; second++)
        expect("nobody is closed", at(second * 1000), 0);

    told("at 89,999 ms closed connections, as bits", at(89999), 0);
    told("at 89,999 ms the technician's lock, status", lock(technician, 10), 3);
    told("keep-alives sent to the tablet meanwhile", heartbeats, 2);
    told("at 90,000 ms closed connections, as bits", at(90000), 1u << tablet);
    told("at 90,000 ms the technician's lock, status", lock(technician, 11), 0);
    told("the lock's holder, plus 1", record.device.holders[4], technician + 1u);
    return verdict("technician");
}
