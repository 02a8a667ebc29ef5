/* Reset by key, asked of the archive: who may arm the mechanism with what, which
   datagrams reset, what a reset leaves, and what is refused. */
#include "desk.h"

static const uint8_t key[MELORWYTH_KEY] = {0x10, 0x21, 0x32, 0x43, 0x54, 0x65, 0x76, 0x87,
                                           0x98, 0xA9, 0xBA, 0xCB, 0xDC, 0xED, 0xFE, 0x0F};
static uint8_t area[MELORWYTH_AREA], output[MELORWYTH_OUTPUT], message[MELORWYTH_BUFFER];
static melorwyth_record record;

static void begin(uint32_t reading)
{
    record = melorwyth_fresh(reading);
    expect("clearing", melorwyth_clear(area, sizeof area).number, MELORWYTH_DONE);
}

static void open_next(uint8_t n)
{
    melorwyth_opened o = melorwyth_open(record);
    record = o.record;
    expect("opened", o.number, MELORWYTH_DONE);
    expect("its number", o.connection, n);
}

#include "ask.h"

static unsigned arm(uint8_t n, const uint8_t *with, const char *text, uint16_t port)
{
    uint8_t parameters[64];
    size_t length = arming(parameters, with, text, port);
    return ask(n, DEVICE_MANAGER, SET_RESET_KEY, 2, parameters, length);
}

static unsigned lock(uint8_t n, uint32_t mute)
{
    return ask(n, FIRST_MUTE + mute, LOCK, 0, NULL, 0);
}

/* Hands over a datagram that has to come to this; nothing else than a reset changes a byte. */
static void datagram(const char *what, const uint8_t *bytes, size_t length, uint8_t reset)
{
    static uint8_t before[MELORWYTH_AREA];
    memcpy(before, area, sizeof area);
    melorwyth_reset z = melorwyth_datagram(record, area, sizeof area, bytes, length);
    expect(what, z.number, MELORWYTH_DONE);
    expect(what, z.reset, reset);
    if (reset == 0) {
        same(what, &z.record, &record);
        expect("the area stays", memcmp(area, before, sizeof area) == 0, 1);
    }
    record = z.record;
}

/* 3.14 is refused by count and lengths first, then by text and port; what is refused arms nothing. */
static void statuses(void)
{
    static const char *texts[] = {"0.0.0.0", "223.255.255.255", "240.0.0.0", "239.1.2", "239.1.2.3.4", "239.01.2.3",
                                  "239.1.2.256", "239.1.2.", "239..2.3", " 239.1.2.3", "239.1.2.3 ", "0239.1.2.3",
                                  "239.1.2.+3", "239.1.2.3000", ".", "ff02::1", "239,1,2,3"};
    uint8_t parameters[64];
    melorwyth_record before = record;
    size_t length = arming(parameters, key, "239.1.2.3", 5000);
    expect("no parameters", ask(0, DEVICE_MANAGER, SET_RESET_KEY, 0, NULL, 0), 4);
    for (unsigned count = 1; count < 256; count++)
        if (count != 2)
            expect("a wrong count", ask(0, DEVICE_MANAGER, SET_RESET_KEY, (uint8_t)count, parameters, length), 4);
    /* not 0: a count without bytes closes the connection */
    for (size_t other = 1; other < sizeof parameters; other++)
        if (other != length)
            expect("a wrong length", ask(0, DEVICE_MANAGER, SET_RESET_KEY, 2, parameters, other), 4);
    parameters[16] = 1;
    expect("a text of 265 bytes", ask(0, DEVICE_MANAGER, SET_RESET_KEY, 2, parameters, length), 4);
    for (size_t i = 0; i < sizeof texts / sizeof *texts; i++)
        expect(texts[i], arm(0, key, texts[i], 5000), 7);
    expect("port 0", arm(0, key, "", 0), 7);
    expect("port 0 of a group", arm(0, key, "239.1.2.3", 0), 7);
    length = arming(parameters, key, "1.2.3.4", 0);
    expect("length before text and port", ask(0, DEVICE_MANAGER, SET_RESET_KEY, 2, parameters, length + 1), 4);
    expect("of another manager", ask(0, 4, SET_RESET_KEY, 2, parameters, length), 11);
    same("refused 3.14", &record, &before);
    expect("lock of a manager is still 8", ask(0, DEVICE_MANAGER, LOCK, 0, NULL, 0), 8);
}

/* What is armed stands in the record, and the latest counts. */
static void armed(void)
{
    static const struct { const char *text; uint8_t address[4]; uint16_t port; } taken[] = {
        {"224.0.0.0", {224, 0, 0, 0}, 1}, {"239.255.255.255", {239, 255, 255, 255}, 65535},
        {"230.10.200.7", {230, 10, 200, 7}, 0x1234}, {"", {0, 0, 0, 0}, 5000}};
    for (size_t i = 0; i < sizeof taken / sizeof *taken; i++) {
        melorwyth_record wanted = record;
        melorwyth_mechanism *m = &wanted.device.mechanism;
        m->armed = true;
        memcpy(m->key, key, sizeof key);
        m->key[i] ^= 0x80;
        memcpy(m->address, taken[i].address, sizeof m->address);
        m->port = taken[i].port;
        expect("armed", arm(0, m->key, taken[i].text, taken[i].port), 0);
        same("armed", &record, &wanted);
    }
    uint8_t earlier[MELORWYTH_DATAGRAM];
    datagram_of(earlier, record.device.mechanism.key);
    expect("armed again", arm(1, key, "", 5000), 0);
    datagram("an earlier key", earlier, sizeof earlier, 0);
}

/* Every datagram but the one: shorter, longer, one bit another. */
static void others(void)
{
    uint8_t bytes[2 * MELORWYTH_DATAGRAM];
    datagram_of(bytes, key);
    datagram_of(bytes + MELORWYTH_DATAGRAM, key);
    for (size_t length = 0; length <= sizeof bytes; length++)
        if (length != MELORWYTH_DATAGRAM)
            datagram("another length", bytes, length, 0);
    for (size_t bit = 0; bit < 8 * MELORWYTH_DATAGRAM; bit++) {
        bytes[bit / 8] ^= (uint8_t)(1u << bit % 8);
        datagram("another bit", bytes, MELORWYTH_DATAGRAM, 0);
        bytes[bit / 8] ^= (uint8_t)(1u << bit % 8);
    }
    datagram("the key before the sentinel", bytes + 8, MELORWYTH_DATAGRAM, 0);
}

/* Refusal 1: a mechanism that 3.14 does not leave. */
static void bad_record(const char *what, melorwyth_mechanism mechanism)
{
    uint8_t bytes[MELORWYTH_DATAGRAM];
    datagram_of(bytes, mechanism.key);
    melorwyth_record r = record;
    r.device.mechanism = mechanism;
    melorwyth_reset z = melorwyth_datagram(r, area, sizeof area, bytes, sizeof bytes);
    expect(what, z.number, MELORWYTH_REFUSAL_BAD_RECORD);
    expect(what, z.reset, 0);
    same(what, &z.record, &r);
    expect(what, melorwyth_open(r).number, MELORWYTH_REFUSAL_BAD_RECORD);
    expect("1 before 2", melorwyth_datagram(r, area, 0, bytes, sizeof bytes).number, MELORWYTH_REFUSAL_BAD_RECORD);
}

static void refusals(void)
{
    static const uint8_t firsts[] = {1, 127, 223, 240, 255};
    melorwyth_mechanism none = {0}, good = record.device.mechanism, m = good;
    m.port = 0;
    bad_record("armed with port 0", m);
    for (size_t i = 0; i < sizeof firsts; i++) {
        m = good;
        m.address[0] = firsts[i];
        bad_record("armed with no multicast address", m);
    }
    for (int i = 1; i < 4; i++) {
        m = good;
        m.address[i] = 1;
        bad_record("armed with 0 and more", m);
    }
    for (int i = 0; i < MELORWYTH_KEY; i++) {
        m = none;
        m.key[i] = 1;
        bad_record("disarmed with a key", m);
    }
    m = none;
    m.address[0] = 239;
    bad_record("disarmed with an address", m);
    m = none;
    m.port = 5000;
    bad_record("disarmed with a port", m);
}

/* Refusal 2: the area's length, or a byte that the record does not count. */
static void bad_area(void)
{
    static const size_t lengths[] = {0, 1, MELORWYTH_AREA - 1};
    uint8_t bytes[MELORWYTH_DATAGRAM];
    datagram_of(bytes, key);
    for (size_t i = 0; i < sizeof lengths / sizeof *lengths; i++) {
        melorwyth_reset z = melorwyth_datagram(record, area, lengths[i], bytes, sizeof bytes);
        expect("another length of the area", z.number, MELORWYTH_REFUSAL_BAD_AREA);
        expect("no reset", z.reset, 0);
        same("another length of the area", &z.record, &record);
    }
    area[MELORWYTH_AREA - 1] = 1;
    melorwyth_reset z = melorwyth_datagram(record, area, sizeof area, bytes, sizeof bytes);
    expect("a byte too many", z.number, MELORWYTH_REFUSAL_BAD_AREA);
    expect("no reset", z.reset, 0);
    same("a byte too many", &z.record, &record);
    expect("which stays", area[MELORWYTH_AREA - 1], 1);
    area[MELORWYTH_AREA - 1] = 0;
}

/* Two hang with all locks held and half a message each; a closure leaves the key, the reset leaves nothing. */
static void restart(void)
{
    static const uint8_t muted = 1;
    uint8_t bytes[MELORWYTH_DATAGRAM];
    datagram_of(bytes, key);
    expect("a set", ask(0, FIRST_MUTE, SET, 1, &muted, 1), 0);
    for (uint8_t i = 0; i < MELORWYTH_MUTES; i++)
        expect("a lock", lock(i % 2, i), 0);
    for (uint8_t n = 0; n < 2; n++) {
        record = melorwyth_deliver(record, area, sizeof area, n, message, 5u + n, output, sizeof output).record;
        expect("half a message", record.held[n], 5u + n);
    }
    record = melorwyth_close(record, area, sizeof area, 1).record;
    expect("a closure leaves the mechanism", record.device.mechanism.armed, 1);
    record = melorwyth_tick(record, area, sizeof area, record.device.reading + 100).record;
    melorwyth_record wanted = melorwyth_fresh(record.device.reading);
    datagram("the key", bytes, sizeof bytes, 1);
    same("the key", &record, &wanted);
    for (size_t i = 0; i < sizeof area; i++)
        expect("a byte of the area", area[i], 0);
    expect("disarmed", record.device.mechanism.armed, 0);
    datagram("the key again", bytes, sizeof bytes, 0);
    open_next(0);
    for (uint8_t i = 0; i < MELORWYTH_MUTES; i++)
        expect("every lock for the first to ask", lock(0, i), 0);
    expect("armed anew", arm(0, key, "", 5000), 0);
    datagram("the key, armed anew", bytes, sizeof bytes, 1);
}

int main(void)
{
    uint8_t bytes[MELORWYTH_DATAGRAM];
    static const uint8_t zeros[MELORWYTH_KEY];
    begin(4294967000u);
    datagram_of(bytes, zeros);
    datagram("a key of zeros, disarmed", bytes, sizeof bytes, 0);
    open_next(0);
    open_next(1);
    statuses();
    armed();
    others();
    refusals();
    bad_area();
    restart();
    return verdict("reset");
}
