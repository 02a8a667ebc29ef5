/* Every number of the header, by its name: each refusal, fault, status and kind is brought about, each object and
   method asked, and the version compared, so that a name that stands for another number is found. */
#include "desk.h"

static uint8_t area[MELORWYTH_AREA], output[MELORWYTH_OUTPUT], message[MELORWYTH_BUFFER];
static melorwyth_record record;

#include "ask.h"

static void begin(void)
{
    record = melorwyth_fresh(0);
    expect("clearing", melorwyth_clear(area, sizeof area).number, MELORWYTH_DONE);
    for (int i = 0; i < 2; i++)
        record = melorwyth_open(record).record;
}

static unsigned asked(uint8_t n, uint32_t target, uint32_t method)
{
    return ask(n, target, method, 0, NULL, 0);
}

static unsigned set(uint32_t channel, uint8_t value)
{
    return ask(0, MELORWYTH_OBJECT_CHANNEL(channel), SET, 1, &value, 1);
}

static unsigned added(uint32_t emitter, uint32_t object)
{
    melorwyth_subscription s = {.emitter = emitter, .event = CHANGED, .object = object, .method = 1};
    uint8_t parameters[LEAST_ADD + TOO_LONG], none[1] = {0};
    return ask(0, SUBSCRIPTION_MANAGER, ADD, 5, parameters, adding(parameters, &s, none, 0));
}

static void statuses(void)
{
    begin();
    expect("no object", asked(0, 2, LOCK), MELORWYTH_STATUS_NO_OBJECT);
    expect("before the mutes", asked(0, FIRST_MUTE - 1, LOCK), MELORWYTH_STATUS_NO_OBJECT);
    expect("behind the mutes", asked(0, MELORWYTH_OBJECT_LAST_MUTE + 1, LOCK), MELORWYTH_STATUS_NO_OBJECT);
    expect("no method", asked(0, DEVICE_MANAGER, ADD), MELORWYTH_STATUS_NO_METHOD);
    expect("a manager's lock", asked(0, DEVICE_MANAGER, LOCK), MELORWYTH_STATUS_FORBIDDEN);
    expect("a manager's unlock", asked(0, SUBSCRIPTION_MANAGER, MELORWYTH_METHOD_UNLOCK), MELORWYTH_STATUS_FORBIDDEN);
    expect("no key", asked(0, DEVICE_MANAGER, SET_RESET_KEY), MELORWYTH_STATUS_MALFORMED);
    expect("nothing to remove", asked(0, SUBSCRIPTION_MANAGER, REMOVE), MELORWYTH_STATUS_MALFORMED);
    for (uint32_t n = 1; n <= MELORWYTH_MUTES; n++)
        expect("a lock", asked(0, MELORWYTH_OBJECT_CHANNEL(n), LOCK), MELORWYTH_STATUS_CARRIED_OUT);
    expect("the last one's holder", record.device.holders[MELORWYTH_OBJECT_LAST_MUTE - FIRST_MUTE], 1);
    expect("another's lock", asked(1, MELORWYTH_OBJECT_CHANNEL(5), LOCK), MELORWYTH_STATUS_HELD_BY_OTHER);
    expect("an unlock", asked(0, FIRST_MUTE, MELORWYTH_METHOD_UNLOCK), MELORWYTH_STATUS_CARRIED_OUT);
    expect("once more", asked(0, FIRST_MUTE, MELORWYTH_METHOD_UNLOCK), MELORWYTH_STATUS_OUT_OF_TURN);
    expect("an emitter", added(DEVICE_MANAGER, 9), MELORWYTH_STATUS_STRANGE_EMITTER);
    expect("muted", set(5, MELORWYTH_MUTED), MELORWYTH_STATUS_CARRIED_OUT);
    expect("its value", record.device.mutes[4], MELORWYTH_MUTED);
    expect("unmuted", set(5, MELORWYTH_UNMUTED), MELORWYTH_STATUS_CARRIED_OUT);
    expect("its value", record.device.mutes[4], MELORWYTH_UNMUTED);
    expect("neither", set(5, MELORWYTH_UNMUTED + 1), MELORWYTH_STATUS_BAD_VALUE);
    for (uint32_t i = 0; i < MELORWYTH_SUBSCRIPTIONS; i++)
        expect("an entry", added(FIRST_MUTE, i), MELORWYTH_STATUS_CARRIED_OUT);
    expect("one more", added(FIRST_MUTE, 99), MELORWYTH_STATUS_NO_FREE_ENTRY);
}

/* What a method without parameters hands back: the reply's parameters as one number. */
static unsigned long long got(uint32_t target, uint32_t method)
{
    size_t length = command(message, 7, target, method, 0, NULL, 0);
    melorwyth_delivered d = melorwyth_deliver(record, area, sizeof area, 0, message, length, output, sizeof output);
    melorwyth_part part = melorwyth_entry_part(output, d.length, 0);
    unsigned long long value = 0;
    record = d.record;
    for (size_t i = 0; i < part.length && i < 8; i++)
        value = value << 8 | output[part.start + i];
    return value;
}

/* A class is its field count and its fields, 2 bytes each; the first fields fit a number. */
static void methods(void)
{
    begin();
    expect("a mute's class", got(FIRST_MUTE, MELORWYTH_METHOD_CLASS), 0x0004000100010001u);
    expect("the device manager's", got(DEVICE_MANAGER, MELORWYTH_METHOD_CLASS), 0x0003000100030001u);
    expect("the subscription manager's", got(SUBSCRIPTION_MANAGER, MELORWYTH_METHOD_CLASS), 0x0003000100030004u);
    expect("lockable", got(FIRST_MUTE, MELORWYTH_METHOD_LOCKABLE), 1);
    expect("not lockable", got(DEVICE_MANAGER, MELORWYTH_METHOD_LOCKABLE), 0);
    expect("a mute", got(FIRST_MUTE, MELORWYTH_METHOD_GET), MELORWYTH_UNMUTED);
}

static melorwyth_delivered delivered(size_t length)
{
    melorwyth_delivered d = melorwyth_deliver(record, area, sizeof area, 0, message, length, output, sizeof output);
    record = d.record;
    expect("a delivery", d.number, MELORWYTH_DONE);
    return d;
}

static melorwyth_taken taken(void)
{
    melorwyth_taken k = melorwyth_take(record, output, sizeof output);
    record = k.record;
    expect("a taking", k.number, MELORWYTH_DONE);
    return k;
}

static void kinds(void)
{
    begin();
    expect("nothing to take", taken().kind, MELORWYTH_TAKE_NOTHING);
    size_t length = melorwyth_keep_alive(message, sizeof message, MELORWYTH_FORM_MILLISECONDS, 50).length;
    expect("half a message", delivered(length - 1).kind, MELORWYTH_DELIVER_MORE);
    message[0] = message[length - 1];
    expect("the rest", delivered(1).kind, MELORWYTH_DELIVER_MESSAGE);
    expect("its form", record.device.connections[0].form, MELORWYTH_FORM_MILLISECONDS);
    expect("one without", record.device.connections[1].form, MELORWYTH_FORM_NONE);
    expect("its answer", melorwyth_read_message(output, sizeof output).kind, MELORWYTH_TYPE_KEEP_ALIVE);
    record = melorwyth_tick(record, area, sizeof area, 50).record;
    expect("a keep-alive", taken().kind, MELORWYTH_TAKE_KEEP_ALIVE);
    expect("an entry", added(FIRST_MUTE, 9), MELORWYTH_STATUS_CARRIED_OUT);
    expect("a reply", melorwyth_read_message(output, sizeof output).kind, MELORWYTH_TYPE_RESPONSE);
    expect("muted", set(1, MELORWYTH_MUTED), MELORWYTH_STATUS_CARRIED_OUT);
    melorwyth_taken k = taken();
    melorwyth_entry e = melorwyth_read_entry(output, k.length, 0);
    melorwyth_part part = melorwyth_entry_part(output, k.length, 0);
    expect("a notification", k.kind, MELORWYTH_TAKE_NOTIFICATION);
    expect("its type", e.kind, MELORWYTH_TYPE_NOTIFICATION);
    expect("its event", e.event_level * 65536u + e.event_index, MELORWYTH_EVENT_CHANGE);
    expect("its property's level", output[part.start + 1], MELORWYTH_PROPERTY_MUTE >> 16);
    expect("its property's index", output[part.start + 3], MELORWYTH_PROPERTY_MUTE & 0xFFFF);
    length = melorwyth_keep_alive(message, sizeof message, MELORWYTH_FORM_SECONDS, 2).length;
    expect("seconds", delivered(length).length, length);
    expect("their form", record.device.connections[0].form, MELORWYTH_FORM_SECONDS);
    message[0] = 0;
    expect("a fault", delivered(1).kind, MELORWYTH_DELIVER_CLOSED);
}

/* A keep-alive of 2 s with one byte changed. */
static void fault(size_t at, uint8_t value, unsigned wanted)
{
    uint8_t bytes[12] = {0x3B, 0, 1, 0, 0, 0, 11, MELORWYTH_TYPE_KEEP_ALIVE, 0, 1, 0, 2};
    bytes[at] = value;
    melorwyth_reading r = melorwyth_read_message(bytes, sizeof bytes);
    expect("a fault's refusal", r.number, MELORWYTH_REFUSAL_FAULT);
    expect("its number", r.fault, wanted);
}

static void faults(void)
{
    fault(0, 0x3A, MELORWYTH_FAULT_START);
    fault(2, 2, MELORWYTH_FAULT_VERSION);
    fault(6, 8, MELORWYTH_FAULT_SIZE);
    fault(7, MELORWYTH_TYPE_KEEP_ALIVE + 1, MELORWYTH_FAULT_TYPE);
    fault(9, 0, MELORWYTH_FAULT_COUNT);
    fault(6, 10, MELORWYTH_FAULT_DATA);
}

static void endpoint_refusals(void)
{
    begin();
    melorwyth_record bad = record;
    bad.device.mutes[0] = MELORWYTH_UNMUTED + 1;
    expect("a bad record", melorwyth_open(bad).number, MELORWYTH_REFUSAL_BAD_RECORD);
    expect("a bad area", melorwyth_tick(record, area, sizeof area - 1, 1).number, MELORWYTH_REFUSAL_BAD_AREA);
    expect("nobody", melorwyth_close(record, area, sizeof area, 2).number, MELORWYTH_REFUSAL_NO_CONNECTION);
    expect("no room", melorwyth_take(record, output, MELORWYTH_OUTPUT - 1).number, MELORWYTH_REFUSAL_NO_ROOM);
    expect("the clock", melorwyth_tick(record, area, sizeof area, 0x80000000u).number, MELORWYTH_REFUSAL_CLOCK_BACK);
    for (int i = 2; i < MELORWYTH_CONNECTIONS; i++)
        record = melorwyth_open(record).record;
    expect("a ninth", melorwyth_open(record).number, MELORWYTH_REFUSAL_TABLE_FULL);
}

/* As many classes asked for as a message holds: no reply is longer. */
static void message_refusals(void)
{
    uint8_t entry[17] = {0, 0, 0, 17};
    put32(entry + 8, FIRST_MUTE);
    put32(entry + 12, MELORWYTH_METHOD_CLASS);
    size_t length =
        melorwyth_start(message, sizeof message, MELORWYTH_TYPE_COMMAND_WANTING_REPLY, entry, sizeof entry).length;
    expect("short", melorwyth_read_message(message, length - 1).number, MELORWYTH_REFUSAL_SHORT);
    expect("its type", melorwyth_read_message(message, length).kind, MELORWYTH_TYPE_COMMAND_WANTING_REPLY);
    expect("no entry", melorwyth_read_entry(message, length, 1).number, MELORWYTH_REFUSAL_NO_ENTRY);
    expect("a buffer too short", melorwyth_start(message, MELORWYTH_BUFFER - 1, 1, entry, sizeof entry).number,
           MELORWYTH_REFUSAL_NO_ROOM);
    expect("no type", melorwyth_start(message, sizeof message, MELORWYTH_TYPE_KEEP_ALIVE, entry, sizeof entry).number,
           MELORWYTH_REFUSAL_BAD_ENTRY);
    unsigned count = 1, number;
    while ((number = melorwyth_append(message, sizeof message, 1, entry, sizeof entry).number) == MELORWYTH_DONE)
        count++;
    expect("too long", number, MELORWYTH_REFUSAL_TOO_LONG);
    expect("least commands", count, 119);
    begin();
    expect("the longest reply", delivered(10 + count * sizeof entry).length, MELORWYTH_LONGEST_REPLY);
    expect("no reply is wanted", melorwyth_start(message, sizeof message, MELORWYTH_TYPE_COMMAND, entry, 17).number, 0);
    expect("none comes", delivered(length).length, 0);
}

int main(void)
{
    expect("version", melorwyth_version(), MELORWYTH_VERSION);
    statuses();
    methods();
    kinds();
    faults();
    endpoint_refusals();
    message_refusals();
    return verdict("numbers");
}
