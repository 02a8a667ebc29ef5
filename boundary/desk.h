/* What the boundary's programs share: checks that count, records compared, and commands as bytes. */
#ifndef DESK_H
#define DESK_H

#include <stdio.h>
#include <string.h>

#include "melorwyth.h"

/* The header's names, short enough for a line. */
#define LOCK MELORWYTH_METHOD_LOCK
#define SET MELORWYTH_METHOD_SET
#define ADD MELORWYTH_METHOD_ADD
#define REMOVE MELORWYTH_METHOD_REMOVE
#define SET_RESET_KEY MELORWYTH_METHOD_RESET_KEY
#define DEVICE_MANAGER MELORWYTH_OBJECT_DEVICE_MANAGER
#define SUBSCRIPTION_MANAGER MELORWYTH_OBJECT_SUBSCRIPTION_MANAGER
#define FIRST_MUTE MELORWYTH_OBJECT_FIRST_MUTE
#define CHANGED MELORWYTH_EVENT_CHANGE
/* 3.1 without the context's bytes, and a message with one notification of a mute without them. */
#define LEAST_ADD 21u
#define LEAST_NOTIFIED 39u
/* Longer than the longest context by one. */
#define TOO_LONG (MELORWYTH_CONTEXT + 1)

static unsigned checked, wrong;

/* Counts a check, and tells of it only where it fails. */
static inline void expect(const char *what, unsigned long long got, unsigned long long want)
{
    checked++;
    if (got == want)
        return;
    wrong++;
    printf("WRONG %s: %llu, expected %llu\n", what, got, want);
}

static inline int verdict(const char *program)
{
    printf("%s: %u checks, %u wrong\n", program, checked, wrong);
    return wrong == 0 && checked > 0 ? 0 : 1;
}

/* A field of two structs got and want. */
#define SAME(field) expect(#field, got->field, want->field)

static inline void same_connection(const melorwyth_connection *got, const melorwyth_connection *want)
{
    SAME(live);
    SAME(form);
    SAME(beat);
    SAME(silence);
    SAME(quiet);
    SAME(due);
}

static inline void same_subscription(const melorwyth_subscription *got, const melorwyth_subscription *want)
{
    SAME(used);
    SAME(waiting);
    SAME(connection);
    SAME(context_count);
    SAME(emitter);
    SAME(event);
    SAME(object);
    SAME(method);
    for (int i = 0; i < MELORWYTH_CONTEXT; i++)
        SAME(context[i]);
}

static inline void same_mechanism(const melorwyth_mechanism *got, const melorwyth_mechanism *want)
{
    SAME(armed);
    for (int i = 0; i < MELORWYTH_KEY; i++)
        SAME(key[i]);
    for (int i = 0; i < 4; i++)
        SAME(address[i]);
    SAME(port);
}

/* Compares every field of two records. */
static inline void same(const char *after, const melorwyth_record *got, const melorwyth_record *want)
{
    unsigned before = wrong;
    SAME(device.reading);
    for (int i = 0; i < MELORWYTH_CONNECTIONS; i++)
        same_connection(&got->device.connections[i], &want->device.connections[i]);
    for (int i = 0; i < MELORWYTH_SUBSCRIPTIONS; i++)
        same_subscription(&got->device.subscriptions[i], &want->device.subscriptions[i]);
    for (int i = 0; i < MELORWYTH_MUTES; i++) {
        SAME(device.mutes[i]);
        SAME(device.holders[i]);
    }
    same_mechanism(&got->device.mechanism, &want->device.mechanism);
    for (int i = 0; i < MELORWYTH_CONNECTIONS; i++)
        SAME(held[i]);
    if (wrong != before)
        printf("... after %s\n", after);
}

static inline void put16(uint8_t *at, uint16_t value)
{
    at[0] = (uint8_t)(value >> 8);
    at[1] = (uint8_t)value;
}

static inline void put32(uint8_t *at, uint32_t value)
{
    put16(at, (uint16_t)(value >> 16));
    put16(at + 2, (uint16_t)value);
}

/* One command that wants a reply, as a whole message in a buffer; its length. */
static inline size_t command(uint8_t buffer[MELORWYTH_BUFFER], uint32_t handle, uint32_t target, uint32_t method,
                             uint8_t count, const uint8_t *parameters, size_t length)
{
    uint8_t entry[17 + LEAST_ADD + TOO_LONG];
    put32(entry, (uint32_t)(17 + length));
    put32(entry + 4, handle);
    put32(entry + 8, target);
    put32(entry + 12, method);
    entry[16] = count;
    if (length > 0)
        memcpy(entry + 17, parameters, length);
    melorwyth_written w = melorwyth_start(buffer, MELORWYTH_BUFFER, MELORWYTH_TYPE_COMMAND_WANTING_REPLY, entry, 17 + length);
    expect("a command is written", w.number, MELORWYTH_DONE);
    return w.length;
}

/* The parameters of 3.14: key, text length, text, port. Their length. */
static inline size_t arming(uint8_t parameters[64], const uint8_t key[MELORWYTH_KEY], const char *text, uint16_t port)
{
    size_t length = strlen(text);
    memcpy(parameters, key, MELORWYTH_KEY);
    put16(parameters + 16, (uint16_t)length);
    memcpy(parameters + 18, text, length);
    put16(parameters + 18 + length, port);
    return 20 + length;
}

/* The parameters of 3.2, which those of 3.1 begin with: what tells a connection's subscriptions apart. Their length. */
static inline size_t naming(uint8_t parameters[16], const melorwyth_subscription *s)
{
    put32(parameters, s->emitter);
    put32(parameters + 4, s->event);
    put32(parameters + 8, s->object);
    put32(parameters + 12, s->method);
    return 16;
}

/* The parameters of 3.1, with so many bytes of context, which may be more than a record holds. Their length. */
static inline size_t adding(uint8_t parameters[LEAST_ADD + TOO_LONG], const melorwyth_subscription *s,
                            const uint8_t *context, uint16_t count)
{
    size_t at = naming(parameters, s);
    put16(parameters + at, count);
    memcpy(parameters + at + 2, context, count);
    at += 2u + count;
    parameters[at] = 1;
    parameters[at + 1] = parameters[at + 2] = 0;
    return at + 3;
}

/* The message that tells a subscriber that its mute has this value. Its length. */
static inline size_t notified(uint8_t bytes[LEAST_NOTIFIED + TOO_LONG], const melorwyth_subscription *s,
                              const uint8_t *context, uint16_t count, uint8_t value)
{
    static const uint8_t header[10] = {0x3B, 0, 1, 0, 0, 0, 0, MELORWYTH_TYPE_NOTIFICATION, 0, 1};
    uint8_t *behind = bytes + 25 + count;
    memcpy(bytes, header, sizeof header);
    put32(bytes + 3, LEAST_NOTIFIED - 1u + count);
    put32(bytes + 10, LEAST_NOTIFIED - 10u + count);
    put32(bytes + 14, s->object);
    put32(bytes + 18, s->method);
    bytes[22] = 2;
    put16(bytes + 23, count);
    memcpy(bytes + 25, context, count);
    put32(behind, s->emitter);
    put32(behind + 4, s->event);
    put32(behind + 8, MELORWYTH_PROPERTY_MUTE);
    behind[12] = value;
    behind[13] = 1;
    return LEAST_NOTIFIED + count;
}

/* The datagram that resets: the sentinel, then the key. */
static inline void datagram_of(uint8_t datagram[MELORWYTH_DATAGRAM], const uint8_t key[MELORWYTH_KEY])
{
    static const uint8_t sentinel[] = MELORWYTH_SENTINEL;
    memcpy(datagram, sentinel, sizeof sentinel);
    memcpy(datagram + sizeof sentinel, key, MELORWYTH_KEY);
}

#endif
