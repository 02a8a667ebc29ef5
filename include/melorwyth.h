/*
 * Melorwyth: an AES70 (OCP.1) device endpoint whose behaviour is proved.
 *
 * The library reads and writes messages, keeps locks and subscriptions, decides
 * when a controller is gone, and is reset by key. Sockets, TLS, discovery and the
 * clock are yours. It has no heap, no globals, no threads and no callbacks: all state is
 * a record and an area of bytes, and both are yours. Link libmelorwyth.a (x86-64,
 * System V); of the C library it needs memcpy, memmove and memset. examples/host.c
 * is a whole host over POSIX sockets.
 *
 * HOW IT IS USED
 *
 *     if (melorwyth_version() != MELORWYTH_VERSION) { the archive is not this header's: stop }
 *     static uint8_t area[MELORWYTH_AREA], output[MELORWYTH_OUTPUT];
 *     melorwyth_record record = melorwyth_fresh(milliseconds());
 *     melorwyth_clear(area, sizeof area);
 *
 *   a socket was accepted
 *     melorwyth_opened o = melorwyth_open(record);
 *     record = o.record;
 *     if (o.number != 0) { MELORWYTH_REFUSAL_TABLE_FULL: all eight are taken; close the socket }
 *     else o.connection is its number, 0 to 7
 *
 *   bytes came in on connection n
 *     while (length > 0) {
 *         melorwyth_delivered d = melorwyth_deliver(record, area, sizeof area, n,
 *                                     bytes, length, output, sizeof output);
 *         record = d.record;
 *         if (d.number != 0) { a refusal: see below; break }
 *         bytes += d.taken; length -= d.taken;
 *         if (d.kind == MELORWYTH_DELIVER_MESSAGE && d.length > 0) send output, d.length bytes, on n
 *         if (d.kind == MELORWYTH_DELIVER_CLOSED) { d.fault says why; close the socket; break }
 *     }
 *
 *   every 100 ms or so
 *     melorwyth_ticked t = melorwyth_tick(record, area, sizeof area, milliseconds());
 *     record = t.record;
 *     close the socket of every n for which t.closed has bit n
 *
 *   after deliveries and ticks, until kind is MELORWYTH_TAKE_NOTHING
 *     melorwyth_taken k = melorwyth_take(record, output, sizeof output);
 *     record = k.record;
 *     if (k.kind != MELORWYTH_TAKE_NOTHING) send output, k.length bytes, on k.connection
 *
 *   a socket was closed by the other side
 *     melorwyth_closed c = melorwyth_close(record, area, sizeof area, n);
 *     record = c.record;
 *
 *   after deliveries and resets, where record.device.mechanism is not what it was
 *     disarmed: close the UDP socket that there was
 *     armed, with another port or address: close it, open one on mechanism.port,
 *     and join the multicast group mechanism.address if that is not 0.0.0.0
 *
 *   a datagram came in on the UDP socket
 *     melorwyth_reset r = melorwyth_datagram(record, area, sizeof area, bytes, length);
 *     record = r.record;
 *     if (r.reset) { close every socket, with no melorwyth_close: no connection is left }
 *
 * WHO OWNS WHAT
 *
 * - The record is passed and handed back by value, 3,072 bytes each way. Keep the
 *   one that the last call handed back and pass it to the next, unchanged. An older
 *   one is another history: do not go back to it.
 * - The area goes with the record: one area for one record, the same one in
 *   every call, changed by nobody else in between.
 * - Pieces, entries and messages that are read are only read. Nothing is kept of
 *   any pointer after a call.
 * - An output or buffer keeps its bytes behind what was written.
 * - There is no lock inside. One record is one thread's at a time.
 *
 * SUBSCRIPTIONS
 *
 * A controller that wants to be told when a mute changes asks by method 3.1 of
 * object 4. It names the mute, the event 1.1, an object and a method of its own,
 * and a context: 0 to 64 bytes that mean nothing to the device and come back as
 * they were given, in every notification. The parameter count is 5, and the
 * parameters have 21 bytes and the context's, in this order and so many each:
 *
 *     emitter 4, event 4, the subscriber's object 4 and method 4,
 *     the context's count 2, the context, mode 1, and two zeros
 *
 * Deliveries answer it and takes write the notifications, each of 39 bytes and the
 * context's: the calls above are all that it needs. Its status is the first of
 * these that applies: 4 for another parameter count, a length other than 21 plus
 * the context's count, or a last pair other than 0, 0; 6 if the emitter is no mute
 * or the event not 1.1; 7 for a mode other than 1 or a context above 64 bytes; 9 if
 * the connection has that subscription already; 10 if all 32 entries are used; else
 * 0. A connection's subscriptions are told apart by emitter, event and subscriber,
 * not by the context: for another context a controller removes the subscription
 * (3.2, which names none) and adds it anew.
 *
 * RESET BY KEY
 *
 * A technician restarts a rack whose controllers have all hung. A controller
 * arms the mechanism by method 3.14 of object 1, with a key, a UDP port and, if
 * it likes, an IPv4 multicast group; the latest that got status 0 counts, and it
 * stays when its connection is closed. From then on a datagram of 24 bytes, the sentinel
 * and the key, resets the device: a fresh record at the last reading, an area of
 * zeros, the mechanism disarmed. Any other datagram changes nothing. Besides the
 * calls above you owe it this:
 *
 * - A socket whenever mechanism.armed is set, on the port and in the group that
 *   the record names now. Where it cannot be opened, say so: the library does not
 *   know, and the controller was answered by status 0.
 * - Datagrams whole. Most systems cut a datagram to the buffer that it is read
 *   into, so read into more than MELORWYTH_DATAGRAM bytes: of 25 bytes the first
 *   24 are no datagram of 24.
 * - At a reset every TCP socket closed. Their connections are gone already, so
 *   melorwyth_close would refuse by 3, or close another that has the number
 *   since; and bytes read from such a socket before are dropped.
 * - Secrecy, where there may be sabotage: whoever has the key can reset, so let
 *   3.14 come over secure connections only (the draft, 5.4.3). The key stands in
 *   the record, and while a 3.14 is half received in the area and in whatever you
 *   read it into: keep these out of displays and logs that others read.
 * - A switch, jumper or panel command on the device that disables the mechanism
 *   (the draft, 5.4.3): while it is off, open no socket and hand over nothing.
 *
 * WHAT A REFUSAL IS
 *
 * Every answer has a number: 0, or the lowest refusal that applies, where
 * nothing has been changed: the record handed back is the one passed, and every
 * buffer is as it was. All other fields of the answer are then 0, but for the
 * fault of refusal 8. No call has a condition to be met first: whatever numbers
 * and bytes are passed, the answer is the one that docs/PROMISES.md says. From a
 * fresh record and a cleared area, used as above, refusals 1 and 2 never come.
 *
 * WHAT A HOST MUST NOT DO
 *
 * These are beyond what a proof about the library can reach.
 *
 * - pass a null pointer, or a length that is more than the bytes there are (with
 *   length 0 any pointer but null will do: an empty piece is a piece);
 * - let two buffers of one call overlap;
 * - put anything but 0 or 1 into a bool of the record;
 * - pass one record and area to two calls at the same time;
 * - call with less than about 16 KB of stack: records pass by value, and the
 *   deepest call, melorwyth_deliver, takes 10 KB with the place for its answer
 *   (docs/BENCHMARKS.md).
 *
 * A record that was changed between calls is not in this list: if it breaks a
 * record rule it is refused by 1, and if it keeps them it is simply another state.
 *
 * Numbers in structs are in the machine's own byte order. Bytes of messages are
 * as on the wire, most significant first.
 */
#ifndef MELORWYTH_H
#define MELORWYTH_H

#include <stdbool.h>
#include <stddef.h>
#include <stdint.h>

#ifdef __cplusplus
extern "C" {
#endif

/* ---- version ------------------------------------------------------------ */

/* 0.1.0: a byte for each number. It changes whenever a struct, a number or a call of this header does.
   melorwyth_version() tells the archive's: compare the two when your program starts. */
#define MELORWYTH_VERSION 0x000100

/* ---- sizes ------------------------------------------------------------- */

#define MELORWYTH_CONNECTIONS 8
#define MELORWYTH_SUBSCRIPTIONS 32
#define MELORWYTH_MUTES 8
/* The longest context of a subscriber. */
#define MELORWYTH_CONTEXT 64
/* The area: exactly so long. Connection n's undecided bytes stand at 2,049 n, zeros after them. */
#define MELORWYTH_AREA 16392
/* The output of deliver and take: at least so long. */
#define MELORWYTH_OUTPUT 4096
/* The longest reply to a delivered message. */
#define MELORWYTH_LONGEST_REPLY 2628
/* The buffer of the writer: at least so long, which is the longest message. */
#define MELORWYTH_BUFFER 2049

/* The reset key, and the datagram that resets: the sentinel, then the key. */
#define MELORWYTH_KEY 16
#define MELORWYTH_DATAGRAM 24
#define MELORWYTH_SENTINEL {0xDE, 0xAF, 0xDA, 0xDA, 0xCA, 0xFE, 0xBA, 0xBE}

/* ---- refusals: the field number of every answer ------------------------ */

#define MELORWYTH_DONE 0
/* A record rule is broken: this is no record that a call handed back. */
#define MELORWYTH_REFUSAL_BAD_RECORD 1
/* The area is not 16,392 bytes, or does not hold what the record counts. */
#define MELORWYTH_REFUSAL_BAD_AREA 2
/* The connection's number is above 7, or it is not open. */
#define MELORWYTH_REFUSAL_NO_CONNECTION 3
/* The output is under 4,096 bytes (deliver, take), or the buffer under 2,049 (writer). */
#define MELORWYTH_REFUSAL_NO_ROOM 4
/* All eight connections are open. */
#define MELORWYTH_REFUSAL_TABLE_FULL 5
/* This reading less the last, modulo 2^32, is 2^31 or more: the clock went back, or more than 24 days passed. */
#define MELORWYTH_REFUSAL_CLOCK_BACK 6
/* 7 is unused: no call tells it. */
/* Reader and append: the bytes are no sound message; the field fault says why. */
#define MELORWYTH_REFUSAL_FAULT 8
/* Reader: the bytes end before it is decided what they are. */
#define MELORWYTH_REFUSAL_SHORT 9
/* Writer: the message would pass pduSize 2,048. */
#define MELORWYTH_REFUSAL_TOO_LONG 10
/* Writer: no well formed entry, or not of the message's type, or appended to a keep-alive;
   or a keep-alive of no known form, or in seconds with a value above 65,535.
   An entry without parameters has count 0, in a notification 1, and no parameter byte;
   with a higher count it has at least one. A notification's context has at most 64 bytes,
   and stands within its entry. */
#define MELORWYTH_REFUSAL_BAD_ENTRY 11
/* Reader: the entry's number is not below the message's count, or it is a keep-alive. */
#define MELORWYTH_REFUSAL_NO_ENTRY 12

/* ---- faults: why bytes are no sound message ----------------------------- */

/* The first byte is not 3B. */
#define MELORWYTH_FAULT_START 1
/* protocolVersion is not 1. */
#define MELORWYTH_FAULT_VERSION 2
/* pduSize is below 9 or above 2,048. */
#define MELORWYTH_FAULT_SIZE 3
/* pduType is above 4. */
#define MELORWYTH_FAULT_TYPE 4
/* messageCount is 0, or not 1 for a keep-alive. */
#define MELORWYTH_FAULT_COUNT 5
/* The entries do not fill the data, one is not well formed (a count without bytes is not, nor a context
   above 64 bytes or past its entry: see 11), or a keep-alive has other than 2 or 4 bytes. */
#define MELORWYTH_FAULT_DATA 6

/* ---- types of messages and entries --------------------------------------- */

#define MELORWYTH_TYPE_COMMAND 0
#define MELORWYTH_TYPE_COMMAND_WANTING_REPLY 1
#define MELORWYTH_TYPE_NOTIFICATION 2
#define MELORWYTH_TYPE_RESPONSE 3
#define MELORWYTH_TYPE_KEEP_ALIVE 4

/* An entry's bytes, in order. The size counts itself; a method or event is its level in 2 bytes and its index in 2.
   command       size 4, handle 4, target 4, method 4, parameter count 1, parameters
   notification  size 4, target 4, method 4, parameter count 1, context's count 2, context, emitter 4, event 4,
                 event parameters
   response      size 4, handle 4, status 1, parameter count 1, parameters */

/* The forms of a keep-alive; none is that of a connection without a heartbeat. */
#define MELORWYTH_FORM_NONE 0
#define MELORWYTH_FORM_SECONDS 1
#define MELORWYTH_FORM_MILLISECONDS 2

/* ---- objects, methods and statuses ----------------------------------------
 * What controllers ask for and are answered, and what a device's own panel can
 * ask by the writer's messages.
 */

#define MELORWYTH_OBJECT_DEVICE_MANAGER 1
#define MELORWYTH_OBJECT_SUBSCRIPTION_MANAGER 4
/* The mutes. Channel n, 1 to 8, is object 4096 + n. */
#define MELORWYTH_OBJECT_FIRST_MUTE 4097
#define MELORWYTH_OBJECT_LAST_MUTE 4104
#define MELORWYTH_OBJECT_CHANNEL(n) (4096u + (n))

/* Methods, events and properties are level times 65,536 plus index: 0x00010003 is 1.3.
   In an entry's bytes they are level 2, index 2, most significant first. */
#define MELORWYTH_METHOD_CLASS 0x00010001    /* all: class identification */
#define MELORWYTH_METHOD_LOCKABLE 0x00010002 /* all */
#define MELORWYTH_METHOD_LOCK 0x00010003     /* all; the managers cannot be locked */
#define MELORWYTH_METHOD_UNLOCK 0x00010004   /* all */
#define MELORWYTH_METHOD_ADD 0x00030001      /* the subscription manager: subscribe */
#define MELORWYTH_METHOD_REMOVE 0x00030002   /* the subscription manager: no longer */
#define MELORWYTH_METHOD_RESET_KEY 0x0003000E /* the device manager: set the reset key */
#define MELORWYTH_METHOD_GET 0x00040001      /* mutes */
#define MELORWYTH_METHOD_SET 0x00040002      /* mutes */
#define MELORWYTH_EVENT_CHANGE 0x00010001    /* of a mute: its value changed */
#define MELORWYTH_PROPERTY_MUTE 0x00040001   /* what a notification says has changed */

/* The values of a mute. */
#define MELORWYTH_MUTED 1
#define MELORWYTH_UNMUTED 2

/* The status of a response: the first of these that applies, in the order in which they stand here. */
#define MELORWYTH_STATUS_NO_OBJECT 5       /* no such object */
#define MELORWYTH_STATUS_NO_METHOD 11      /* the object has no such method */
#define MELORWYTH_STATUS_FORBIDDEN 8       /* lock or unlock of a manager */
#define MELORWYTH_STATUS_MALFORMED 4       /* wrong parameter count or length, or a last pair other than 0, 0 */
#define MELORWYTH_STATUS_HELD_BY_OTHER 3   /* set, lock or unlock of a mute that another connection holds */
#define MELORWYTH_STATUS_STRANGE_EMITTER 6 /* the emitter is no mute, or the event not 1.1 */
#define MELORWYTH_STATUS_BAD_VALUE 7       /* mode not 1, a context above 64 bytes, a mute's value not 1 or 2;
                                              3.14: port 0, or a text that is neither empty nor a multicast address */
#define MELORWYTH_STATUS_OUT_OF_TURN 9     /* unlock of a mute that nobody holds; add of a subscription that is there,
                                              remove of one that is not */
#define MELORWYTH_STATUS_NO_FREE_ENTRY 10  /* all 32 subscription entries are used */
#define MELORWYTH_STATUS_CARRIED_OUT 0     /* done; every other status changed nothing */

/* ---- the record ----------------------------------------------------------
 * To be passed on, and to be looked at: the fields may be read at any time, as
 * for a display. Nothing need be written into them.
 */

typedef struct melorwyth_connection {
    bool live;         /* whether it is open; a closed one is all 0 */
    uint8_t form;      /* of its heartbeat: 0 none, 1 seconds, 2 milliseconds */
    uint64_t beat;     /* the heartbeat H in milliseconds; 0: it is not supervised */
    uint64_t silence;  /* while H is above 0: milliseconds that ticks brought since a sound message was heard,
                          less than 3 H, as the tick that reaches 3 H closes it; else 0 */
    uint64_t quiet;    /* while H is above 0: milliseconds that ticks brought since something was sent to it, less
                          than H, as the tick that reaches H sets due; 0 while something is due, and else */
    bool due;          /* whether a keep-alive is to be taken for it */
} melorwyth_connection;

typedef struct melorwyth_subscription {
    bool used;              /* a free entry is all 0 */
    bool waiting;           /* whether a notification is to be taken for it */
    uint8_t connection;     /* whose it is */
    uint8_t context_count;  /* how many bytes its context has, 0 to 64 */
    uint32_t emitter;       /* the mute, 4097 to 4104 */
    uint32_t event;         /* level times 65,536 plus index: always 1.1 */
    uint32_t object;        /* the subscriber's object */
    uint32_t method;        /* the subscriber's method: level times 65,536 plus index */
    uint8_t context[MELORWYTH_CONTEXT];  /* sent with each notification: context_count bytes, and zeros behind them */
} melorwyth_subscription;

/* Disarmed it is all 0. */
typedef struct melorwyth_mechanism {
    bool armed;                  /* whether you are to listen for datagrams */
    uint8_t key[MELORWYTH_KEY];  /* secret: not for a display */
    uint8_t address[4];          /* the multicast group to join, first part 224 to 239; all 0: none */
    uint16_t port;               /* the UDP port to listen on, not 0 */
} melorwyth_mechanism;

typedef struct melorwyth_device {
    uint32_t reading;  /* the last reading of your millisecond counter */
    melorwyth_connection connections[MELORWYTH_CONNECTIONS];
    melorwyth_subscription subscriptions[MELORWYTH_SUBSCRIPTIONS];
    uint8_t mutes[MELORWYTH_MUTES];    /* object 4097 + i: 1 muted, 2 unmuted */
    uint8_t holders[MELORWYTH_MUTES];  /* who holds the lock of object 4097 + i: 0 nobody, else the connection plus 1 */
    melorwyth_mechanism mechanism;     /* reset by key: the device's, so a closure leaves it */
} melorwyth_device;

typedef struct melorwyth_record {
    melorwyth_device device;
    uint16_t held[MELORWYTH_CONNECTIONS];  /* how many undecided bytes each connection has in the area */
} melorwyth_record;

/* ---- the answers of the endpoint ------------------------------------------ */

typedef struct melorwyth_cleared {
    uint8_t number;  /* 0 or 2 */
} melorwyth_cleared;

typedef struct melorwyth_opened {
    melorwyth_record record;
    uint8_t number;      /* 0, 1 or 5 */
    uint8_t connection;  /* the number opened, the lowest that was free */
} melorwyth_opened;

typedef struct melorwyth_closed {
    melorwyth_record record;
    uint8_t number;  /* 0, 1, 2 or 3 */
} melorwyth_closed;

typedef struct melorwyth_ticked {
    melorwyth_record record;
    uint8_t number;  /* 0, 1, 2 or 6 */
    uint8_t closed;  /* bit n is set for connection n closed */
} melorwyth_ticked;

/* The kinds of a delivery's answer. */
#define MELORWYTH_DELIVER_MORE 1    /* more bytes are needed: all of the piece was taken */
#define MELORWYTH_DELIVER_MESSAGE 2 /* a message was decided and run: length is that of the reply, 0 for none */
#define MELORWYTH_DELIVER_CLOSED 3  /* a fault closed the connection */

typedef struct melorwyth_delivered {
    melorwyth_record record;
    uint8_t number;  /* 0, 1, 2, 3 or 4 */
    uint8_t kind;    /* 1, 2 or 3 as above */
    uint8_t fault;   /* kind 3: which fault, 1 to 6 */
    size_t taken;    /* how many bytes of the piece were taken: offer the rest again */
    size_t length;   /* kind 2: the length of the reply at the front of the output */
} melorwyth_delivered;

/* The kinds of a taking's answer. */
#define MELORWYTH_TAKE_NOTHING 0
#define MELORWYTH_TAKE_NOTIFICATION 1
#define MELORWYTH_TAKE_KEEP_ALIVE 2

typedef struct melorwyth_taken {
    melorwyth_record record;
    uint8_t number;      /* 0, 1 or 4 */
    uint8_t kind;        /* 0, 1 or 2 as above */
    uint8_t connection;  /* to whom it is to be sent */
    size_t length;       /* the length of the message at the front of the output */
} melorwyth_taken;

typedef struct melorwyth_reset {
    melorwyth_record record;
    uint8_t number;  /* 0, 1 or 2 */
    uint8_t reset;   /* 1: it was reset, close every socket; 0: nothing was changed */
} melorwyth_reset;

/* ---- the answers of reader and writer ------------------------------------- */

typedef struct melorwyth_reading {
    uint8_t number;  /* 0, 8 or 9 */
    uint8_t fault;   /* refusal 8: which fault */
    uint8_t kind;    /* the message's type, 0 to 4 */
    uint16_t count;  /* messageCount */
    uint8_t form;    /* a keep-alive's form: 1 seconds, 2 milliseconds; else 0 */
    uint32_t value;  /* a keep-alive's value in that form's unit; else 0 */
    size_t length;   /* the message's length, its 3B counted: pduSize plus 1 */
} melorwyth_reading;

/* Fields that an entry of that kind does not have are 0. */
typedef struct melorwyth_entry {
    uint8_t number;          /* 0, 8, 9 or 12 */
    uint8_t fault;           /* refusal 8: which fault */
    uint8_t kind;            /* 0 a command of type 0 or 1, 2 a notification, 3 a response */
    uint32_t handle;         /* command, response */
    uint32_t target;         /* command, notification */
    uint16_t level;          /* the method's level: command, notification */
    uint16_t index;          /* the method's index */
    uint8_t count;           /* the parameter count: 0, in a notification 1, exactly where the part is empty */
    uint8_t status;          /* response */
    uint16_t context_count;  /* how many bytes the context has, 0 to 64: notification, as are the fields below */
    uint32_t emitter;
    uint16_t event_level;
    uint16_t event_index;
} melorwyth_entry;

/* The length bytes from bytes + start on; where there are none, start is where they would stand.
   Both are 0 where the entry is refused, and for the context of an entry that is no notification. */
typedef struct melorwyth_part {
    size_t start;
    size_t length;
} melorwyth_part;

typedef struct melorwyth_written {
    uint8_t number;  /* 0, 4, 8 (append), 10 or 11 */
    uint8_t fault;   /* refusal 8: which fault */
    size_t length;   /* the length of the message at the front of the buffer, its 3B counted */
} melorwyth_written;

/* ---- the archive ------------------------------------------------------------- */

/* The version of the archive that was linked: MELORWYTH_VERSION of its own header. */
uint32_t melorwyth_version(void);

/* ---- the endpoint ----------------------------------------------------------- */

/* A record to start with: all connections closed, all channels unmuted, no lock, no subscription,
   the reset mechanism disarmed.
   The reading is that of a free-running 32-bit millisecond counter, now. */
melorwyth_record melorwyth_fresh(uint32_t reading);

/* Zeros an area, for a fresh record. It refuses only by the length. */
melorwyth_cleared melorwyth_clear(uint8_t *area, size_t area_length);

/* Opens the lowest free connection. */
melorwyth_opened melorwyth_open(melorwyth_record record);

/* Closes connection n: its locks, subscriptions and undecided bytes are gone. */
melorwyth_closed melorwyth_close(melorwyth_record record, uint8_t *area, size_t area_length, uint8_t n);

/* Brings time: the counter's reading now. Connections silent for 3 H or more are closed.
   Ticks with no other call between come to one tick at the last reading: how often you tick
   makes no difference but in how late a closure or a keep-alive comes. Tick at least every 24 days. */
melorwyth_ticked melorwyth_tick(melorwyth_record record, uint8_t *area, size_t area_length, uint32_t reading);

/* Gives connection n a piece of what it received. Bytes are taken up to and including the first
   that decides something, so that a call runs at most one message. */
melorwyth_delivered melorwyth_deliver(melorwyth_record record, uint8_t *area, size_t area_length, uint8_t n,
                                      const uint8_t *piece, size_t piece_length,
                                      uint8_t *output, size_t output_length);

/* Writes one message that is to be sent, and names its connection: the notification of the lowest
   waiting subscription, else a keep-alive for the lowest connection due, else nothing. */
melorwyth_taken melorwyth_take(melorwyth_record record, uint8_t *output, size_t output_length);

/* Gives the device a datagram that came in on the mechanism's port. It resets exactly when the mechanism is
   armed and the datagram is the sentinel and the key, 24 bytes in all: the record is then a fresh one at the
   last reading, the area zeros, the mechanism disarmed. */
melorwyth_reset melorwyth_datagram(melorwyth_record record, uint8_t *area, size_t area_length,
                                   const uint8_t *datagram, size_t datagram_length);

/* ---- the reader: for whole messages, with no record --------------------------- */

/* The message at the front of the bytes; those behind it are not looked at. */
melorwyth_reading melorwyth_read_message(const uint8_t *bytes, size_t bytes_length);

/* Entry index of that message, from 0. */
melorwyth_entry melorwyth_read_entry(const uint8_t *bytes, size_t bytes_length, size_t index);

/* Where that entry's parameters stand in the bytes (a notification's event parameters). */
melorwyth_part melorwyth_entry_part(const uint8_t *bytes, size_t bytes_length, size_t index);

/* Where that entry's context stands in the bytes, behind its 2-byte count: only a notification has one. */
melorwyth_part melorwyth_entry_context(const uint8_t *bytes, size_t bytes_length, size_t index);

/* ---- the writer: for whole messages, with no record ---------------------------- */

/* Starts a message of that type with one entry, given as its bytes, its size field included. */
melorwyth_written melorwyth_start(uint8_t *buffer, size_t buffer_length, uint8_t kind,
                                  const uint8_t *entry, size_t entry_length);

/* Appends an entry to the sound message at the buffer's front. */
melorwyth_written melorwyth_append(uint8_t *buffer, size_t buffer_length, uint8_t kind,
                                   const uint8_t *entry, size_t entry_length);

/* Writes a keep-alive: form 1 and seconds, or form 2 and milliseconds. */
melorwyth_written melorwyth_keep_alive(uint8_t *buffer, size_t buffer_length, uint8_t form, uint32_t value);

/* ---- the archive's layout: a compiler that lays the record out in another way stops here -------- */

typedef char melorwyth_subscription_has_84_bytes[sizeof(melorwyth_subscription) == 84 ? 1 : -1];
typedef char melorwyth_mechanism_has_24_bytes[sizeof(melorwyth_mechanism) == 24 ? 1 : -1];
typedef char melorwyth_record_has_3072_bytes[sizeof(melorwyth_record) == 3072 ? 1 : -1];
typedef char melorwyth_delivered_has_3096_bytes[sizeof(melorwyth_delivered) == 3096 ? 1 : -1];
typedef char melorwyth_reset_has_3080_bytes[sizeof(melorwyth_reset) == 3080 ? 1 : -1];

#ifdef __cplusplus
}
#endif

#endif
