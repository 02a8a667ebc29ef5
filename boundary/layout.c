/* Prints the layout that the header gives every struct of the boundary: its
   size, and where each field stands. bindings/rust/examples/layout.rs prints the same
   from the Rust side. */
#include <stdio.h>

#include "melorwyth.h"

#define STRUCT(name, type) printf("%s %zu\n", name, sizeof(type))
#define FIELD(name, type, field) printf("%s.%s %zu\n", name, #field, offsetof(type, field))

static void record(void)
{
    STRUCT("Connection", melorwyth_connection);
    FIELD("Connection", melorwyth_connection, live);
    FIELD("Connection", melorwyth_connection, form);
    FIELD("Connection", melorwyth_connection, beat);
    FIELD("Connection", melorwyth_connection, silence);
    FIELD("Connection", melorwyth_connection, quiet);
    FIELD("Connection", melorwyth_connection, due);
    STRUCT("Subscription", melorwyth_subscription);
    FIELD("Subscription", melorwyth_subscription, used);
    FIELD("Subscription", melorwyth_subscription, waiting);
    FIELD("Subscription", melorwyth_subscription, connection);
    FIELD("Subscription", melorwyth_subscription, context_count);
    FIELD("Subscription", melorwyth_subscription, emitter);
    FIELD("Subscription", melorwyth_subscription, event);
    FIELD("Subscription", melorwyth_subscription, object);
    FIELD("Subscription", melorwyth_subscription, method);
    FIELD("Subscription", melorwyth_subscription, context);
    STRUCT("Mechanism", melorwyth_mechanism);
    FIELD("Mechanism", melorwyth_mechanism, armed);
    FIELD("Mechanism", melorwyth_mechanism, key);
    FIELD("Mechanism", melorwyth_mechanism, address);
    FIELD("Mechanism", melorwyth_mechanism, port);
    STRUCT("Device", melorwyth_device);
    FIELD("Device", melorwyth_device, reading);
    FIELD("Device", melorwyth_device, connections);
    FIELD("Device", melorwyth_device, subscriptions);
    FIELD("Device", melorwyth_device, mutes);
    FIELD("Device", melorwyth_device, holders);
    FIELD("Device", melorwyth_device, mechanism);
    STRUCT("Record", melorwyth_record);
    FIELD("Record", melorwyth_record, device);
    FIELD("Record", melorwyth_record, held);
}

static void answers(void)
{
    STRUCT("Cleared", melorwyth_cleared);
    FIELD("Cleared", melorwyth_cleared, number);
    STRUCT("Opened", melorwyth_opened);
    FIELD("Opened", melorwyth_opened, record);
    FIELD("Opened", melorwyth_opened, number);
    FIELD("Opened", melorwyth_opened, connection);
    STRUCT("Closed", melorwyth_closed);
    FIELD("Closed", melorwyth_closed, record);
    FIELD("Closed", melorwyth_closed, number);
    STRUCT("Ticked", melorwyth_ticked);
    FIELD("Ticked", melorwyth_ticked, record);
    FIELD("Ticked", melorwyth_ticked, number);
    FIELD("Ticked", melorwyth_ticked, closed);
    STRUCT("Delivered", melorwyth_delivered);
    FIELD("Delivered", melorwyth_delivered, record);
    FIELD("Delivered", melorwyth_delivered, number);
    FIELD("Delivered", melorwyth_delivered, kind);
    FIELD("Delivered", melorwyth_delivered, fault);
    FIELD("Delivered", melorwyth_delivered, taken);
    FIELD("Delivered", melorwyth_delivered, length);
    STRUCT("Taken", melorwyth_taken);
    FIELD("Taken", melorwyth_taken, record);
    FIELD("Taken", melorwyth_taken, number);
    FIELD("Taken", melorwyth_taken, kind);
    FIELD("Taken", melorwyth_taken, connection);
    FIELD("Taken", melorwyth_taken, length);
    STRUCT("Reset", melorwyth_reset);
    FIELD("Reset", melorwyth_reset, record);
    FIELD("Reset", melorwyth_reset, number);
    FIELD("Reset", melorwyth_reset, reset);
}

static void messages(void)
{
    STRUCT("Reading", melorwyth_reading);
    FIELD("Reading", melorwyth_reading, number);
    FIELD("Reading", melorwyth_reading, fault);
    FIELD("Reading", melorwyth_reading, kind);
    FIELD("Reading", melorwyth_reading, count);
    FIELD("Reading", melorwyth_reading, form);
    FIELD("Reading", melorwyth_reading, value);
    FIELD("Reading", melorwyth_reading, length);
    STRUCT("Entry", melorwyth_entry);
    FIELD("Entry", melorwyth_entry, number);
    FIELD("Entry", melorwyth_entry, fault);
    FIELD("Entry", melorwyth_entry, kind);
    FIELD("Entry", melorwyth_entry, handle);
    FIELD("Entry", melorwyth_entry, target);
    FIELD("Entry", melorwyth_entry, level);
    FIELD("Entry", melorwyth_entry, index);
    FIELD("Entry", melorwyth_entry, count);
    FIELD("Entry", melorwyth_entry, status);
    FIELD("Entry", melorwyth_entry, context_count);
    FIELD("Entry", melorwyth_entry, emitter);
    FIELD("Entry", melorwyth_entry, event_level);
    FIELD("Entry", melorwyth_entry, event_index);
    STRUCT("Part", melorwyth_part);
    FIELD("Part", melorwyth_part, start);
    FIELD("Part", melorwyth_part, length);
    STRUCT("Written", melorwyth_written);
    FIELD("Written", melorwyth_written, number);
    FIELD("Written", melorwyth_written, fault);
    FIELD("Written", melorwyth_written, length);
}

int main(void)
{
    record();
    answers();
    messages();
    return 0;
}
