/* Included behind the record, area, message and output that it uses. */
/* Asks for one thing; the status of the reply. */
static unsigned ask(uint8_t n, uint32_t target, uint32_t method, uint8_t count, const uint8_t *parameters,
                    size_t length)
{
    size_t whole = command(message, 7, target, method, count, parameters, length);
    melorwyth_delivered d = melorwyth_deliver(record, area, sizeof area, n, message, whole, output, sizeof output);
    record = d.record;
    expect("delivery", d.number, MELORWYTH_DONE);
    expect("the reply's length", d.length, 20);
    return melorwyth_read_entry(output, d.length, 0).status;
}
