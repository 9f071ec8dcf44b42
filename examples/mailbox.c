/*
 * mailbox FILE: answers the exchange in a file as a mailbox does. A partner who
 * asks for it gets a TA1. Unless that rejects his interchange, the 997s follow.
 */
#include "acknowledgment.h"
#include "exchange.h"

const char program[] = "mailbox";

/* Where the verdict stands in a response with a TA1: A or R. */
enum { TA104 = 132 };

int main(int argc, char **argv)
{
    static struct exchange exchange;
    static uint8_t response[RESPONSE];
    size_t length;

    read_exchange(&exchange, argc, argv);
    uint32_t ta1 = x12_acknowledge_interchange(exchange.interchange, exchange.length, response, RESPONSE,
                                               exchange.date, exchange.time, exchange.control, &length);
    print_answer(ta1, response, length);
    if (ta1 == 0) {
        if (response[TA104] == 'R')
            return EXIT_SUCCESS;
        /* Its control number is used. The 997s have the next, and after the last comes the first. */
        exchange.control = exchange.control % 999999999 + 1;
    }

    uint32_t groups = x12_acknowledge(exchange.interchange, exchange.length, response, RESPONSE,
                                      exchange.date, exchange.time, exchange.control, &length);
    print_answer(groups, response, length);
    return ta1 == 0 || groups == 0 ? EXIT_SUCCESS : EXIT_FAILURE;
}
