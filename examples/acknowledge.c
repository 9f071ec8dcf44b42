/*
 * acknowledge FILE: answers the exchange in a file with a 997 for each group.
 */
#include "acknowledgment.h"
#include "exchange.h"

const char program[] = "acknowledge";

int main(int argc, char **argv)
{
    static struct exchange exchange;
    static uint8_t response[RESPONSE];
    size_t length;

    read_exchange(&exchange, argc, argv);
    uint32_t number = x12_acknowledge(exchange.interchange, exchange.length, response, RESPONSE,
                                      exchange.date, exchange.time, exchange.control, &length);
    print_answer(number, response, length);
    return number == 0 ? EXIT_SUCCESS : EXIT_FAILURE;
}
