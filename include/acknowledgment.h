/*
 * The acknowledgment of one X12 interchange, by two functions:
 *
 *   x12_acknowledge              answers its functional groups, up to 16, with
 *                                a 997 each, in one response
 *   x12_acknowledge_interchange  answers its envelope, with a TA1, where the
 *                                partner asks for it: ISA14 is 1
 *
 * Each writes a whole interchange, or returns the number of a refusal.
 *
 * So that partners learn that an envelope failed, call the second for every
 * interchange; it returns 15 where the partner does not ask. Call the first for
 * every interchange that no TA1 rejects. The two agree: where a TA1 is written,
 * it says R exactly where x12_acknowledge, given numbers that are right, refuses
 * with 6, 7 or 8. So 997s are only written where a TA1 would say A. Give each
 * response that you send a control number of its own.
 *
 * Link libacknowledgment.a (scripts/archive makes it) and nothing else but the
 * C library, of which memcpy and memset are used.
 */
#ifndef ACKNOWLEDGMENT_H
#define ACKNOWLEDGMENT_H

#include <stddef.h>
#include <stdint.h>

#ifdef __cplusplus
extern "C" {
#endif

/*
 * What both functions share.
 *
 *   interchange  from the first byte of ISA to the terminator of IEA
 *   response     the buffer that the response is written to
 *   date         of the response, as the number CCYYMMDD: 20240315; a day of
 *                the Gregorian calendar
 *   time         of the response, as the number HHMM: 930 is half past nine
 *   control      number of the response, 1 to 999999999
 *
 * Any bytes, any lengths and any numbers may be given; what is wrong with them
 * is told by the number that comes back:
 *
 *   0      answered. The response is the first *length bytes of the buffer;
 *          every byte after them is as lent.
 *   14     the response does not fit. *length is the length that it needs and
 *          the buffer is as lent: call again with a longer one.
 *   other  refused. *length is 0 and the buffer is as lent.
 *
 *    1  the date is no day, or time or control number is out of range
 *    2  the interchange has under 106 or over 65536 bytes
 *    3  it does not start with ISA and its separators
 *    4  two delimiters are equal, or one is a letter, a digit or a space
 *    5  a field of ISA is wrong
 *
 * The delimiters are the element separator, the component separator, the segment
 * terminator and, where ISA12 is five digits of value 402 or more and ISA11 is
 * not U, ISA11 as the repetition separator. 5 does not look at ISA11 then, and
 * no other field of ISA may have that byte. A response has the first three of
 * them; its ISA11 is U.
 *
 * Each function has more numbers of its own, below. It tests in the order in
 * which they are listed, 14 last, and returns the first that applies.
 *
 * The caller sees to this:
 *
 *   - `interchange` points to interchange_length bytes that can be read,
 *     `response` to response_length bytes that can be written, and `length`
 *     to a size_t.
 *   - No pointer is null, not even beside a length of 0.
 *   - The interchange, the buffer and *length do not overlap, and nothing else
 *     writes to them during the call.
 *
 * A call allocates nothing, keeps nothing and reads nothing but what it is
 * lent: threads may call at the same time, each with a buffer of its own. The
 * interchange is not changed. The time grows with the length of the interchange
 * (docs/PERFORMANCE.md).
 */

/*
 * Answers each group with a 997, whatever ISA14 is. The response has one group
 * of them, in the order of the groups: ST02 and SE02 are 0001 for the first, and
 * go up to 0016; GE01 is their number. Its GS02 and GS03 are GS03 and GS02 of
 * the first group. But for ST02 and SE02 each 997 has the bytes that its group
 * would get alone in its interchange.
 *
 * An AK4 with code 4, 5, 7, 8, 9 or 10 shows the first 99 bytes of the element
 * as received, unless the element has a byte that is not valid. No element of
 * the tables may repeat: one with the repetition separator in it has code 12,
 * and is not shown.
 *
 * Refuses with 1 to 5, and then with the numbers below. 9 to 13 are tested on one
 * group before the next; a group that is refused refuses the interchange.
 *
 *    6  the last byte is not the segment terminator
 *    7  ISA, GS, GE and IEA are not in their places: between ISA and IEA stand
 *       1 to 16 whole groups and nothing else; the last GE may be missing
 *    8  IEA does not have two elements, IEA01 is not the number of groups, or
 *       IEA02 is not ISA13
 *    9  GS of a group is wrong
 *   10  a group is itself an acknowledgment
 *   11  a segment of a group lies outside every transaction set
 *   12  a group has no transaction set
 *   13  ST01 or ST02 of a transaction set is wrong
 *   14  the response does not fit
 *
 * A call takes less than 70 KiB of stack (as measured on x86-64).
 */
uint32_t x12_acknowledge(const uint8_t *interchange, size_t interchange_length,
                         uint8_t *response, size_t response_length,
                         uint32_t date, uint32_t time, uint32_t control,
                         size_t *length);

/*
 * Answers the envelope with a TA1. The response has 154 bytes, always: ISA, TA1
 * and IEA. TA104, at offset 132, is A or R, and TA105, from offset 134 on, is
 * the note code. What fails tests 6 to 8 is no refusal here:
 *
 *   A 000  the envelope is right. What the groups hold is not looked at.
 *   R 023  the last byte is not the segment terminator
 *   R 022  ISA, GS, GE and IEA are not in their places, there are more than 16
 *          groups, or IEA does not have two elements
 *   R 001  IEA02 is not ISA13
 *   R 021  IEA01 is not the number of groups in one to five digits
 *
 * Of several faults the first in this list is told. TA101, TA102 and TA103 are
 * ISA13, ISA09 and ISA10 as received.
 *
 * Refuses with 1 to 5, and then:
 *
 *   15  ISA14 is not 1
 *   14  the response does not fit: the buffer has less than 154 bytes
 *
 * A call takes less than 2 KiB of stack (as measured on x86-64).
 */
uint32_t x12_acknowledge_interchange(const uint8_t *interchange,
                                     size_t interchange_length,
                                     uint8_t *response, size_t response_length,
                                     uint32_t date, uint32_t time,
                                     uint32_t control, size_t *length);

#ifdef __cplusplus
}
#endif

#endif
