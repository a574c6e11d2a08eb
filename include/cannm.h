/*
 * The C interface of the CAN network management channel: three functions on numbers and byte strings,
 * for a host that is written in C.
 *
 *   cannm_ticks      turns a time in milliseconds into ticks of the main function
 *   cannm_pn_filter  says whether the partial network (PN) filter keeps a received PDU
 *   cannm_read_pdu   reads the two header fields of a received NM PDU
 *
 * All three are pure. What one returns depends on its arguments alone. None keeps state, allocates,
 * blocks or writes to the caller's memory, and each may be called from any thread, also while another
 * call runs. Every number is taken, whatever its value: one that makes no sense is answered by a refusal.
 *
 * A byte string comes as a pointer and a length. The caller lends that many readable bytes for the time
 * of the call, and they must not change while the call runs. A pointer may be NULL where its length is 0.
 *
 * Each function returns a struct that begins with an answer. CANNM_DONE says that the values beside it
 * are the result. Any other answer is a refusal, and then every value beside it is 0, but for the number
 * of the broken rule where the answer is CANNM_BAD_CONFIGURATION.
 *
 * Link with libcannm_c.a. The functions follow the C calling convention of x86-64 Linux.
 */
#ifndef CANNM_H
#define CANNM_H

#include <stddef.h>
#include <stdint.h>

#ifdef __cplusplus
extern "C" {
#endif

/* ---- Answers */

/* The call was done. */
#define CANNM_DONE 0u

/* A configuration rule is broken. Its number stands in `rule`; of several broken ones, the lowest. */
#define CANNM_BAD_CONFIGURATION 2u

/* A byte string does not have the length that it should have. */
#define CANNM_BAD_LENGTH 5u

/* ---- The rules that CANNM_BAD_CONFIGURATION can name */

/* Rule 1: the period of the main function is 1 to 100 ms. */
#define CANNM_RULE_PERIOD 1u

/* Rule 2: a time is at most 65,535 ms. */
#define CANNM_RULE_TIME 2u

/* Rule 6: a PDU has 1 to 8 bytes. */
#define CANNM_RULE_PDU_LENGTH 6u

/*
 * Rule 7: each header field is off, in byte 0 or in byte 1; the two are not in the same byte; one is in
 * byte 1 only if the other is in byte 0; and the PDU is long enough for those that are on.
 */
#define CANNM_RULE_HEADER 7u

/* ---- Values */

/* The position of a header field that is off: the PDU has no such field. */
#define CANNM_OFF 255u

/* Bit 6 of the control bit vector, PNI: the PDU carries partial network requests. */
#define CANNM_CBV_PNI 0x40u

/* ---- Times */

typedef struct cannm_ticks_result {
    /* CANNM_DONE or CANNM_BAD_CONFIGURATION. */
    uint32_t answer;
    /* CANNM_RULE_PERIOD or CANNM_RULE_TIME where the answer is CANNM_BAD_CONFIGURATION, else 0. */
    uint32_t rule;
    /* The number of ticks, 0 to 65,535; 0 where the call is refused. */
    uint32_t ticks;
} cannm_ticks_result;

/*
 * A time in ticks of the main function: the fewest periods that together last at least that time. A
 * period that is only begun counts in full, so at a period of 20 ms 1,010 ms are 51 ticks, 1,000 ms are
 * 50, 1 ms is 1, and 0 ms are 0.
 *
 *   period_ms   the period of the main function in milliseconds, 1 to 100
 *   time_ms     the time in milliseconds, 0 to 65,535
 *
 * Refused, in this order:
 *   CANNM_BAD_CONFIGURATION with CANNM_RULE_PERIOD   the period is outside 1 to 100
 *   CANNM_BAD_CONFIGURATION with CANNM_RULE_TIME     the time is above 65,535
 */
cannm_ticks_result cannm_ticks(uint32_t period_ms, uint32_t time_ms);

/* ---- The partial network filter */

typedef struct cannm_filter_result {
    /* CANNM_DONE or CANNM_BAD_LENGTH. */
    uint32_t answer;
    /* 1 where the PDU is kept, 0 where it is dropped; 0 where the call is refused. */
    uint32_t keep;
} cannm_filter_result;

/*
 * Whether the filter, taken as on, keeps a received PDU. It does where all messages keep the network
 * awake, or where the PDU's PNI bit is 1 and some PN byte has a bit in common with the mask byte at the
 * same place.
 *
 *   all_keep_awake      0: messages are filtered; any other number: all messages are kept
 *   cbv                 the control bit vector of the PDU, 0 where the PDU has none; only bit 6
 *                       (CANNM_CBV_PNI) is looked at, also in a number above 255
 *   pn, pn_length       the PN bytes of the PDU
 *   mask, mask_length   the mask, one byte for each PN byte
 *
 * Any two equal lengths are taken, 0 too: with no PN bytes a PDU is kept only where all messages are.
 *
 * Refused, before anything else is looked at:
 *   CANNM_BAD_LENGTH   the two lengths differ
 */
cannm_filter_result cannm_pn_filter(uint32_t all_keep_awake, uint32_t cbv, const uint8_t *pn,
                                    size_t pn_length, const uint8_t *mask, size_t mask_length);

/* ---- The header of a PDU */

typedef struct cannm_header_result {
    /* CANNM_DONE, CANNM_BAD_CONFIGURATION or CANNM_BAD_LENGTH. */
    uint32_t answer;
    /* CANNM_RULE_PDU_LENGTH or CANNM_RULE_HEADER where the answer is CANNM_BAD_CONFIGURATION, else 0. */
    uint32_t rule;
    /* The source node id, 0 to 255; 0 where the field is off or the call is refused. */
    uint32_t sni;
    /* The control bit vector, 0 to 255; 0 where the field is off or the call is refused. */
    uint32_t cbv;
} cannm_header_result;

/*
 * The source node id (SNI) and the control bit vector (CBV) of a received NM PDU.
 *
 *   length            the configured length of a PDU in bytes, 1 to 8
 *   sni_position      where the SNI stands: 0 for byte 0, 1 for byte 1, CANNM_OFF for nowhere
 *   cbv_position      where the CBV stands, said in the same way
 *   pdu, pdu_length   the bytes that were received
 *
 * Refused, in this order:
 *   CANNM_BAD_CONFIGURATION with CANNM_RULE_PDU_LENGTH   the configured length is outside 1 to 8
 *   CANNM_BAD_CONFIGURATION with CANNM_RULE_HEADER       a position is not 0, 1 or CANNM_OFF, or both
 *                                                        fields are in one byte, or one is in byte 1 and
 *                                                        the other is off, or more fields are on than the
 *                                                        configured length has bytes
 *   CANNM_BAD_LENGTH                                     not exactly `length` bytes were received
 */
cannm_header_result cannm_read_pdu(uint32_t length, uint32_t sni_position, uint32_t cbv_position,
                                   const uint8_t *pdu, size_t pdu_length);

#ifdef __cplusplus
}
#endif

#endif
