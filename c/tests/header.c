/* octseq.h alone: it needs no header before it, may be included twice, and has nothing that a compiler of C99 or C++11
 * warns of. */
#include "octseq.h"
#include "octseq.h"

/* Each macro may stand in an expression. */
extern const unsigned octseq_header_numbers[3];
const unsigned octseq_header_numbers[3] = {OCTSEQ_OK, OCTSEQ_DNS_OPCODE(0x7800u), OCTSEQ_DNS_RCODE(OCTSEQ_DNS_QR | 3u)};
extern const char octseq_header_version[];
const char octseq_header_version[] = OCTSEQ_VERSION;
