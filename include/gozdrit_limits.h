/* How much packets hold, as crates/rtpwire/src/limits.rt has it. tools/limits writes this. */
#ifndef GOZDRIT_LIMITS_H
#define GOZDRIT_LIMITS_H

#define GOZDRIT_MAX_PAYLOAD 1200       /* octets of a payload: enough room for gozdrit_play */
#define GOZDRIT_MAX_CSRCS 15           /* CSRC identifiers */
#define GOZDRIT_MAX_EXTENSION_WORDS 16 /* words of a header extension */
#define GOZDRIT_MAX_DATAGRAM 1600      /* octets of a datagram: enough room for gozdrit_send and gozdrit_retransmit */

#endif
