/* Proofs that a chunk is in a committed file, checked by SHA-256. The library is proved; it takes no memory and calls nothing. */
#ifndef RAF_PROOF_CHECK_H
#define RAF_PROOF_CHECK_H

#include <stddef.h>
#include <stdint.h>

#ifdef __cplusplus
extern "C" {
#endif

/* What raf_proof_check answers. */
enum {
    RAF_PROOF_ACCEPTED = 1,      /* the proof shows that the chunk is in the file */
    RAF_PROOF_REFUSED = 0,       /* it is a proof, and doesn't show it */
    RAF_PROOF_NONE = -1,         /* the bytes are no proof */
    RAF_PROOF_WRONG_LENGTH = -2, /* the commitment hasn't 32 bytes, or the chunk has more than 2^60 */
};

/* Whether the bytes of a proof show that a chunk is in the file with this commitment. The bytes may be any bytes from anywhere.
   Each pointer isn't null, not even where its length is 0, and points to that many bytes, which nobody writes during the call. */
int32_t raf_proof_check(
    const uint8_t *commitment, size_t commitment_len,
    const uint8_t *chunk, size_t chunk_len,
    const uint8_t *proof, size_t proof_len);

#ifdef __cplusplus
}
#endif

#endif
