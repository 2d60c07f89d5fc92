/* The AEGIS ciphers, and the check of a proof of inclusion. The library is proved; it takes no memory, keeps no state and, of the C
   library, calls memcpy, memmove and memset alone.

   What the caller owes: each pointer isn't null, not even where its length is 0, and points to that many bytes, which nobody else reads
   or writes during the call where they are written, and nobody writes where they are read. So what a call writes overlaps nothing else
   that it is given: to work in place there are calls of their own. All else is tested inside.

   Lengths are in bytes. A tag (mac) has 16 or 32, by its length; associated data (ad), messages (m), cipher texts (c) and texts of a MAC
   have at most 2^61 - 1. A nonce (npub) is for one message under a key (k).

   Sections are those of the AEGIS specification (draft-irtf-cfrg-aegis-aead). */
#ifndef SEYVONDU_H
#define SEYVONDU_H

#include <stddef.h>
#include <stdint.h>

#ifdef __cplusplus
extern "C" {
#endif

/* What each call of a cipher answers. Beware: libaegis answers 0 for success and -1 for a wrong tag. */
enum {
    SEYVONDU_DONE = 1,          /* it did what it is for */
    SEYVONDU_WRONG_TAG = 0,     /* no message has this cipher text and tag, or the text has another tag */
    SEYVONDU_WRONG_LENGTH = -1, /* a length doesn't fit, and nothing was written */
};

/* AEGIS-128L: keys and nonces of 16 bytes ("The AEGIS-128L Algorithm"). */

/* Seals m into c, which has as many bytes, and its tag into mac ("Authenticated Encryption"): DONE or WRONG_LENGTH. */
int32_t aegis128l_encrypt_detached(
    uint8_t *c, size_t c_len, uint8_t *mac, size_t mac_len, const uint8_t *m, size_t m_len,
    const uint8_t *ad, size_t ad_len, const uint8_t *npub, size_t npub_len, const uint8_t *k, size_t k_len);

/* The same in place: mc holds the message before, and the cipher text after. */
int32_t aegis128l_encrypt_detached_in_place(
    uint8_t *mc, size_t mc_len, uint8_t *mac, size_t mac_len,
    const uint8_t *ad, size_t ad_len, const uint8_t *npub, size_t npub_len, const uint8_t *k, size_t k_len);

/* Unseals c into m, which has as many bytes ("Authenticated Decryption"): DONE; WRONG_TAG, and then every byte of m is 0xaa; or
   WRONG_LENGTH. */
int32_t aegis128l_decrypt_detached(
    uint8_t *m, size_t m_len, const uint8_t *c, size_t c_len, const uint8_t *mac, size_t mac_len,
    const uint8_t *ad, size_t ad_len, const uint8_t *npub, size_t npub_len, const uint8_t *k, size_t k_len);

/* The same in place: mc holds the cipher text before, and the message after. */
int32_t aegis128l_decrypt_detached_in_place(
    uint8_t *mc, size_t mc_len, const uint8_t *mac, size_t mac_len,
    const uint8_t *ad, size_t ad_len, const uint8_t *npub, size_t npub_len, const uint8_t *k, size_t k_len);

/* Writes the tag of a text into mac (the specification's, "AEGIS as a Message Authentication Code"): DONE or WRONG_LENGTH. */
int32_t aegis128l_mac(
    uint8_t *mac, size_t mac_len, const uint8_t *text, size_t text_len,
    const uint8_t *npub, size_t npub_len, const uint8_t *k, size_t k_len);

/* Compares mac with that tag: DONE, WRONG_TAG or WRONG_LENGTH. Constant time is not claimed. */
int32_t aegis128l_mac_verify(
    const uint8_t *mac, size_t mac_len, const uint8_t *text, size_t text_len,
    const uint8_t *npub, size_t npub_len, const uint8_t *k, size_t k_len);

/* Adds the keystream to mc, of any length; twice gives mc back ("AEGIS as a Stream Cipher"): DONE or WRONG_LENGTH. */
int32_t aegis128l_stream_xor_in_place(
    uint8_t *mc, size_t mc_len, const uint8_t *npub, size_t npub_len, const uint8_t *k, size_t k_len);

/* AEGIS-128X2: keys and nonces of 16 bytes ("Parallel Modes"). */

/* Seals m into c, which has as many bytes, and its tag into mac ("Authenticated Encryption"): DONE or WRONG_LENGTH. */
int32_t aegis128x2_encrypt_detached(
    uint8_t *c, size_t c_len, uint8_t *mac, size_t mac_len, const uint8_t *m, size_t m_len,
    const uint8_t *ad, size_t ad_len, const uint8_t *npub, size_t npub_len, const uint8_t *k, size_t k_len);

/* The same in place: mc holds the message before, and the cipher text after. */
int32_t aegis128x2_encrypt_detached_in_place(
    uint8_t *mc, size_t mc_len, uint8_t *mac, size_t mac_len,
    const uint8_t *ad, size_t ad_len, const uint8_t *npub, size_t npub_len, const uint8_t *k, size_t k_len);

/* Unseals c into m, which has as many bytes ("Authenticated Decryption"): DONE; WRONG_TAG, and then every byte of m is 0xaa; or
   WRONG_LENGTH. */
int32_t aegis128x2_decrypt_detached(
    uint8_t *m, size_t m_len, const uint8_t *c, size_t c_len, const uint8_t *mac, size_t mac_len,
    const uint8_t *ad, size_t ad_len, const uint8_t *npub, size_t npub_len, const uint8_t *k, size_t k_len);

/* The same in place: mc holds the cipher text before, and the message after. */
int32_t aegis128x2_decrypt_detached_in_place(
    uint8_t *mc, size_t mc_len, const uint8_t *mac, size_t mac_len,
    const uint8_t *ad, size_t ad_len, const uint8_t *npub, size_t npub_len, const uint8_t *k, size_t k_len);

/* Writes the tag of a text into mac (this project's own, not the specification's): DONE or WRONG_LENGTH. */
int32_t aegis128x2_mac(
    uint8_t *mac, size_t mac_len, const uint8_t *text, size_t text_len,
    const uint8_t *npub, size_t npub_len, const uint8_t *k, size_t k_len);

/* Compares mac with that tag: DONE, WRONG_TAG or WRONG_LENGTH. Constant time is not claimed. */
int32_t aegis128x2_mac_verify(
    const uint8_t *mac, size_t mac_len, const uint8_t *text, size_t text_len,
    const uint8_t *npub, size_t npub_len, const uint8_t *k, size_t k_len);

/* Adds the keystream to mc, of any length; twice gives mc back ("AEGIS as a Stream Cipher"): DONE or WRONG_LENGTH. */
int32_t aegis128x2_stream_xor_in_place(
    uint8_t *mc, size_t mc_len, const uint8_t *npub, size_t npub_len, const uint8_t *k, size_t k_len);

/* AEGIS-128X4: keys and nonces of 16 bytes ("Parallel Modes"). */

/* Seals m into c, which has as many bytes, and its tag into mac ("Authenticated Encryption"): DONE or WRONG_LENGTH. */
int32_t aegis128x4_encrypt_detached(
    uint8_t *c, size_t c_len, uint8_t *mac, size_t mac_len, const uint8_t *m, size_t m_len,
    const uint8_t *ad, size_t ad_len, const uint8_t *npub, size_t npub_len, const uint8_t *k, size_t k_len);

/* The same in place: mc holds the message before, and the cipher text after. */
int32_t aegis128x4_encrypt_detached_in_place(
    uint8_t *mc, size_t mc_len, uint8_t *mac, size_t mac_len,
    const uint8_t *ad, size_t ad_len, const uint8_t *npub, size_t npub_len, const uint8_t *k, size_t k_len);

/* Unseals c into m, which has as many bytes ("Authenticated Decryption"): DONE; WRONG_TAG, and then every byte of m is 0xaa; or
   WRONG_LENGTH. */
int32_t aegis128x4_decrypt_detached(
    uint8_t *m, size_t m_len, const uint8_t *c, size_t c_len, const uint8_t *mac, size_t mac_len,
    const uint8_t *ad, size_t ad_len, const uint8_t *npub, size_t npub_len, const uint8_t *k, size_t k_len);

/* The same in place: mc holds the cipher text before, and the message after. */
int32_t aegis128x4_decrypt_detached_in_place(
    uint8_t *mc, size_t mc_len, const uint8_t *mac, size_t mac_len,
    const uint8_t *ad, size_t ad_len, const uint8_t *npub, size_t npub_len, const uint8_t *k, size_t k_len);

/* Writes the tag of a text into mac (this project's own, not the specification's): DONE or WRONG_LENGTH. */
int32_t aegis128x4_mac(
    uint8_t *mac, size_t mac_len, const uint8_t *text, size_t text_len,
    const uint8_t *npub, size_t npub_len, const uint8_t *k, size_t k_len);

/* Compares mac with that tag: DONE, WRONG_TAG or WRONG_LENGTH. Constant time is not claimed. */
int32_t aegis128x4_mac_verify(
    const uint8_t *mac, size_t mac_len, const uint8_t *text, size_t text_len,
    const uint8_t *npub, size_t npub_len, const uint8_t *k, size_t k_len);

/* Adds the keystream to mc, of any length; twice gives mc back ("AEGIS as a Stream Cipher"): DONE or WRONG_LENGTH. */
int32_t aegis128x4_stream_xor_in_place(
    uint8_t *mc, size_t mc_len, const uint8_t *npub, size_t npub_len, const uint8_t *k, size_t k_len);

/* AEGIS-256: keys and nonces of 32 bytes ("The AEGIS-256 Algorithm"). */

/* Seals m into c, which has as many bytes, and its tag into mac ("Authenticated Encryption"): DONE or WRONG_LENGTH. */
int32_t aegis256_encrypt_detached(
    uint8_t *c, size_t c_len, uint8_t *mac, size_t mac_len, const uint8_t *m, size_t m_len,
    const uint8_t *ad, size_t ad_len, const uint8_t *npub, size_t npub_len, const uint8_t *k, size_t k_len);

/* The same in place: mc holds the message before, and the cipher text after. */
int32_t aegis256_encrypt_detached_in_place(
    uint8_t *mc, size_t mc_len, uint8_t *mac, size_t mac_len,
    const uint8_t *ad, size_t ad_len, const uint8_t *npub, size_t npub_len, const uint8_t *k, size_t k_len);

/* Unseals c into m, which has as many bytes ("Authenticated Decryption"): DONE; WRONG_TAG, and then every byte of m is 0xaa; or
   WRONG_LENGTH. */
int32_t aegis256_decrypt_detached(
    uint8_t *m, size_t m_len, const uint8_t *c, size_t c_len, const uint8_t *mac, size_t mac_len,
    const uint8_t *ad, size_t ad_len, const uint8_t *npub, size_t npub_len, const uint8_t *k, size_t k_len);

/* The same in place: mc holds the cipher text before, and the message after. */
int32_t aegis256_decrypt_detached_in_place(
    uint8_t *mc, size_t mc_len, const uint8_t *mac, size_t mac_len,
    const uint8_t *ad, size_t ad_len, const uint8_t *npub, size_t npub_len, const uint8_t *k, size_t k_len);

/* Writes the tag of a text into mac (the specification's, "AEGIS as a Message Authentication Code"): DONE or WRONG_LENGTH. */
int32_t aegis256_mac(
    uint8_t *mac, size_t mac_len, const uint8_t *text, size_t text_len,
    const uint8_t *npub, size_t npub_len, const uint8_t *k, size_t k_len);

/* Compares mac with that tag: DONE, WRONG_TAG or WRONG_LENGTH. Constant time is not claimed. */
int32_t aegis256_mac_verify(
    const uint8_t *mac, size_t mac_len, const uint8_t *text, size_t text_len,
    const uint8_t *npub, size_t npub_len, const uint8_t *k, size_t k_len);

/* Adds the keystream to mc, of any length; twice gives mc back ("AEGIS as a Stream Cipher"): DONE or WRONG_LENGTH. */
int32_t aegis256_stream_xor_in_place(
    uint8_t *mc, size_t mc_len, const uint8_t *npub, size_t npub_len, const uint8_t *k, size_t k_len);

/* AEGIS-256X2: keys and nonces of 32 bytes ("Parallel Modes"). */

/* Seals m into c, which has as many bytes, and its tag into mac ("Authenticated Encryption"): DONE or WRONG_LENGTH. */
int32_t aegis256x2_encrypt_detached(
    uint8_t *c, size_t c_len, uint8_t *mac, size_t mac_len, const uint8_t *m, size_t m_len,
    const uint8_t *ad, size_t ad_len, const uint8_t *npub, size_t npub_len, const uint8_t *k, size_t k_len);

/* The same in place: mc holds the message before, and the cipher text after. */
int32_t aegis256x2_encrypt_detached_in_place(
    uint8_t *mc, size_t mc_len, uint8_t *mac, size_t mac_len,
    const uint8_t *ad, size_t ad_len, const uint8_t *npub, size_t npub_len, const uint8_t *k, size_t k_len);

/* Unseals c into m, which has as many bytes ("Authenticated Decryption"): DONE; WRONG_TAG, and then every byte of m is 0xaa; or
   WRONG_LENGTH. */
int32_t aegis256x2_decrypt_detached(
    uint8_t *m, size_t m_len, const uint8_t *c, size_t c_len, const uint8_t *mac, size_t mac_len,
    const uint8_t *ad, size_t ad_len, const uint8_t *npub, size_t npub_len, const uint8_t *k, size_t k_len);

/* The same in place: mc holds the cipher text before, and the message after. */
int32_t aegis256x2_decrypt_detached_in_place(
    uint8_t *mc, size_t mc_len, const uint8_t *mac, size_t mac_len,
    const uint8_t *ad, size_t ad_len, const uint8_t *npub, size_t npub_len, const uint8_t *k, size_t k_len);

/* Writes the tag of a text into mac (this project's own, not the specification's): DONE or WRONG_LENGTH. */
int32_t aegis256x2_mac(
    uint8_t *mac, size_t mac_len, const uint8_t *text, size_t text_len,
    const uint8_t *npub, size_t npub_len, const uint8_t *k, size_t k_len);

/* Compares mac with that tag: DONE, WRONG_TAG or WRONG_LENGTH. Constant time is not claimed. */
int32_t aegis256x2_mac_verify(
    const uint8_t *mac, size_t mac_len, const uint8_t *text, size_t text_len,
    const uint8_t *npub, size_t npub_len, const uint8_t *k, size_t k_len);

/* Adds the keystream to mc, of any length; twice gives mc back ("AEGIS as a Stream Cipher"): DONE or WRONG_LENGTH. */
int32_t aegis256x2_stream_xor_in_place(
    uint8_t *mc, size_t mc_len, const uint8_t *npub, size_t npub_len, const uint8_t *k, size_t k_len);

/* AEGIS-256X4: keys and nonces of 32 bytes ("Parallel Modes"). */

/* Seals m into c, which has as many bytes, and its tag into mac ("Authenticated Encryption"): DONE or WRONG_LENGTH. */
int32_t aegis256x4_encrypt_detached(
    uint8_t *c, size_t c_len, uint8_t *mac, size_t mac_len, const uint8_t *m, size_t m_len,
    const uint8_t *ad, size_t ad_len, const uint8_t *npub, size_t npub_len, const uint8_t *k, size_t k_len);

/* The same in place: mc holds the message before, and the cipher text after. */
int32_t aegis256x4_encrypt_detached_in_place(
    uint8_t *mc, size_t mc_len, uint8_t *mac, size_t mac_len,
    const uint8_t *ad, size_t ad_len, const uint8_t *npub, size_t npub_len, const uint8_t *k, size_t k_len);

/* Unseals c into m, which has as many bytes ("Authenticated Decryption"): DONE; WRONG_TAG, and then every byte of m is 0xaa; or
   WRONG_LENGTH. */
int32_t aegis256x4_decrypt_detached(
    uint8_t *m, size_t m_len, const uint8_t *c, size_t c_len, const uint8_t *mac, size_t mac_len,
    const uint8_t *ad, size_t ad_len, const uint8_t *npub, size_t npub_len, const uint8_t *k, size_t k_len);

/* The same in place: mc holds the cipher text before, and the message after. */
int32_t aegis256x4_decrypt_detached_in_place(
    uint8_t *mc, size_t mc_len, const uint8_t *mac, size_t mac_len,
    const uint8_t *ad, size_t ad_len, const uint8_t *npub, size_t npub_len, const uint8_t *k, size_t k_len);

/* Writes the tag of a text into mac (this project's own, not the specification's): DONE or WRONG_LENGTH. */
int32_t aegis256x4_mac(
    uint8_t *mac, size_t mac_len, const uint8_t *text, size_t text_len,
    const uint8_t *npub, size_t npub_len, const uint8_t *k, size_t k_len);

/* Compares mac with that tag: DONE, WRONG_TAG or WRONG_LENGTH. Constant time is not claimed. */
int32_t aegis256x4_mac_verify(
    const uint8_t *mac, size_t mac_len, const uint8_t *text, size_t text_len,
    const uint8_t *npub, size_t npub_len, const uint8_t *k, size_t k_len);

/* Adds the keystream to mc, of any length; twice gives mc back ("AEGIS as a Stream Cipher"): DONE or WRONG_LENGTH. */
int32_t aegis256x4_stream_xor_in_place(
    uint8_t *mc, size_t mc_len, const uint8_t *npub, size_t npub_len, const uint8_t *k, size_t k_len);

/* The check of a proof that a chunk is in a committed file. raf_proof_check.h declares it too, and both may be included. */
#ifndef RAF_PROOF_CHECK_H
#define RAF_PROOF_CHECK_H

/* What raf_proof_check answers. */
enum {
    RAF_PROOF_ACCEPTED = 1,      /* the proof shows that the chunk is in the file */
    RAF_PROOF_REFUSED = 0,       /* it is a proof, and doesn't show it */
    RAF_PROOF_NONE = -1,         /* the bytes are no proof, which a wrong length of theirs is a case of */
    RAF_PROOF_WRONG_LENGTH = -2, /* the commitment hasn't 32 bytes, or the chunk has more than 2^60 */
};

/* Whether the bytes of a proof show that a chunk is in the file with this commitment by SHA-256 (FORMAT, of this project). */
int32_t raf_proof_check(
    const uint8_t *commitment, size_t commitment_len, const uint8_t *chunk, size_t chunk_len, const uint8_t *proof, size_t proof_len);

#endif

#ifdef __cplusplus
}
#endif

#endif
