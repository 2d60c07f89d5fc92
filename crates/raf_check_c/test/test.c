/* Calls raf_proof_check as a program in C does: exits with 0, or tells the first answer that is wrong. */
#include "raf_proof_check.h"
#include <stdio.h>
#include <stdlib.h>
#include <string.h>

/* A file of 80 bytes, byte i of it 7 i + 2, in chunks of 16, of which there may be 8, and its id, byte i of it 29 i + 3, modulo 256.
   Its commitment and the siblings of chunk 2 are those of an independent program. */
static const uint8_t commitment[32] = {
    0x11, 0x29, 0x8a, 0x9e, 0x54, 0x3a, 0xbe, 0x32, 0x63, 0xa7, 0xe8, 0xc9, 0x09, 0x1b, 0xde, 0x3d,
    0x38, 0x0a, 0xf5, 0xf8, 0x73, 0x7f, 0xc5, 0x6e, 0x7a, 0x69, 0x99, 0xb8, 0x13, 0x56, 0xc3, 0x05,
};
static const uint8_t siblings[96] = {
    0xeb, 0xfe, 0x7e, 0x68, 0x1d, 0xa2, 0xdc, 0xa4, 0xe6, 0x07, 0xa2, 0xc3, 0xb9, 0xd5, 0xe1, 0xf8,
    0x39, 0x8c, 0x6a, 0x50, 0xfb, 0x63, 0x7c, 0x21, 0x73, 0x32, 0x34, 0x0e, 0x2c, 0x4d, 0x5f, 0x22,
    0xe5, 0x51, 0x06, 0xad, 0x9c, 0xe1, 0x95, 0xad, 0xfd, 0x25, 0x57, 0x68, 0x41, 0xcb, 0x62, 0x91,
    0x4a, 0xd8, 0x56, 0x5a, 0x11, 0x59, 0x72, 0x97, 0x84, 0x77, 0xac, 0x1a, 0xe5, 0xe7, 0xdc, 0x2f,
    0x6d, 0x9e, 0xad, 0x44, 0xfb, 0x0f, 0x1c, 0x42, 0x81, 0x9d, 0x8c, 0x2d, 0x73, 0xa3, 0x24, 0xf5,
    0x92, 0x63, 0x54, 0xfd, 0xac, 0xce, 0xef, 0xcb, 0x2c, 0x86, 0xd9, 0x66, 0x42, 0x5e, 0xd3, 0x46,
};

/* The same of the first 5 bytes, where there may be one chunk: no siblings. */
static const uint8_t commitment_of_five[32] = {
    0xa8, 0x55, 0x57, 0x6e, 0x31, 0xd1, 0x69, 0xcb, 0xd0, 0x78, 0xd7, 0x9f, 0x2d, 0x0e, 0xb3, 0xa5,
    0xbe, 0x34, 0x81, 0xc6, 0x9a, 0x74, 0x0b, 0xc7, 0x0d, 0xf2, 0x6f, 0x91, 0x75, 0xf2, 0xa3, 0x2f,
};

static uint8_t text[80];
static uint8_t proof[150];
static int calls = 0;

/* The 53 bytes before the siblings. */
static void write_front(uint8_t index, uint8_t size, uint8_t height) {
    memset(proof, 0, 53);
    proof[0] = 1;
    proof[1] = index;
    proof[9] = size;
    for (int i = 0; i < 32; i++) proof[17 + i] = (uint8_t)(29 * i + 3);
    proof[49] = height;
}

static void answers(int32_t answer, int32_t wanted, const char *what, int number) {
    calls++;
    if (answer == wanted) return;
    printf("%s %d: %d, not %d\n", what, number, (int)answer, (int)wanted);
    exit(1);
}

/* What becomes of a proof of chunk 2 in a tree of height 3 with this byte changed by 1: of another version, of another height or of an
   index past the tree it is none. */
static int32_t changed_at(int at) {
    return at == 0 || (2 <= at && at <= 8) || (49 <= at && at <= 52) ? RAF_PROOF_NONE : RAF_PROOF_REFUSED;
}

int main(void) {
    for (int i = 0; i < 80; i++) text[i] = (uint8_t)(7 * i + 2);
    const uint8_t *chunk = text + 32;

    write_front(2, 80, 3);
    memcpy(proof + 53, siblings, 96);
    answers(raf_proof_check(commitment, 32, chunk, 16, proof, 149), RAF_PROOF_ACCEPTED, "the proof", 2);
    answers(raf_proof_check(commitment, 32, chunk, 15, proof, 149), RAF_PROOF_REFUSED, "a shorter chunk", 15);
    answers(raf_proof_check(commitment, 32, text, 0, proof, 149), RAF_PROOF_REFUSED, "an empty chunk", 0);
    answers(raf_proof_check(commitment, 32, text, 16, proof, 149), RAF_PROOF_REFUSED, "another chunk", 0);
    answers(raf_proof_check(commitment_of_five, 32, chunk, 16, proof, 149), RAF_PROOF_REFUSED, "another commitment", 0);
    answers(raf_proof_check(commitment, 31, chunk, 16, proof, 149), RAF_PROOF_WRONG_LENGTH, "a commitment of", 31);
    answers(raf_proof_check(proof, 149, chunk, 16, proof, 149), RAF_PROOF_WRONG_LENGTH, "a commitment of", 149);
    for (int len = 0; len <= 150; len++) {
        int32_t wanted = len == 149 ? RAF_PROOF_ACCEPTED : RAF_PROOF_NONE;
        answers(raf_proof_check(commitment, 32, chunk, 16, proof, (size_t)len), wanted, "a proof of", len);
    }
    for (int at = 0; at < 149; at++) {
        proof[at] ^= 1;
        answers(raf_proof_check(commitment, 32, chunk, 16, proof, 149), changed_at(at), "byte", at);
        proof[at] ^= 1;
    }

    write_front(0, 5, 0);
    answers(raf_proof_check(commitment_of_five, 32, text, 5, proof, 53), RAF_PROOF_ACCEPTED, "a proof without siblings", 0);
    answers(raf_proof_check(commitment_of_five, 32, text, 4, proof, 53), RAF_PROOF_REFUSED, "a shorter chunk", 4);
    write_front(1, 5, 0);
    answers(raf_proof_check(commitment_of_five, 32, text, 5, proof, 53), RAF_PROOF_NONE, "an index past the tree", 1);

    printf("%d answers as wanted\n", calls);
    return 0;
}
