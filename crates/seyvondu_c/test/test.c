/* Calls the library as a program in C does, over the lines of vectors.txt: exits with 0, or tells the first answer that is wrong. */
#include "seyvondu.h"
#include <stdio.h>
#include <stdlib.h>
#include <string.h>

enum { MOST = 1024, GUARD = 64 };

/* Bytes with a guard on both sides. */
typedef struct {
    size_t len;
    uint8_t room[GUARD + MOST + GUARD];
} bytes;

typedef struct {
    const char *name;
    size_t key_len;
    int32_t (*seal)(uint8_t *, size_t, uint8_t *, size_t, const uint8_t *, size_t, const uint8_t *, size_t, const uint8_t *, size_t,
                    const uint8_t *, size_t);
    int32_t (*seal_in_place)(uint8_t *, size_t, uint8_t *, size_t, const uint8_t *, size_t, const uint8_t *, size_t, const uint8_t *, size_t);
    int32_t (*open)(uint8_t *, size_t, const uint8_t *, size_t, const uint8_t *, size_t, const uint8_t *, size_t, const uint8_t *, size_t,
                    const uint8_t *, size_t);
    int32_t (*open_in_place)(uint8_t *, size_t, const uint8_t *, size_t, const uint8_t *, size_t, const uint8_t *, size_t, const uint8_t *,
                             size_t);
    int32_t (*mac)(uint8_t *, size_t, const uint8_t *, size_t, const uint8_t *, size_t, const uint8_t *, size_t);
    int32_t (*verify)(const uint8_t *, size_t, const uint8_t *, size_t, const uint8_t *, size_t, const uint8_t *, size_t);
    int32_t (*stream)(uint8_t *, size_t, const uint8_t *, size_t, const uint8_t *, size_t);
} cipher;

#define CIPHER(name, key_len)                                                                                                             \
    {#name, key_len, name##_encrypt_detached, name##_encrypt_detached_in_place, name##_decrypt_detached, name##_decrypt_detached_in_place, \
     name##_mac, name##_mac_verify, name##_stream_xor_in_place}

static const cipher ciphers[] = {
    CIPHER(aegis128l, 16), CIPHER(aegis128x2, 16), CIPHER(aegis128x4, 16),
    CIPHER(aegis256, 32),  CIPHER(aegis256x2, 32), CIPHER(aegis256x4, 32),
};

static int line_number = 0, calls = 0;

static void fail(const char *what) {
    printf("line %d: %s\n", line_number, what);
    exit(1);
}

static void answers(int32_t answer, int32_t wanted, const char *what) {
    calls++;
    if (answer != wanted) fail(what);
}

static uint8_t *at(bytes *b) { return b->room + GUARD; }

static void fill(bytes *b, size_t len, uint8_t byte) {
    memset(b->room, 0x5c, sizeof b->room);
    memset(at(b), byte, len);
    b->len = len;
}

static void same(bytes *b, bytes *wanted, const char *what) {
    if (b->len != wanted->len || memcmp(b->room, wanted->room, sizeof b->room) != 0) fail(what);
}

/* The bytes that hex digits say, - being none. */
static void read_hex(bytes *b, const char *word) {
    size_t len = strcmp(word, "-") == 0 ? 0 : strlen(word) / 2;
    if (len > MOST) fail("too long");
    fill(b, len, 0);
    for (size_t i = 0; i < len; i++) {
        char digits[3] = {word[2 * i], word[2 * i + 1], 0};
        at(b)[i] = (uint8_t)strtoul(digits, NULL, 16);
    }
}

/* Calls over whole arguments. */
static int32_t seal(const cipher *x, bytes *c, bytes *t, bytes *m, bytes *ad, bytes *n, bytes *k) {
    return x->seal(at(c), c->len, at(t), t->len, at(m), m->len, at(ad), ad->len, at(n), n->len, at(k), k->len);
}

static int32_t seal_in_place(const cipher *x, bytes *mc, bytes *t, bytes *ad, bytes *n, bytes *k) {
    return x->seal_in_place(at(mc), mc->len, at(t), t->len, at(ad), ad->len, at(n), n->len, at(k), k->len);
}

static int32_t open_(const cipher *x, bytes *m, bytes *c, bytes *t, bytes *ad, bytes *n, bytes *k) {
    return x->open(at(m), m->len, at(c), c->len, at(t), t->len, at(ad), ad->len, at(n), n->len, at(k), k->len);
}

static int32_t open_in_place(const cipher *x, bytes *mc, bytes *t, bytes *ad, bytes *n, bytes *k) {
    return x->open_in_place(at(mc), mc->len, at(t), t->len, at(ad), ad->len, at(n), n->len, at(k), k->len);
}

static int32_t mac(const cipher *x, bytes *t, bytes *text, bytes *n, bytes *k) {
    return x->mac(at(t), t->len, at(text), text->len, at(n), n->len, at(k), k->len);
}

static int32_t verify(const cipher *x, bytes *t, bytes *text, bytes *n, bytes *k) {
    return x->verify(at(t), t->len, at(text), text->len, at(n), n->len, at(k), k->len);
}

static int32_t stream(const cipher *x, bytes *mc, bytes *n, bytes *k) {
    return x->stream(at(mc), mc->len, at(n), n->len, at(k), k->len);
}

/* Every call of sealing and unsealing with these arguments, of which one has a wrong length: nothing is written. */
static void misfit(const cipher *x, bytes *k, bytes *n, bytes *ad, bytes *text, bytes *room, bytes *t, const char *what) {
    bytes room_was = *room, tag_was = *t, text_was = *text;
    answers(seal(x, room, t, text, ad, n, k), SEYVONDU_WRONG_LENGTH, what);
    answers(open_(x, room, text, t, ad, n, k), SEYVONDU_WRONG_LENGTH, what);
    if (room->len == text->len) {
        answers(seal_in_place(x, text, t, ad, n, k), SEYVONDU_WRONG_LENGTH, what);
        answers(open_in_place(x, text, t, ad, n, k), SEYVONDU_WRONG_LENGTH, what);
        answers(mac(x, t, text, n, k), SEYVONDU_WRONG_LENGTH, what);
        answers(verify(x, t, text, n, k), SEYVONDU_WRONG_LENGTH, what);
    }
    same(room, &room_was, what);
    same(t, &tag_was, what);
    same(text, &text_was, what);
}

static void wrong_lengths(const cipher *x, bytes *k, bytes *n, bytes *ad, bytes *m, bytes *t) {
    bytes room, other, text = *m;
    fill(&room, m->len, 0x77);
    for (size_t len = 0; len <= 70; len++) {
        fill(&other, len, 3);
        if (len != x->key_len) {
            misfit(x, &other, n, ad, m, &room, t, "a key's length");
            misfit(x, k, &other, ad, m, &room, t, "a nonce's length");
            answers(stream(x, &text, &other, k), SEYVONDU_WRONG_LENGTH, "a nonce's length, keystream");
            answers(stream(x, &text, n, &other), SEYVONDU_WRONG_LENGTH, "a key's length, keystream");
            same(&text, m, "a keystream under a wrong length");
        }
        if (len != 16 && len != 32) misfit(x, k, n, ad, m, &room, &other, "a tag's length");
        if (len != m->len) misfit(x, k, n, ad, m, &other, t, "a room's length");
    }
}

/* Unsealing where one bit is wrong: no message. */
static void refused(const cipher *x, bytes *k, bytes *n, bytes *ad, bytes *c, bytes *t, const char *what) {
    bytes m, erased, mc = *c;
    fill(&m, c->len, 0x77);
    fill(&erased, c->len, 0xaa);
    answers(open_(x, &m, c, t, ad, n, k), SEYVONDU_WRONG_TAG, what);
    same(&m, &erased, what);
    answers(open_in_place(x, &mc, t, ad, n, k), SEYVONDU_WRONG_TAG, what);
    same(&mc, &erased, what);
}

static void wrong_bits(const cipher *x, bytes *k, bytes *n, bytes *ad, bytes *c, bytes *t) {
    bytes *parts[] = {k, n, ad, c, t};
    const char *names[] = {"a bit of the key", "a bit of the nonce", "a bit of the data", "a bit of the cipher text", "a bit of the tag"};
    for (int part = 0; part < 5; part++) {
        for (size_t i = 0; i < parts[part]->len; i++) {
            uint8_t bit = (uint8_t)(1 << (i % 8));
            at(parts[part])[i] ^= bit;
            refused(x, k, n, ad, c, t, names[part]);
            at(parts[part])[i] ^= bit;
        }
    }
}

/* The keystream is the cipher text of zeros, and twice it gives the text back. */
static void streams(const cipher *x, bytes *k, bytes *n, bytes *m) {
    bytes text = *m, key_stream, none, tag, zeros;
    fill(&none, 0, 0);
    fill(&tag, 16, 0);
    fill(&zeros, m->len, 0);
    fill(&key_stream, m->len, 0);
    answers(stream(x, &key_stream, n, k), SEYVONDU_DONE, "keystream");
    answers(seal_in_place(x, &zeros, &tag, &none, n, k), SEYVONDU_DONE, "sealed zeros");
    same(&key_stream, &zeros, "keystream");
    answers(stream(x, &text, n, k), SEYVONDU_DONE, "keystream added");
    for (size_t i = 0; i < m->len; i++) {
        if (at(&text)[i] != (at(m)[i] ^ at(&key_stream)[i])) fail("keystream added");
    }
    answers(stream(x, &text, n, k), SEYVONDU_DONE, "keystream added twice");
    same(&text, m, "keystream added twice");
}

static void seal_line(const cipher *x, bytes *k, bytes *n, bytes *ad, bytes *m, bytes *c, bytes *wanted) {
    bytes made, tag, mc = *m, text;
    fill(&made, m->len, 0x77);
    fill(&tag, wanted->len, 0x77);
    answers(seal(x, &made, &tag, m, ad, n, k), SEYVONDU_DONE, "sealed");
    same(&made, c, "cipher text");
    same(&tag, wanted, "tag");
    fill(&tag, wanted->len, 0x77);
    answers(seal_in_place(x, &mc, &tag, ad, n, k), SEYVONDU_DONE, "sealed in place");
    same(&mc, c, "cipher text in place");
    same(&tag, wanted, "tag in place");
    fill(&text, m->len, 0x77);
    answers(open_(x, &text, c, wanted, ad, n, k), SEYVONDU_DONE, "unsealed");
    same(&text, m, "message");
    answers(open_in_place(x, &mc, wanted, ad, n, k), SEYVONDU_DONE, "unsealed in place");
    same(&mc, m, "message in place");
    wrong_bits(x, k, n, ad, c, wanted);
    wrong_lengths(x, k, n, ad, m, wanted);
    streams(x, k, n, m);
}

static void mac_line(const cipher *x, bytes *k, bytes *n, bytes *text, bytes *wanted) {
    bytes tag, *parts[] = {k, n, text, wanted};
    fill(&tag, wanted->len, 0x77);
    answers(mac(x, &tag, text, n, k), SEYVONDU_DONE, "MAC");
    same(&tag, wanted, "MAC");
    answers(verify(x, wanted, text, n, k), SEYVONDU_DONE, "MAC verified");
    for (int part = 0; part < 4; part++) {
        for (size_t i = 0; i < parts[part]->len; i++) {
            at(parts[part])[i] ^= 0x10;
            answers(verify(x, wanted, text, n, k), SEYVONDU_WRONG_TAG, "a MAC with a wrong bit");
            at(parts[part])[i] ^= 0x10;
        }
    }
}

static const cipher *named(const char *name) {
    for (size_t i = 0; i < sizeof ciphers / sizeof *ciphers; i++) {
        if (strcmp(ciphers[i].name, name) == 0) return ciphers + i;
    }
    fail("no such cipher");
    return NULL;
}

static void line(char *text) {
    char *words[9];
    int count = 0;
    for (char *word = strtok(text, " \n"); word && count < 9; word = strtok(NULL, " \n")) words[count++] = word;
    bytes parts[7];
    for (int i = 2; i < count; i++) read_hex(parts + i - 2, words[i]);
    if (count == 9 && strcmp(words[0], "seal") == 0) {
        for (int tag = 5; tag < 7; tag++) seal_line(named(words[1]), parts, parts + 1, parts + 2, parts + 3, parts + 4, parts + tag);
    } else if (count == 7 && strcmp(words[0], "mac") == 0) {
        for (int tag = 3; tag < 5; tag++) mac_line(named(words[1]), parts, parts + 1, parts + 2, parts + tag);
    } else {
        fail("no such line");
    }
}

/* A proof of the one chunk of 5 bytes of a file that may have one chunk: 53 bytes, and no siblings. The commitment is that of an
   independent program. */
static void proofs(void) {
    static const uint8_t commitment[32] = {
        0xa8, 0x55, 0x57, 0x6e, 0x31, 0xd1, 0x69, 0xcb, 0xd0, 0x78, 0xd7, 0x9f, 0x2d, 0x0e, 0xb3, 0xa5,
        0xbe, 0x34, 0x81, 0xc6, 0x9a, 0x74, 0x0b, 0xc7, 0x0d, 0xf2, 0x6f, 0x91, 0x75, 0xf2, 0xa3, 0x2f,
    };
    uint8_t chunk[5], proof[53] = {1, [9] = 5};
    for (int i = 0; i < 5; i++) chunk[i] = (uint8_t)(7 * i + 2);
    for (int i = 0; i < 32; i++) proof[17 + i] = (uint8_t)(29 * i + 3);
    answers(raf_proof_check(commitment, 32, chunk, 5, proof, 53), RAF_PROOF_ACCEPTED, "a proof");
    answers(raf_proof_check(commitment, 32, chunk, 4, proof, 53), RAF_PROOF_REFUSED, "a proof of a shorter chunk");
    answers(raf_proof_check(commitment, 32, chunk, 5, proof, 52), RAF_PROOF_NONE, "a shorter proof");
    answers(raf_proof_check(commitment, 31, chunk, 5, proof, 53), RAF_PROOF_WRONG_LENGTH, "a shorter commitment");
}

int main(int count, char **words) {
    static char text[8192];
    FILE *file = count == 2 ? fopen(words[1], "r") : NULL;
    if (!file) fail("no file of vectors");
    for (; fgets(text, sizeof text, file); line_number++) {
        if (text[0] != '#') line(text);
    }
    fclose(file);
    proofs();
    printf("%d lines, %d answers as wanted\n", line_number, calls);
    return line_number > 40 ? 0 : 1;
}
