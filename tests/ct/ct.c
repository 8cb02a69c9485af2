/* Constant time, observed: the library's calls on secrets that valgrind's memcheck takes to be undefined. Memcheck follows undefined bits
 * through every instruction and reports a conditional jump or an address that depends on one. So a run with no report is one in which
 * neither the path taken nor the places read and written depended on a secret. A conditional move is not reported, whatever the words of
 * memcheck's message say (ct move shows it): it chooses between two values that are both at hand, takes the same time for either, and what
 * it chose is followed on as undefined. How long an instruction takes is not seen here: integer multiplications, by which
 * blocks are multiplied, are taken to last the same whatever they multiply.
 *
 * Secret: keys, H, I, S, of parts too, blocks, the bytes of files, in a journal too, and GCM's texts, associated data and ciphertexts. Public:
 * lengths, of parts too, places, a blank file's fill byte, arm and seal numbers, nonces, slips, the heads of a journal's records, whose kind, p
 * and l decide what is done, and every answer, count, offset, forecast and verdict. Answers, counts, offsets, forecasts and the length of joined
 * parts must come out defined by themselves, but for a decryption's answer. A tag is published by the call that makes it, and is declared public
 * after that call, not before.
 *
 * A forecast reads no byte between the heads, and none behind the head of a refused record. So it is also made where memcheck takes these bytes to be
 * no memory at all, and reports every read of one.
 *
 * Whether a slip's tag fits is found inside check, and is public since the verdict tells it. So check may jump on that, and on nothing less:
 * each check that comes to compare tags makes at most one report, the jump, and its verdict then comes out defined, since by that jump and the
 * two public numbers, the slip's and the last used one, it is settled; or it makes no report, and its verdict comes out undefined. A jump on a
 * part of the tags would need a second one, or leave the verdict undefined. A decryption's answer, which says whether the tag fits, is held to
 * the same; what it then writes, or leaves, shows which way it went.
 *
 * Each call is made on plain data too, and must give the same bytes.
 *
 * ct field    multiply, GHASH, join, a state's fields, the five edits, replay and forecast, which use no cipher
 * ct cipher   encrypt, GMAC, GCM encryption, start, read and seal
 * ct check    check
 * ct decrypt  GCM decryption
 * ct branch, ct index, ct barred    deliberate faults, which must be reported
 * ct move     a conditional move, which is no fault
 */
#include "armfile.h"
#include <stdio.h>
#include <stdlib.h>
#include <string.h>
#include <valgrind/memcheck.h>

#define STATE ARMFILE_STATE_BYTES
#define SECRET_STATE 64 /* key, H, I and S; n, arm and last used number follow */
#define SLIP ARMFILE_SLIP_BYTES
#define SLIP_HEAD 20 /* version, length, arm and number; the tag follows */
#define UNJUDGED 0xee /* what stands where a verdict goes: no verdict, and what a refused check leaves */
/* The longest input: one of each that is hashed or encrypted. It has more than 256 blocks and than sixteen batches of sixteen blocks. */
#define LONG 5000
#define LONG_WHOLE (LONG / 16 * 16) /* whole blocks, where an edit takes only these */
#define HEAD 12 /* a record's: kind, p and l */
#define RECORDS 6
#define PARTS 1000 /* the most that are joined */

static const size_t lengths[] = {0, 1, 15, 16, 17, 32, 33, 64, 100};
#define LENGTHS (sizeof lengths / sizeof lengths[0])
/* What is no edit is hashed block by block below 512 bytes, and from there on by batches of 256, with what is left block by block. */
static const size_t wholes[] = {0, 1, 15, 16, 17, 32, 33, 64, 100, 255, 256, 257, 511, 512, 513, 527, 528, 767, 768, 1000};
#define WHOLES (sizeof wholes / sizeof wholes[0])
static const size_t nonces[] = {1, 12, 16, 17, 511, 512, 513, 527, 528, 767, 768, 1000};
#define NONCES (sizeof nonces / sizeof nonces[0])
/* Up to 32 bytes, of a text or behind whole batches, are made block by block, and more by sixteen blocks at once. */
static const size_t texts[] = {0, 1, 16, 17, 32, 33, 48, 240, 255, 256, 257, 288, 289, 300, 511, 512, 513, 527, 528, 560, 767, 768, 1000};
#define TEXTS (sizeof texts / sizeof texts[0])

static unsigned calls, comparisons, jumps;

static void fail(const char *what) {
    fprintf(stderr, "ct: %s, in call %u\n", what, calls);
    exit(1);
}

static void hide(void *bytes, size_t n) { (void)VALGRIND_MAKE_MEM_UNDEFINED(bytes, n); }

static void reveal(void *bytes, size_t n) { (void)VALGRIND_MAKE_MEM_DEFINED(bytes, n); }

/* From here on the bytes are no memory: every read of one is reported, until they are revealed. */
static void bar(void *bytes, size_t n) { (void)VALGRIND_MAKE_MEM_NOACCESS(bytes, n); }

/* Whether every bit of the bytes is defined (which 0) or undefined (which 0xff). */
static int all_bits(const void *bytes, size_t n, unsigned char which) {
    unsigned char bits[LONG];
    if (n > sizeof bits || VALGRIND_GET_VBITS(bytes, bits, n) != 1)
        fail("memcheck does not say which bits are defined");
    for (size_t i = 0; i < n; i++)
        if (bits[i] != which)
            return 0;
    return 1;
}

static void must_be_public(const void *bytes, size_t n, const char *what) {
    if (!all_bits(bytes, n, 0))
        fail(what);
}

/* The secrets did reach the output: memcheck followed them all the way. */
static void must_be_secret(const void *bytes, size_t n, const char *what) {
    if (!all_bits(bytes, n, 0xff))
        fail(what);
}

static void must_be_same(const void *a, const void *b, size_t n, const char *what) {
    if (memcmp(a, b, n) != 0)
        fail(what);
}

/* An answer: defined, and the one expected. */
static void answered(uint64_t answer, uint64_t expected) {
    calls++;
    must_be_public(&answer, sizeof answer, "an answer depends on a secret");
    if (answer != expected)
        fail("an answer is not the one expected");
}

/* Repeatable bytes, splitmix64. */
static uint64_t seed = 5;

static void fill(uint8_t *bytes, size_t n) {
    for (size_t i = 0; i < n; i++) {
        uint64_t z = seed += UINT64_C(0x9e3779b97f4a7c15);
        z = (z ^ (z >> 30)) * UINT64_C(0xbf58476d1ce4e5b9);
        z = (z ^ (z >> 27)) * UINT64_C(0x94d049bb133111eb);
        bytes[i] = (uint8_t)(z ^ (z >> 31));
    }
}

static void big_endian(uint8_t *bytes, uint64_t number, size_t width) {
    for (size_t i = 0; i < width; i++)
        bytes[i] = (uint8_t)(number >> (8 * (width - 1 - i)));
}

/* A state of any key, H, I and S, for a file of n bytes. */
static void any_state(uint8_t *state, uint64_t n) {
    fill(state, SECRET_STATE);
    big_endian(state + 64, n, 8);
    big_endian(state + 72, 7, 4);
    big_endian(state + 76, 41, 8);
}

/* The block calls: two inputs and 16 bytes of output. */
typedef uint64_t block_call(const uint8_t *, size_t, const uint8_t *, size_t, uint8_t *, size_t);

static void on_blocks(block_call *call) {
    for (int i = 0; i < 3; i++) {
        uint8_t a[16], b[16], plain[16], out[16];
        fill(a, 16);
        fill(b, 16);
        answered(call(a, 16, b, 16, plain, 16), 0);
        hide(a, 16);
        hide(b, 16);
        answered(call(a, 16, b, 16, out, 16), 0);
        must_be_secret(out, 16, "no secret in a block");
        reveal(out, 16);
        must_be_same(out, plain, 16, "another block");
        answered(call(a, 15, b, 16, out, 16), 1);
        answered(call(a, 16, b, 16, out, 15), 7);
    }
}

static void one_ghash(size_t a_len, size_t c_len) {
    uint8_t h[16], a[LONG], c[LONG], plain[16], out[16];
    fill(h, 16);
    fill(a, a_len);
    fill(c, c_len);
    answered(armfile_ghash(h, 16, a, a_len, c, c_len, plain, 16), 0);
    hide(h, 16);
    hide(a, LONG);
    hide(c, LONG);
    answered(armfile_ghash(h, 16, a, a_len, c, c_len, out, 16), 0);
    if (a_len + c_len > 0)
        must_be_secret(out, 16, "no secret in a hash");
    reveal(out, 16);
    must_be_same(out, plain, 16, "another hash");
}

static void on_ghash(void) {
    for (size_t i = 0; i < WHOLES; i++)
        for (size_t j = 0; j < WHOLES; j++)
            one_ghash(wholes[i], wholes[j]);
    one_ghash(LONG, LONG);
}

/* A join of parts of these lengths: the sum is secret where there is a part, and the length is not. Then refused ones: with a hash key of 15 bytes,
 * with a sum too many, with a first part that is not of whole blocks, and with one that is too long. */
static void one_join(uint64_t *parts, size_t count) {
    uint8_t h[16], sums[16 * PARTS + 16], plain[16], sum[16];
    uint64_t n, plain_n;
    fill(h, 16);
    fill(sums, 16 * count);
    answered(armfile_join(h, 16, sums, 16 * count, parts, count, plain, &plain_n), 0);
    hide(h, 16);
    hide(sums, sizeof sums);
    answered(armfile_join(h, 16, sums, 16 * count, parts, count, sum, &n), 0);
    must_be_public(&n, sizeof n, "the length of joined parts depends on a secret");
    if (count > 0)
        must_be_secret(sum, 16, "no secret in the sum of joined parts");
    else
        must_be_public(sum, 16, "the sum of nothing depends on a secret");
    reveal(sum, 16);
    must_be_same(sum, plain, 16, "another sum");
    must_be_same(&n, &plain_n, sizeof n, "another length");
    answered(armfile_join(h, 15, sums, 16 * count, parts, count, sum, &n), 1);
    answered(armfile_join(h, 16, sums, 16 * count + 16, parts, count, sum, &n), 15);
    if (count > 1) {
        parts[0] += 8;
        answered(armfile_join(h, 16, sums, 16 * count, parts, count, sum, &n), 5);
        parts[0] = ARMFILE_MAX_BYTES + 1;
        answered(armfile_join(h, 16, sums, 16 * count, parts, count, sum, &n), 2);
    }
    must_be_public(sum, 16, "a refused call has written");
    must_be_same(sum, plain, 16, "a refused call has written");
    must_be_same(&n, &plain_n, sizeof n, "a refused call has written");
}

/* Parts of no bytes, of one block, of few and of many; the last of any length. The digits of a part's blocks say which products are made. */
static void on_join(void) {
    const size_t counts[] = {0, 1, 2, 6, PARTS};
    const uint64_t whole[] = {48, 0, 16, UINT64_C(1) << 20, (UINT64_C(1) << 36) + 16, 4096, (UINT64_C(1) << 40) - 16};
    const uint64_t last[] = {0, 1, 16, 17, (UINT64_C(1) << 20) + 5, UINT64_C(1) << 60};
    for (size_t i = 0; i < sizeof counts / sizeof counts[0]; i++)
        for (size_t j = 0; j < sizeof last / sizeof last[0]; j++) {
            uint64_t parts[PARTS];
            for (size_t k = 0; k < counts[i]; k++)
                parts[k] = k + 1 < counts[i] ? whole[(k + j) % 7] : last[j];
            one_join(parts, counts[i]);
        }
}

/* An edit by number, with its bytes given twice to a change. */
static uint64_t edit(int kind, uint8_t *state, uint64_t p, const uint8_t *old, const uint8_t *new, size_t l, uint64_t *count) {
    switch (kind) {
    case 0: return armfile_change(state, p, old, l, new, l, count);
    case 1: return armfile_append(state, new, l, count);
    case 2: return armfile_prepend(state, new, l, count);
    case 3: return armfile_drop_front(state, old, l, count);
    default: return armfile_cut_tail(state, old, l, count);
    }
}

/* What an edit or a replay leaves: of state and count only key, H, I and S are secret, and all is as on plain data. */
static void must_be_moved(uint8_t *state, const uint8_t *plain, uint64_t count, uint64_t plain_count) {
    must_be_public(&count, sizeof count, "a count depends on a secret");
    must_be_public(state + SECRET_STATE, STATE - SECRET_STATE, "a length or number depends on a secret");
    must_be_secret(state + 48, 16, "no secret in a sum");
    reveal(state, STATE);
    must_be_same(state, plain, STATE, "another state");
    if (count != plain_count)
        fail("another count");
}

static void one_edit(int kind, uint64_t n, uint64_t p, size_t l) {
    uint8_t state[STATE], plain[STATE], old[LONG], new[LONG];
    uint64_t count = 0, plain_count = 0;
    any_state(state, n);
    memcpy(plain, state, STATE);
    fill(old, l);
    fill(new, l);
    uint64_t expected = edit(kind, plain, p, old, new, l, &plain_count);
    calls++;
    hide(state, SECRET_STATE);
    hide(old, LONG);
    hide(new, LONG);
    answered(edit(kind, state, p, old, new, l, &count), expected);
    must_be_moved(state, plain, count, plain_count);
}

/* Accepted and refused edits, of short files, of a long one and of one past the limit. */
static void on_edits(void) {
    const uint64_t files[] = {0, 40, 64, 1000, ARMFILE_MAX_BYTES - 20, ARMFILE_MAX_BYTES + 1};
    for (size_t f = 0; f < sizeof files / sizeof files[0]; f++)
        for (size_t i = 0; i < LENGTHS; i++) {
            for (int kind = 1; kind < 5; kind++)
                one_edit(kind, files[f], 0, lengths[i]);
            one_edit(0, files[f], 0, lengths[i]);
            one_edit(0, files[f], 17, lengths[i]);
            one_edit(0, files[f], files[f], lengths[i]);
        }
    one_edit(0, 2 * LONG, 17, LONG);
    one_edit(1, 2 * LONG, 0, LONG);
    one_edit(2, 2 * LONG, 0, LONG_WHOLE);
    one_edit(3, 2 * LONG, 0, LONG_WHOLE);
    one_edit(4, 2 * LONG, 0, LONG);
}

/* A journal, and where its records begin. */
struct journal {
    uint8_t bytes[RECORDS * (HEAD + 2 * LONG)];
    size_t length, records, first[RECORDS + 1];
};

static void add_record(struct journal *journal, uint64_t kind, uint64_t p, size_t l) {
    uint8_t *record = journal->bytes + journal->length;
    size_t body = kind == 1 ? 2 * l : l;
    big_endian(record, kind << 61 | p, 8);
    big_endian(record + 8, l, 4);
    fill(record + HEAD, body);
    journal->length += HEAD + body;
    journal->first[++journal->records] = journal->length;
}

/* Hides or bars what stands between the heads. */
static void mark_bodies(struct journal *journal, void (*mark)(void *, size_t)) {
    for (size_t i = 0; i < journal->records; i++)
        mark(journal->bytes + journal->first[i] + HEAD, journal->first[i + 1] - journal->first[i] - HEAD);
}

/* What a forecast tells. */
struct forecast {
    uint64_t bound, greatest, offset;
};

static struct forecast ask(uint64_t n, const struct journal *journal, size_t length, uint64_t answer) {
    struct forecast told;
    hide(&told, sizeof told);
    answered(armfile_forecast(n, journal->bytes, length, &told.bound, &told.greatest, &told.offset), answer);
    must_be_public(&told, sizeof told, "a forecast depends on a secret, or is not written");
    return told;
}

/* Forecasts of the journal's first bytes, which answer and stop as its replay did: with what stands between the heads hidden, and with that barred,
 * and all that stands behind the head of a refused record. */
static void one_forecast(uint64_t n, struct journal *journal, size_t length, uint64_t answer, uint64_t offset) {
    size_t behind = offset + HEAD < length ? offset + HEAD : length;
    struct forecast plain = ask(n, journal, length, answer), told;
    if (plain.offset != offset)
        fail("a forecast and a replay stop at different records");
    mark_bodies(journal, hide);
    told = ask(n, journal, length, answer);
    must_be_same(&told, &plain, sizeof told, "another forecast");
    mark_bodies(journal, bar);
    bar(journal->bytes + behind, journal->length - behind);
    told = ask(n, journal, length, answer);
    must_be_same(&told, &plain, sizeof told, "another forecast");
    reveal(journal->bytes, journal->length);
}

/* A replay of the journal's first bytes, and a forecast of it before. The heads stay public, and what stands between them is hidden. */
static void one_replay(uint64_t n, struct journal journal, size_t length) {
    uint8_t state[STATE], plain[STATE];
    uint64_t count, offset, plain_count, plain_offset;
    any_state(state, n);
    memcpy(plain, state, STATE);
    uint64_t expected = armfile_replay(plain, journal.bytes, length, &plain_count, &plain_offset);
    calls++;
    one_forecast(n, &journal, length, expected, plain_offset);
    hide(state, SECRET_STATE);
    mark_bodies(&journal, hide);
    answered(armfile_replay(state, journal.bytes, length, &count, &offset), expected);
    must_be_public(&offset, sizeof offset, "an offset depends on a secret");
    if (offset != plain_offset)
        fail("another offset");
    must_be_moved(state, plain, count, plain_count);
}

/* Records of all kinds, each kind first in some journal; then one that is refused, for its kind, its place or its length, or is cut short. Last one of long records. */
static void on_replay(void) {
    const uint64_t files[] = {0, 40, 1000, ARMFILE_MAX_BYTES - 20, ARMFILE_MAX_BYTES + 1};
    const struct {
        uint64_t kind, p;
        size_t missing;
    } last[] = {{7, 0, 0}, {2, 9, 0}, {3, 0, 0}, {5, 0, 1}, {1, 0, 11}};
    for (size_t f = 0; f < sizeof files / sizeof files[0]; f++)
        for (size_t i = 0; i < LENGTHS; i++) {
            struct journal journal = {.length = 0};
            for (uint64_t k = 0; k < 5; k++) {
                uint64_t kind = 1 + (k + f + i) % 5;
                size_t whole = (lengths[i] + 15) / 16 * 16;
                add_record(&journal, kind, kind == 1 ? 17 : 0, kind == 3 || kind == 4 ? whole : lengths[i]);
            }
            one_replay(files[f], journal, journal.length);
            add_record(&journal, last[i % 5].kind, last[i % 5].p, 5);
            one_replay(files[f], journal, journal.length - last[i % 5].missing);
        }
    struct journal journal = {.length = 0};
    for (uint64_t kind = 1; kind <= 5; kind++)
        add_record(&journal, kind, kind == 1 ? 17 : 0, kind == 3 || kind == 4 ? LONG_WHOLE : LONG);
    one_replay(2 * LONG, journal, journal.length);
}

/* The nonce is public. */
static void one_gmac(size_t nonce_len, size_t a_len) {
    uint8_t key[16], nonce[LONG], a[LONG], plain[16], out[16];
    fill(key, 16);
    fill(nonce, nonce_len);
    fill(a, a_len);
    answered(armfile_gmac(key, 16, nonce, nonce_len, a, a_len, plain, 16), 0);
    hide(key, 16);
    hide(a, LONG);
    answered(armfile_gmac(key, 16, nonce, nonce_len, a, a_len, out, 16), 0);
    must_be_secret(out, 16, "no secret in a tag");
    reveal(out, 16);
    must_be_same(out, plain, 16, "another tag");
}

static void on_gmac(void) {
    for (size_t i = 0; i < WHOLES; i++)
        for (size_t j = 0; j < NONCES; j++)
            one_gmac(nonces[j], wholes[i]);
    one_gmac(LONG, LONG);
}

/* What GCM is given, and what it writes; the lengths of nonce, aad and text, which is as long as out. */
struct message {
    uint8_t key[16], nonce[LONG], aad[LONG], text[LONG], out[LONG], tag[16];
    size_t nonce_len, aad_len, text_len;
};

static struct message any_message(size_t nonce_len, size_t aad_len, size_t text_len) {
    struct message m = {.nonce_len = nonce_len, .aad_len = aad_len, .text_len = text_len};
    fill(m.key, 16);
    fill(m.nonce, nonce_len);
    fill(m.aad, aad_len);
    fill(m.text, text_len);
    fill(m.out, LONG);
    fill(m.tag, 16);
    return m;
}

/* The nonce is public, and so is a tag that is given. */
static void hide_message(struct message *m) {
    hide(m->key, 16);
    hide(m->aad, LONG);
    hide(m->text, LONG);
}

/* GCM by a message's own lengths, but for the key's, the output's and the tag's. */
#define GCM(call, m, key_len, out_len, tag_len)                                                                                         \
    call((m)->key, key_len, (m)->nonce, (m)->nonce_len, (m)->aad, (m)->aad_len, (m)->text, (m)->text_len, (m)->out, out_len, (m)->tag, \
        tag_len)

/* A length that is not the text's, and that its output has. */
#define ANOTHER(text_len) (((text_len) + 1) % LONG)

static void one_encryption(size_t nonce_len, size_t aad_len, size_t text_len) {
    struct message m = any_message(nonce_len, aad_len, text_len), plain = m;
    answered(GCM(armfile_gcm_encrypt, &plain, 16, text_len, 16), 0);
    hide_message(&m);
    answered(GCM(armfile_gcm_encrypt, &m, 15, text_len, 16), 1);
    answered(GCM(armfile_gcm_encrypt, &m, 16, ANOTHER(text_len), 16), 7);
    answered(GCM(armfile_gcm_encrypt, &m, 16, text_len, 15), 7);
    must_be_public(m.out, LONG, "a refused call has written");
    must_be_public(m.tag, 16, "a refused call has written");
    answered(GCM(armfile_gcm_encrypt, &m, 16, text_len, 16), 0);
    must_be_secret(m.out, text_len, "no secret in a ciphertext");
    must_be_secret(m.tag, 16, "no secret in a tag");
    reveal(m.out, LONG);
    must_be_same(m.out, plain.out, LONG, "another ciphertext");
    reveal(m.tag, 16);
    must_be_same(m.tag, plain.tag, 16, "another tag");
}

/* How much associated data goes with a text and a nonce: with each text, short or long, lengths below 512 and above. */
static size_t aad_for(size_t i, size_t j) { return wholes[(i + 7 * j) % WHOLES]; }

static void on_gcm_encrypt(void) {
    for (size_t i = 0; i < TEXTS; i++)
        for (size_t j = 0; j < NONCES; j++)
            one_encryption(nonces[j], aad_for(i, j), texts[i]);
    one_encryption(LONG, LONG, LONG);
}

/* What a start or a read leaves: key, H and I are secret, S where there is something to sum, and nothing else; all is as on plain data. */
static void must_be_begun(uint8_t *state, const uint8_t *plain, int summed) {
    size_t secret = summed ? SECRET_STATE : 48;
    must_be_secret(state, secret, "no secret in the key, H, I or S");
    must_be_public(state + secret, STATE - secret, "the sum of nothing, a length or a number depends on a secret");
    reveal(state, STATE);
    must_be_same(state, plain, STATE, "another state");
}

static void one_start(uint64_t n, uint8_t blank) {
    uint8_t key[16], plain[STATE], state[STATE];
    uint64_t count, plain_count;
    fill(key, 16);
    answered(armfile_start(key, 16, 7, 41, n, blank, plain, &plain_count), 0);
    hide(key, 16);
    answered(armfile_start(key, 16, 7, 41, n, blank, state, &count), 0);
    must_be_public(&count, sizeof count, "a count depends on a secret");
    if (count != plain_count)
        fail("another count");
    must_be_begun(state, plain, n > 0 && blank > 0);
    answered(armfile_start(key, 15, 7, 41, n, blank, state, &count), 1);
    answered(armfile_start(key, 16, 7, 41, ARMFILE_MAX_BYTES + 1 + n, blank, state, &count), 2);
    must_be_same(state, plain, STATE, "a refused call has written");
    must_be_same(&count, &plain_count, sizeof count, "a refused call has written");
}

/* Blank files of zeros, of other bytes and of FF, with no block, with few and with the most. The digits of m - 1 say which products are made:
 * ones alone, one and zeros, and some of both. */
static void on_start(void) {
    const uint64_t files[] = {UINT64_C(1) << 30, (UINT64_C(1) << 36) + 17, (UINT64_C(1) << 60) + 1, ARMFILE_MAX_BYTES - 15, ARMFILE_MAX_BYTES};
    const uint8_t blanks[] = {0, 0x01, 0x80, 0xff};
    for (size_t j = 0; j < sizeof blanks; j++) {
        for (size_t i = 0; i < WHOLES; i++)
            one_start(wholes[i], blanks[j]);
        for (size_t i = 0; i < sizeof files / sizeof files[0]; i++)
            one_start(files[i], blanks[j]);
    }
}

static void one_read(size_t n) {
    uint8_t key[16], file[LONG], plain[STATE], state[STATE];
    fill(key, 16);
    fill(file, n);
    answered(armfile_read(key, 16, 7, 41, file, n, plain), 0);
    hide(key, 16);
    hide(file, LONG);
    answered(armfile_read(key, 16, 7, 41, file, n, state), 0);
    must_be_begun(state, plain, n > 0);
}

static void on_read(void) {
    for (size_t i = 0; i < WHOLES; i++)
        one_read(wholes[i]);
    one_read(LONG);
}

/* What a state says of itself is public, whatever the rest of it is; and its sum and H, which are copied, are secret. */
static void on_fields(void) {
    uint8_t state[STATE], plain[STATE], sum[16], h[16];
    any_state(state, 40);
    memcpy(plain, state, STATE);
    hide(state, SECRET_STATE);
    answered(armfile_length(state), 40);
    answered(armfile_arm(state), 7);
    answered(armfile_last(state), 41);
    hide(state, STATE);
    armfile_sum(state, sum);
    armfile_hash_key(state, h);
    calls += 2;
    must_be_secret(sum, 16, "no secret in a sum");
    must_be_secret(h, 16, "no secret in a hash key");
    reveal(sum, 16);
    reveal(h, 16);
    must_be_same(sum, plain + 48, 16, "another sum");
    must_be_same(h, plain + 16, 16, "another hash key");
}

static void on_seal(void) {
    const uint64_t files[] = {0, 40, ARMFILE_MAX_BYTES};
    for (size_t f = 0; f < 3; f++) {
        uint8_t state[STATE], plain[STATE], slip[SLIP], plain_slip[SLIP];
        any_state(state, files[f]);
        memcpy(plain, state, STATE);
        answered(armfile_seal(plain, plain_slip, SLIP), 0);
        hide(state, SECRET_STATE);
        answered(armfile_seal(state, slip, SLIP), 0);
        must_be_public(slip, SLIP_HEAD, "a slip's head depends on a secret");
        must_be_secret(slip + SLIP_HEAD, SLIP - SLIP_HEAD, "no secret in a tag");
        must_be_public(state + SECRET_STATE, STATE - SECRET_STATE, "a length or number depends on a secret");
        reveal(slip, SLIP);
        must_be_same(slip, plain_slip, SLIP, "another slip");
        answered(armfile_seal(state, slip, SLIP - 1), 7);
        big_endian(state + 76, UINT64_MAX, 8);
        answered(armfile_seal(state, slip, SLIP), 6);
        reveal(state, SECRET_STATE);
        must_be_same(state, plain, SECRET_STATE, "another state");
    }
}

/* A call that compares tags may jump on the outcome, and on nothing less: one report, and what it tells is then defined; or none, and it is
 * not. */
static void compared(unsigned reports, int defined) {
    if (reports > 1)
        fail("a call that compares tags has more reports than its one jump on the outcome");
    if (defined != (reports == 1))
        fail("the outcome of a comparison of tags is not settled by one jump");
    comparisons++;
    jumps += reports;
}

/* A check of a slip with one bit turned, which is refused or not genuine, or of the slip itself (bit -1), which is judged by its number. Tags are
 * compared where length and arm are right. */
static void one_check(const uint8_t *sealed, const uint8_t *genuine, uint8_t by_number, int bit) {
    int compares = bit < 0 || bit >= 96;
    uint8_t state[STATE], slip[SLIP], verdict = UNJUDGED;
    memcpy(state, sealed, STATE);
    memcpy(slip, genuine, SLIP);
    if (bit >= 0)
        slip[bit / 8] ^= 0x80 >> (bit % 8);
    hide(state, SECRET_STATE);
    unsigned before = VALGRIND_COUNT_ERRORS;
    uint64_t answer = armfile_check(state, slip, SLIP, &verdict);
    unsigned reports = VALGRIND_COUNT_ERRORS - before;
    answered(answer, bit >= 0 && bit < 3 ? 8 : 0);
    if (compares)
        compared(reports, all_bits(&verdict, 1, 0));
    else if (reports > 0 || !all_bits(&verdict, 1, 0))
        fail("a check that compares no tags jumps on a secret, or tells of one");
    reveal(&verdict, 1);
    if (verdict != (answer != 0 ? UNJUDGED : bit < 0 ? by_number : ARMFILE_NOT_GENUINE))
        fail("another verdict");
    reveal(state, STATE);
    must_be_same(state, sealed, STATE, "another state");
}

/* Slips by their number beside the last used one: the same; and smaller or larger by one, by much, by the high half or the highest bit alone. */
static void on_check(void) {
    const uint64_t high = UINT64_C(1) << 32, highest = UINT64_C(1) << 63;
    const struct {
        uint64_t number, last;
        uint8_t verdict;
    } slips[] = {
        {42, 42, ARMFILE_CURRENT}, {UINT64_MAX, UINT64_MAX, ARMFILE_CURRENT},
        {42, 43, ARMFILE_STALE}, {1, UINT64_MAX, ARMFILE_STALE}, {42, high + 42, ARMFILE_STALE}, {42, highest + 42, ARMFILE_STALE},
        {42, 41, ARMFILE_AHEAD}, {UINT64_MAX, 0, ARMFILE_AHEAD}, {high + 42, 42, ARMFILE_AHEAD}, {highest + 42, 42, ARMFILE_AHEAD},
    };
    uint8_t state[STATE], slip[SLIP], verdict = UNJUDGED;
    for (size_t i = 0; i < sizeof slips / sizeof slips[0]; i++) {
        any_state(state, 40);
        big_endian(state + 76, slips[i].number - 1, 8);
        answered(armfile_seal(state, slip, SLIP), 0);
        big_endian(state + 76, slips[i].last, 8);
        for (int bit = -1; bit < 8 * SLIP; bit++)
            one_check(state, slip, slips[i].verdict, bit);
    }
    hide(state, SECRET_STATE);
    answered(armfile_check(state, slip, SLIP - 1, &verdict), 7);
    big_endian(state + 64, ARMFILE_MAX_BYTES + 1, 8);
    answered(armfile_check(state, slip, SLIP, &verdict), 2);
    must_be_public(&verdict, 1, "a refused call has written");
    if (verdict != UNJUDGED)
        fail("a refused call has written");
    printf("ct check: %u comparisons of tags, %u jumps, all on whether the tag fits\n", comparisons, jumps);
}

/* A decryption of what was sent, with one bit of its tag turned, or as it is (bit -1). */
static void one_decryption(const struct message *sent, const uint8_t *text, int bit) {
    struct message m = *sent;
    if (bit >= 0)
        m.tag[bit / 8] ^= 0x80 >> (bit % 8);
    hide_message(&m);
    unsigned before = VALGRIND_COUNT_ERRORS;
    uint64_t answer = GCM(armfile_gcm_decrypt, &m, 16, m.text_len, 16);
    compared(VALGRIND_COUNT_ERRORS - before, all_bits(&answer, sizeof answer, 0));
    reveal(&answer, sizeof answer);
    answered(answer, bit < 0 ? 0 : 14);
    if (bit < 0) {
        must_be_secret(m.out, m.text_len, "no secret in a text");
        reveal(m.out, LONG);
        must_be_same(m.out, text, m.text_len, "another text");
    } else {
        must_be_public(m.out, LONG, "a refused call has written");
        must_be_same(m.out, sent->out, LONG, "a refused call has written");
    }
}

/* Decryptions of one message, as it is and with bits of its tag turned, one in so many; and refused ones. */
static void decryptions(size_t nonce_len, size_t aad_len, size_t text_len, int one_in) {
    struct message plain = any_message(nonce_len, aad_len, text_len), sent = plain;
    answered(GCM(armfile_gcm_encrypt, &plain, 16, text_len, 16), 0);
    memcpy(sent.text, plain.out, text_len);
    memcpy(sent.tag, plain.tag, 16);
    for (int bit = -1; bit < 128; bit += one_in)
        one_decryption(&sent, plain.text, bit);
    hide_message(&sent);
    answered(GCM(armfile_gcm_decrypt, &sent, 15, text_len, 16), 1);
    answered(GCM(armfile_gcm_decrypt, &sent, 16, ANOTHER(text_len), 16), 7);
    answered(GCM(armfile_gcm_decrypt, &sent, 16, text_len, 15), 7);
}

/* Every bit of a tag turned for four messages, of no text, of less than a batch, just below 512 bytes and above, and two bits for the others. */
static void on_gcm_decrypt(void) {
    for (size_t i = 0; i < TEXTS; i++)
        for (size_t j = 0; j < NONCES; j++)
            decryptions(nonces[j], aad_for(i, j), texts[i], j == 1 && i % 7 == 0 ? 1 : 43);
    decryptions(LONG, LONG, LONG, 43);
    printf("ct decrypt: %u comparisons of tags, %u jumps, all on whether the tag fits\n", comparisons, jumps);
}

/* The faults: memcheck must report them. */
static volatile uint8_t table[256];
static volatile unsigned sink;

enum faults { BRANCH, INDEX, BARRED };

static void fault(enum faults which) {
    uint8_t key[16];
    fill(key, 16);
    hide(key, 16);
    if (which == BARRED) {
        bar(key + 3, 1);
        sink = key[3];
        reveal(key + 3, 1);
    } else if (which == INDEX) {
        sink = table[key[3]];
    } else if (key[3] & 1) {
        sink = 1;
    }
}

/* A conditional move on a secret bit: no report, and what it chose is secret. */
static void move(void) {
    uint64_t secret, chosen = 1, other = UINT64_MAX - 1;
    fill((uint8_t *)&secret, sizeof secret);
    hide(&secret, sizeof secret);
    unsigned before = VALGRIND_COUNT_ERRORS;
    __asm__("test %1, %1\n\tcmovs %2, %0" : "+r"(chosen) : "r"(secret), "r"(other) : "cc");
    calls++;
    if (VALGRIND_COUNT_ERRORS != before)
        fail("a conditional move is reported");
    must_be_secret(&chosen, sizeof chosen, "what a conditional move chose is taken to be public");
}

int main(int argc, char **argv) {
    if (!RUNNING_ON_VALGRIND)
        fail("not run by valgrind");
    const char *part = argc == 2 ? argv[1] : "";
    if (strcmp(part, "field") == 0) {
        on_blocks(armfile_multiply);
        on_ghash();
        on_join();
        on_fields();
        on_edits();
        on_replay();
    } else if (strcmp(part, "cipher") == 0) {
        on_blocks(armfile_encrypt);
        on_gmac();
        on_gcm_encrypt();
        on_start();
        on_read();
        on_seal();
    } else if (strcmp(part, "check") == 0) {
        on_check();
    } else if (strcmp(part, "decrypt") == 0) {
        on_gcm_decrypt();
    } else if (strcmp(part, "branch") == 0) {
        fault(BRANCH);
    } else if (strcmp(part, "index") == 0) {
        fault(INDEX);
    } else if (strcmp(part, "barred") == 0) {
        fault(BARRED);
    } else if (strcmp(part, "move") == 0) {
        move();
    } else {
        fail("ct field, cipher, check, decrypt, branch, index, barred or move");
    }
    printf("ct %s: %u calls\n", part, calls);
    return 0;
}
