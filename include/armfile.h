/*
 * armfile: the seal of a robot arm's motion file.
 *
 * A controller keeps no motion file, only a state of 84 bytes: key, hash key H
 * and its companion I, running sum (GHASH without its length block), length,
 * arm number, last used seal number. It begins with a file that is at hand, or
 * with a blank one, which is a fill byte and a length. Five edits move that
 * state without reading the file, one by one or as a journal of them; what a
 * journal will take can be forecast before it is run. Of a file that is kept in
 * parts, sum and length follow from those of the parts. A seal writes a slip of
 * 36 bytes whose tag is AES-128 GMAC of the whole file; a check says whether a
 * slip is genuine and, if it is, whether it is current, stale or ahead: whether
 * its seal number is the state's last used one, a smaller or a larger. A file
 * that is to travel unread is encrypted by AES-128 GCM, which needs no state.
 * FIPS 197 decides for AES, NIST SP 800-38D for the field, GHASH, GMAC and GCM.
 *
 * The library is for x86-64 and needs no other library.
 *
 * CONVENTIONS
 *
 * Every function but the five that read a state's fields (armfile_length,
 * armfile_arm, armfile_last, armfile_sum, armfile_hash_key) returns 0 when the
 * work was done, or the number of a refusal (below). A refused call leaves
 * every lent buffer, the state, the count, the verdict, and a join's sum and n
 * as they were, with two exceptions: armfile_replay always writes state, count
 * and offset, and what it did before the refused record stays done; and
 * armfile_forecast always writes bound, greatest and offset. No input makes a
 * call fail in any other way: there is no abort, no assertion and no error
 * state. This is proved, for all inputs, of the source; the compiler's back end
 * and linker are not covered.
 *
 * Nothing is allocated, and no static data is written: calls on different
 * states may run in different threads. Calls on one state must not overlap in
 * time.
 *
 * A byte slice passes as a pointer and a length in bytes. No alignment is
 * asked of it. A slice of uint64_t, the lengths of a join, passes as a pointer,
 * aligned as a uint64_t is, and the number of its elements.
 *
 * WHAT CALLERS MUST GUARANTEE
 *
 * Nothing in the library can test these, and nothing is promised without them:
 *
 *  - Every pointer is valid and not NULL, also where its length is 0 (any
 *    address of an object then serves; of `lengths`, an aligned one).
 *  - Every length is the true one: that many bytes may be read, and of `out`,
 *    of an encryption's `tag` and of a seal's `slip` written. It is below 2^63.
 *    Of a forecast's journal only the heads of the records need be readable.
 *  - `lengths` points to an aligned array of lengths_len uint64_t, fewer than
 *    2^60.
 *  - `state` points to ARMFILE_STATE_BYTES bytes; `count`, `offset`, `bound`,
 *    `greatest` and the `n` of a join each to an aligned uint64_t; `verdict` to
 *    one byte; the `sum` of a join and the `out` of armfile_sum and of
 *    armfile_hash_key to 16 bytes. None of them needs a value before the call,
 *    but for a state that is read: that of an edit, a replay, a seal, a check
 *    or one of the five that read its fields.
 *  - What a call may write (a state that is not const, count, offset, bound,
 *    greatest, out, the tag of an encryption, the slip of a seal, verdict, the
 *    sum and the n of a join) overlaps nothing else that is passed to it: so no
 *    text is encrypted or decrypted in place. What is only read may overlap
 *    freely: old and new of a change may be the same bytes.
 *
 * TIME
 *
 * The code has no branch and no address that depends on a key, on a hash key,
 * on a running sum, that of a part too, on a file's bytes or on a text, but for
 * one jump in armfile_check and one in armfile_gcm_decrypt, each on whether the
 * tag fits, which is public once the call has answered. Two tags are compared
 * by one test of all their bits. The cipher has no table: it computes its
 * substitution by gates on bits. Time does depend on lengths, those of a file's
 * parts too, on places (p, n), on a blank file's fill byte, on the arm number,
 * on seal numbers, the last used one too, on a slip's bytes outside its tag and
 * on the heads of a journal's records; these are taken for public. A forecast
 * reads nothing else. Blocks are multiplied by multiplications of integers,
 * which are taken to last the same whatever they multiply, as they do on
 * x86-64; nothing is divided. This is observed of the compiled library
 * (tests/ct), but for how long a multiplication lasts, and is not part of what
 * is proved.
 *
 * STACK
 *
 * Bytes of stack that a call takes, with its return address and the arguments
 * that go by the stack. Of two figures the second is for inputs that are all
 * shorter than 512 bytes; a longer one is hashed by a table of powers of H,
 * which stands on the stack. A figure is the same at every length above 0, a
 * join's at every number of parts, and at 0 no more; but calls with two take
 * less at some, and an edit and a join where they need no power of H. A
 * start's is the same with fill 0 as with another. This is measured
 * (tests/stack), and is not part of what is proved:
 *
 *      armfile_encrypt      1144           armfile_drop_front     664
 *      armfile_multiply      168           armfile_cut_tail       504
 *      armfile_ghash       12904   408     armfile_replay         904
 *      armfile_join          472           armfile_forecast       232
 *      armfile_gmac        13512  1592     armfile_seal          1560
 *      armfile_gcm_encrypt 13464  4056     armfile_check         1416
 *      armfile_gcm_decrypt 13464  4056     armfile_length           8
 *      armfile_start        1336           armfile_arm              8
 *      armfile_read        13048  1272     armfile_last             8
 *      armfile_change        680           armfile_sum              8
 *      armfile_append        504           armfile_hash_key         8
 *      armfile_prepend       504
 *
 * WHAT TO WIPE
 *
 * A call leaves on the stack, below its caller's frame, what it worked with:
 * keys, hash keys, H, I and sums were found there after every call but the
 * three that read a state's public fields and armfile_forecast, which handles
 * no secret, and after the two of GCM also key stream, which is as good as the
 * text to whoever has the ciphertext. The library wipes nothing: what the
 * compiler copies where is out of the source's reach. A caller into whose stack
 * somebody else may look wipes, after the last call,
 *
 *  - the stack below itself, by calling, from the function that made the calls,
 *    one that is not inlined and overwrites at least as many bytes as the
 *    largest figure above (examples/c/seal.c overwrites 16384);
 *  - every state that is no longer used, copies too: it holds the key;
 *  - H and the sums that it took out of states or had from a join: whoever has
 *    H can forge tags, and to whoever knows a file its sum leaves few hash keys
 *    that fit;
 *  - its own copies of the key, and of texts that nobody else is to read.
 *
 * Slips, counts, offsets, forecasts, verdicts, nonces, ciphertexts and tags
 * that were sent are no secret. Registers were not looked into.
 *
 * COST
 *
 * Nanoseconds a call takes, the median of many, on one core of an Intel Xeon
 * server (no instruction for AES or for products of polynomials is used), all of
 * one run; other runs there took from nine tenths to nearly twice as long.
 * Those of a join and of a forecast are of an AMD EPYC server, where the others
 * took from three quarters to eleven tenths as long. Take them as orders of
 * magnitude, and `make cost` for your own machine:
 *
 *      armfile_start of 0 bytes, of 1 GiB of FF  9 000, 14 000
 *      armfile_read of 1 KiB, of 1 MiB        11 000, 1 400 000
 *      armfile_append of 16 bytes, of 4 KiB         260, 15 000
 *      armfile_change of 16 bytes, first of 1 GiB        2 900
 *      armfile_cut_tail of 16 bytes                        260
 *      armfile_seal, armfile_check                1 200, 1 200
 *      armfile_gmac of 1 KiB                             4 500
 *      armfile_gcm_encrypt of 1 KiB, of 1 MiB  9 800, 7 100 000
 *      armfile_gcm_decrypt of 1 KiB                      9 800
 *      armfile_encrypt, armfile_multiply             1 100, 90
 *      armfile_join of 1000 parts of 1 MiB           1 100 000
 *      armfile_forecast of 100 records                     730
 *
 * Most of what an edit takes is its products of blocks, some 57 each; it
 * returns how many it took. armfile_start returns how many a blank file took,
 * some 52 each. A join takes, for each part, one for each binary digit of its
 * number of blocks and one more for each one among those: 18 for 1 MiB. A block
 * of an input of 512 bytes or more takes some 21. What armfile_start and
 * armfile_read take besides the file is H's companion I, 127 squares and 127
 * products. A replay takes a little less than its edits when they are made
 * singly, and a forecast, which multiplies nothing, some 7 a record. Of GCM the
 * cipher takes four fifths, some 86 a block (what an encryption of 1 MiB takes
 * more than a read of it), and of up to two blocks behind the last sixteen some
 * 600 each. docs/BENCHMARKS.md has more, beside other libraries.
 *
 * THE STATE
 *
 * ARMFILE_STATE_BYTES bytes, big-endian, in this order:
 *
 *      at   bytes  what
 *       0     16   key
 *      16     16   hash key H, AES(key, zero block)
 *      32     16   I, H to the power 2^128 - 2
 *      48     16   running sum S of the file
 *      64      8   n, the file's length in bytes
 *      72      4   arm number
 *      76      8   last used seal number
 *
 * THE LAYOUT AND THE SIZE ARE PROVISIONAL until 32-byte keys are supported:
 * store no state that a later version must read, and write
 * ARMFILE_STATE_BYTES, never 84.
 *
 * The state is secret: it holds the key. It may be copied and stored; a copy
 * that is used later repeats seal numbers, which breaks GMAC, so never go back
 * to an older copy after a seal. A slip that a check finds ahead is a sign of
 * it (armfile_check()). Wiping it is the caller's (WHAT TO WIPE).
 * armfile_length(), armfile_arm() and armfile_last() read its public fields,
 * and armfile_sum() and armfile_hash_key() two of the secret ones, for a join:
 * no caller needs this layout.
 *
 * Any ARMFILE_STATE_BYTES bytes are taken as a state; no call trusts what it
 * finds there. Where n passes 2^61 - 1, every edit, replay, seal and check
 * refuses the state with 2 before all else, and a forecast such an n; otherwise
 * the call does its work on the fields as they are. Only states that come from
 * armfile_start or armfile_read and the calls after it stand for a file.
 *
 * A FILE IN PIECES
 *
 * A file that is never at hand as a whole is taken in from its front: by
 * armfile_start() with n = 0 and any fill byte, and an armfile_append() for
 * each piece, of any length. The state is then the one that armfile_read()
 * makes of the whole. Beside one armfile_read(), a piece takes at most two
 * products more for each binary digit of its number of blocks, and one more
 * where it begins inside a block: little, for pieces of some KiB, of whole
 * blocks. In time pieces cost more, since an append goes block by block and
 * armfile_read() by sixteen blocks at once: 16 MiB took 2.7 times as long in
 * pieces of 4 KiB as by one armfile_read(), 3.7 times in pieces of 256 bytes
 * and 2.6 times in pieces of 1 MiB.
 *
 * A file that is kept in parts, one a gripper, say, need not be read again as a
 * whole. Each part is read by an armfile_read() of its own, or has a controller
 * of its own; armfile_sum() and armfile_length() give its sum and its length,
 * and armfile_join() makes of these the sum and the length of the whole, under
 * the H that armfile_hash_key() gives. It takes one multiplication by a power
 * of H for each part, and reads no byte. Every part but the last must be of
 * whole blocks, and all must be under one key; controllers that seal under one
 * key must differ in their arm numbers. A joined whole may itself be a part, so
 * parts may be joined in groups, or as they come. The library cannot see
 * whether a sum is that of the part: where one is not, the sum of the whole
 * stands for no file.
 *
 * H AND SUMS ARE SECRETS, as the key is (WHAT TO WIPE). No call makes a state
 * of a sum and a length, but the tag of the whole follows from them: it is
 * (S + L) times H, by armfile_multiply(), plus AES(key, J), by
 * armfile_encrypt(). S is the sum; L is the length in bits, in 64 bits, and 64
 * zero bits; J is a nonce of 12 bytes and the number 1 in 32 bits. Numbers are
 * big-endian, and to add is exclusive or. With a slip's arm and seal number for
 * the nonce, it is the tag of a slip of the whole. One nonce must never serve
 * two files under one key, here as in a seal.
 *
 * TRUE BYTES
 *
 * The library cannot see the file. Where armfile_start is told of fill bytes,
 * armfile_change of old bytes, or armfile_drop_front or armfile_cut_tail of
 * removed bytes, that the file does not have at that place, the call is
 * accepted and the state stands for no file from then on: seals of it are not
 * GMAC of the file. The same goes for the records of a journal, each of which
 * meets the file that those before it left; a forecast is the same whether or
 * not they are true. The first change of blank bytes has fill bytes for its old
 * ones.
 */
#ifndef ARMFILE_H
#define ARMFILE_H

#include <stddef.h>
#include <stdint.h>

#ifdef __cplusplus
extern "C" {
#endif

/** \brief Size of a state in bytes; provisional (see above). */
#define ARMFILE_STATE_BYTES 84

/** \brief Size of a slip in bytes. */
#define ARMFILE_SLIP_BYTES 36

/** \brief Size in bytes of a block, a hash key, a hash and a tag; a key's. */
#define ARMFILE_BLOCK_BYTES 16

/** \brief The longest file, A, C, aad or nonce in bytes: 2^61 - 1. */
#define ARMFILE_MAX_BYTES UINT64_C(0x1fffffffffffffff)

/** \brief The longest journal in bytes: 2^40. */
#define ARMFILE_MAX_JOURNAL_BYTES UINT64_C(0x10000000000)

/** \brief The longest text to encrypt or to decrypt, in bytes: 2^36 - 32. */
#define ARMFILE_MAX_TEXT_BYTES UINT64_C(0xfffffffe0)

/**
 * \brief The version of a slip, in its first 3 bits: slip[0] >> 5. (The refusal
 * of a slip of another version is ARMFILE_SLIP_VERSION.)
 */
#define ARMFILE_SLIP_FORMAT 1

/*
 * Verdicts of a check. The last three together are what ARMFILE_GENUINE was.
 * That name is gone, so that code which tested for it no longer compiles: most
 * of it means ARMFILE_CURRENT. A verdict is no truth value (armfile_check()).
 */

/** \brief The slip is not genuine. */
#define ARMFILE_NOT_GENUINE 0
/** \brief The slip is genuine, and its number is the state's last used one. */
#define ARMFILE_CURRENT 1
/** \brief The slip is genuine, and its number is smaller: an old slip. */
#define ARMFILE_STALE 2
/** \brief The slip is genuine, and its number is larger. */
#define ARMFILE_AHEAD 3

/*
 * Refusals. Where several apply, the one that a function's description lists
 * first is returned.
 */

/** \brief Done. */
#define ARMFILE_OK 0
/** \brief Key, hash key or block is not 16 bytes. */
#define ARMFILE_KEY_OR_BLOCK_LENGTH 1
/** \brief A file, A, C, aad or nonce passes 2^61 - 1 bytes, or would. */
#define ARMFILE_TOO_LONG 2
/** \brief The bytes named do not all lie in the file. */
#define ARMFILE_OUT_OF_FILE 3
/** \brief Old and new differ in length. */
#define ARMFILE_UNEQUAL_PAIR 4
/**
 * \brief Prepend or drop-front of a length that is no multiple of 16, or a part
 * of such a length that is not the last of a join.
 */
#define ARMFILE_BROKEN_BLOCK 5
/** \brief The last used seal number is 2^64 - 1: no number is left. */
#define ARMFILE_NUMBERS_USED 6
/**
 * \brief A slip, to be written by a seal or judged by a check, is not 36
 * bytes; a text and its output differ in length; or a tag, or another output,
 * is not 16 bytes.
 */
#define ARMFILE_OUTPUT_LENGTH 7
/** \brief The slip's version is not ARMFILE_SLIP_FORMAT, 1. */
#define ARMFILE_SLIP_VERSION 8
/** \brief The nonce is empty. */
#define ARMFILE_EMPTY_NONCE 9
/** \brief The journal passes 2^40 bytes, or ends inside a record. */
#define ARMFILE_JOURNAL_LENGTH 10
/** \brief The record's kind is 0, 6 or 7. */
#define ARMFILE_RECORD_KIND 11
/** \brief The record is no change, and its place is not 0. */
#define ARMFILE_RECORD_PLACE 12
/** \brief A text to encrypt or to decrypt passes 2^36 - 32 bytes. */
#define ARMFILE_TEXT_TOO_LONG 13
/** \brief The tag does not fit: no text is released. */
#define ARMFILE_WRONG_TAG 14
/** \brief The sums of a join are not 16 bytes for each length. */
#define ARMFILE_SUMS_LENGTH 15

/* ==================================================================== */
/* Cipher, field, GHASH, join, GMAC and GCM: no state.                  */

/**
 * \brief AES-128 encryption of one block.
 *
 * Refused with 1 where `key_len` or `block_len` is not 16, then with 7 where
 * `out_len` is not 16.
 *
 * \param key        the key, 16 bytes.
 * \param key_len    its length; anything but 16 is refused.
 * \param block      the block to encrypt, 16 bytes.
 * \param block_len  its length; anything but 16 is refused.
 * \param out        receives the encrypted block, 16 bytes. It must not
 *                   overlap key or block.
 * \param out_len    its length; anything but 16 is refused.
 * \return 0, 1 or 7.
 */
uint64_t armfile_encrypt(const uint8_t *key, size_t key_len,
	const uint8_t *block, size_t block_len,
	uint8_t *out, size_t out_len);

/**
 * \brief The product of two blocks in GF(2^128), as SP 800-38D has it.
 *
 * The leftmost bit of a block is the coefficient of x^0; products are taken
 * modulo x^128 + x^7 + x^2 + x + 1. Refused with 1 where `a_len` or `b_len` is
 * not 16, then with 7 where `out_len` is not 16.
 *
 * \param a        the first factor, 16 bytes.
 * \param a_len    its length; anything but 16 is refused.
 * \param b        the second factor, 16 bytes; it may be a.
 * \param b_len    its length; anything but 16 is refused.
 * \param out      receives the product, 16 bytes. It must not overlap a or b.
 * \param out_len  its length; anything but 16 is refused.
 * \return 0, 1 or 7.
 */
uint64_t armfile_multiply(const uint8_t *a, size_t a_len,
	const uint8_t *b, size_t b_len,
	uint8_t *out, size_t out_len);

/**
 * \brief GHASH(h, a, c): over a padded, c padded and their bit lengths.
 *
 * Refused with 1 where `h_len` is not 16, then with 7 where `out_len` is not
 * 16, then with 2 where `a_len` or `c_len` passes 2^61 - 1 (the bit length
 * would not fit 64 bits). The work is one product for each 16 bytes of a and
 * of c, rounded up, and one more.
 *
 * \param h        the hash key, 16 bytes; zero is allowed.
 * \param h_len    its length; anything but 16 is refused.
 * \param a        the additional data; it may be empty.
 * \param a_len    its length, at most 2^61 - 1.
 * \param c        the ciphertext; it may be empty.
 * \param c_len    its length, at most 2^61 - 1.
 * \param out      receives the hash, 16 bytes. It must not overlap h, a or c.
 * \param out_len  its length; anything but 16 is refused.
 * \return 0, 1, 7 or 2.
 */
uint64_t armfile_ghash(const uint8_t *h, size_t h_len,
	const uint8_t *a, size_t a_len,
	const uint8_t *c, size_t c_len,
	uint8_t *out, size_t out_len);

/**
 * \brief Joins parts of a file: sum and length of the whole, from theirs.
 *
 * Part i, counted from 0 at the file's front, has the 16 bytes of `sums` from
 * 16 * i on for its sum, and `lengths[i]` for its length. A part's sum is the
 * one that armfile_sum() takes out of a state of it, or what a join of its own
 * parts gave. It counts times h to the number of blocks in the parts after it,
 * a length's blocks being a sixteenth of it, rounded up. `sum` receives what
 * the parts' sums so add up to, and `n` the total of the lengths. Where the
 * sums are those of the parts, these are sum and length of the joined bytes, as
 * armfile_read() makes them of the whole. No parts are the empty file, with a
 * sum of zero and a length of 0. No byte of a part is read.
 *
 * Refused with 1 where `h_len` is not 16, then with 15 where `sums_len` is not
 * 16 times `lengths_len`, then with 5 where any length but the last is no
 * multiple of 16, also where the last is 0, then with 2 where the total passes
 * 2^61 - 1 (as whole numbers: nothing wraps); sum and n then stay as they were.
 *
 * The work is at most two products for each binary digit of a part's number of
 * blocks, and one for a part of no bytes.
 *
 * \param h            the parts' hash key, 16 bytes (armfile_hash_key()); zero
 *                     is allowed. It is a secret.
 * \param h_len        its length; anything but 16 is refused.
 * \param sums         the parts' sums, one behind the other. They are secrets,
 *                     and are taken as they are (A FILE IN PIECES).
 * \param sums_len     their length in bytes; anything but 16 * lengths_len is
 *                     refused.
 * \param lengths      the parts' lengths in bytes, all but the last multiples
 *                     of 16. They are taken for public (TIME).
 * \param lengths_len  the number of parts; it may be 0.
 * \param sum          receives the sum of the whole, 16 bytes; a secret. It
 *                     must not overlap h, sums, lengths or n.
 * \param n            receives the length of the whole, at most 2^61 - 1. It
 *                     must not overlap h, sums or lengths.
 * \return 0, 1, 15, 5 or 2.
 */
uint64_t armfile_join(const uint8_t *h, size_t h_len,
	const uint8_t *sums, size_t sums_len,
	const uint64_t *lengths, size_t lengths_len,
	uint8_t sum[ARMFILE_BLOCK_BYTES], uint64_t *n);

/**
 * \brief AES-128 GMAC of a under a key and a nonce.
 *
 * A nonce of 12 bytes is used as it is, any other is hashed first (SP
 * 800-38D, 7.1). One nonce must never serve two messages under one key, nor a
 * message and a text of armfile_gcm_encrypt(). Refused with 1 where `key_len`
 * is not 16, then with 9 where `nonce_len` is 0, then with 7 where `out_len` is
 * not 16, then with 2 where `nonce_len` or `a_len` passes 2^61 - 1.
 *
 * \param key        the key, 16 bytes.
 * \param key_len    its length; anything but 16 is refused.
 * \param nonce      the nonce.
 * \param nonce_len  its length, from 1 to 2^61 - 1.
 * \param a          the message; it may be empty.
 * \param a_len      its length, at most 2^61 - 1.
 * \param out        receives the tag, 16 bytes. It must not overlap key, nonce
 *                   or a.
 * \param out_len    its length; anything but 16 is refused.
 * \return 0, 1, 9, 7 or 2.
 */
uint64_t armfile_gmac(const uint8_t *key, size_t key_len,
	const uint8_t *nonce, size_t nonce_len,
	const uint8_t *a, size_t a_len,
	uint8_t *out, size_t out_len);

/**
 * \brief AES-128 GCM encryption of a text.
 *
 * `out` receives the ciphertext, which is as long as the text, and `tag` the
 * tag, which vouches for the ciphertext and for the associated data `aad`. To
 * decrypt takes the same key, nonce and aad, the ciphertext and the whole tag;
 * of these the key alone is secret. The text's length is not hidden. A nonce of
 * 12 bytes is used as it is, any other is hashed first (SP 800-38D, 7.1). With
 * an empty text the tag is that of armfile_gmac().
 *
 * ONE NONCE MUST NEVER SERVE TWICE UNDER ONE KEY, and nothing here can see to
 * that. It must differ from every nonce that this call or armfile_gmac() was
 * ever given with the key, and from those of the key's seals: a seal's nonce is
 * 12 bytes, the arm number in 4 and the seal number in 8, big-endian. Two texts
 * under one nonce give each other away, since their ciphertexts add up to what
 * the texts do; and two tags under one nonce give the hash key away, with which
 * anyone can forge. A key that encrypts and does nothing else keeps clear of
 * all seals, and a number that is counted up and stored before it is used is a
 * good nonce of 12 bytes. Where nonces are chosen by chance, or are not all of
 * 12 bytes, at most 2^32 of them may be used with one key (SP 800-38D, 8.3).
 *
 * Refused with 1 where `key_len` is not 16, then with 9 where `nonce_len` is
 * 0, then with 7 where `tag_len` is not 16, or `text_len` and `out_len` differ,
 * then with 2 where `nonce_len` or `aad_len` passes 2^61 - 1, then with 13
 * where `text_len` passes 2^36 - 32, the standard's own limit (5.2.1.1). All
 * this is decided before any byte is read, and out and tag then stay as they
 * were.
 *
 * The work is one block of the cipher for each 16 bytes of text, rounded up,
 * and two more; and one product for each 16 bytes of aad and of text, rounded
 * up, and one more. A nonce that is not 12 bytes takes one product for each 16
 * of its bytes, rounded up, and one more.
 *
 * \param key        the key, 16 bytes.
 * \param key_len    its length; anything but 16 is refused.
 * \param nonce      the nonce; it need not be secret.
 * \param nonce_len  its length, from 1 to 2^61 - 1.
 * \param aad        the associated data, which the tag vouches for and which is
 *                   not encrypted; it may be empty.
 * \param aad_len    its length, at most 2^61 - 1.
 * \param text       the text to encrypt; it may be empty.
 * \param text_len   its length, at most 2^36 - 32.
 * \param out        receives the ciphertext. It must not overlap key, nonce,
 *                   aad, text or tag.
 * \param out_len    its length; anything but text_len is refused.
 * \param tag        receives the tag, 16 bytes. It must not overlap key, nonce,
 *                   aad, text or out.
 * \param tag_len    its length; anything but 16 is refused.
 * \return 0, 1, 9, 7, 2 or 13.
 */
uint64_t armfile_gcm_encrypt(const uint8_t *key, size_t key_len,
	const uint8_t *nonce, size_t nonce_len,
	const uint8_t *aad, size_t aad_len,
	const uint8_t *text, size_t text_len,
	uint8_t *out, size_t out_len,
	uint8_t *tag, size_t tag_len);

/**
 * \brief AES-128 GCM decryption of a ciphertext whose tag fits.
 *
 * The tag is tried first, over the ciphertext and aad. Exactly where it fits is
 * the ciphertext decrypted, the text written to `out`, and 0 returned. Where it
 * does not, 14 is returned, and nothing is decrypted: `out` keeps its old
 * bytes, so test the returned number before using them. What was encrypted with
 * the same key, nonce and aad comes back as it was. 14 means that at least one
 * of key, nonce, aad, ciphertext and tag is not that of the encryption; it does
 * not say which.
 *
 * Refused in the order of armfile_gcm_encrypt(), with 1, 9, 7, 2 and 13 for the
 * same lengths, before any byte is read; and last with 14. `out` then stays as
 * it was. A tag that was shortened, as the standard allows, is refused with 7.
 *
 * The work is that of the encryption, and where the tag does not fit, that
 * without the cipher's blocks of the text.
 *
 * \param key        the key, 16 bytes.
 * \param key_len    its length; anything but 16 is refused.
 * \param nonce      the nonce of the encryption.
 * \param nonce_len  its length, from 1 to 2^61 - 1.
 * \param aad        the associated data of the encryption; it may be empty.
 * \param aad_len    its length, at most 2^61 - 1.
 * \param text       the ciphertext; it may be empty, and the tag is then tried
 *                   all the same.
 * \param text_len   its length, at most 2^36 - 32.
 * \param out        receives the text. It must not overlap key, nonce, aad,
 *                   text or tag.
 * \param out_len    its length; anything but text_len is refused.
 * \param tag        the tag, 16 bytes; it is only read.
 * \param tag_len    its length; anything but 16 is refused.
 * \return 0, 1, 9, 7, 2, 13 or 14.
 */
uint64_t armfile_gcm_decrypt(const uint8_t *key, size_t key_len,
	const uint8_t *nonce, size_t nonce_len,
	const uint8_t *aad, size_t aad_len,
	const uint8_t *text, size_t text_len,
	uint8_t *out, size_t out_len,
	const uint8_t *tag, size_t tag_len);

/* ==================================================================== */
/* Making a state.                                                      */

/**
 * \brief A state of a blank file: n copies of one byte.
 *
 * So a file begins on an erased card: the fill byte is what its bytes then
 * read, 0xff on many cards. n = 0 is the empty file, whatever the fill byte. No
 * byte is read; the state is the one that armfile_read() makes of n such bytes.
 * A partial last block counts as padded with zeros, as that of any file does.
 *
 * The count is the number of field products that the running sum took; those of
 * H's companion I are not counted. For n = 0 and for fill 0 the sum is zero and
 * the count 0. Otherwise it follows from m, the number of 16-byte blocks,
 * rounded up: with m - 1 in binary, two for each digit after the highest, two
 * more for each one among those, and three. So it is 3 for 1 to 32 bytes, 5 for
 * 40, 103 for 1 GiB, and at most 227, for 2^61 - 1.
 *
 * Refused with 1 where `key_len` is not 16, then with 2 where n passes
 * 2^61 - 1; state and count then stay as they were.
 *
 * \param key      the key, 16 bytes; it is copied into the state.
 * \param key_len  its length; anything but 16 is refused.
 * \param arm      the arm number, which goes into every slip and nonce.
 * \param last     the last used seal number: 0 for a new key, and for a key
 *                 that has sealed before, the highest number that any of its
 *                 seals on this arm carried. A number that is used twice
 *                 breaks GMAC, and armfile_check() measures slips by this one.
 *                 2^64 - 1 is taken; a seal is then refused.
 * \param n        the file's length in bytes, at most 2^61 - 1.
 * \param fill     the byte of which the file is n copies, 0 to 255; see TRUE
 *                 BYTES. It is taken for public, as n is (TIME).
 * \param state    receives the state, ARMFILE_STATE_BYTES bytes.
 * \param count    receives the number of products, at most 227; its value may
 *                 be ignored.
 * \return 0, 1 or 2.
 */
uint64_t armfile_start(const uint8_t *key, size_t key_len,
	uint32_t arm, uint64_t last, uint64_t n, uint8_t fill,
	uint8_t state[ARMFILE_STATE_BYTES], uint64_t *count);

/**
 * \brief A state of a file that is at hand.
 *
 * The file is read once and not kept. Refused with 1 where `key_len` is not
 * 16, then with 2 where `file_len` passes 2^61 - 1; the lent state then stays
 * as it was.
 *
 * \param key       the key, 16 bytes; it is copied into the state.
 * \param key_len   its length; anything but 16 is refused.
 * \param arm       the arm number, as for armfile_start().
 * \param last      the last used seal number, as for armfile_start().
 * \param file      the file's bytes; it may be empty.
 * \param file_len  its length, at most 2^61 - 1.
 * \param state     receives the state, ARMFILE_STATE_BYTES bytes.
 * \return 0, 1 or 2.
 */
uint64_t armfile_read(const uint8_t *key, size_t key_len,
	uint32_t arm, uint64_t last,
	const uint8_t *file, size_t file_len, uint8_t state[ARMFILE_STATE_BYTES]);

/* ==================================================================== */
/* What a state holds. These five take any state and refuse none: what  */
/* the first three return is no refusal's number, and the last two      */
/* return nothing.                                                      */

/**
 * \brief The file's length in bytes.
 *
 * \param state  the state, ARMFILE_STATE_BYTES bytes; it is only read.
 * \return the length: at most 2^61 - 1 in a state that stands for a file.
 */
uint64_t armfile_length(const uint8_t state[ARMFILE_STATE_BYTES]);

/**
 * \brief The arm number.
 *
 * \param state  the state, ARMFILE_STATE_BYTES bytes; it is only read.
 * \return the arm number.
 */
uint32_t armfile_arm(const uint8_t state[ARMFILE_STATE_BYTES]);

/**
 * \brief The last used seal number.
 *
 * \param state  the state, ARMFILE_STATE_BYTES bytes; it is only read.
 * \return the number of the last seal, or the number given to armfile_start()
 *         or armfile_read() where there was none since.
 */
uint64_t armfile_last(const uint8_t state[ARMFILE_STATE_BYTES]);

/**
 * \brief The file's running sum S, for a join.
 *
 * IT IS A SECRET: to whoever knows the file it leaves few hash keys that fit
 * (WHAT TO WIPE).
 *
 * \param state  the state, ARMFILE_STATE_BYTES bytes; it is only read.
 * \param out    receives the sum, 16 bytes, whatever the state is. It must not
 *               overlap state.
 */
void armfile_sum(const uint8_t state[ARMFILE_STATE_BYTES],
	uint8_t out[ARMFILE_BLOCK_BYTES]);

/**
 * \brief The hash key H, for a join.
 *
 * IT IS A SECRET: whoever has it can forge slips (WHAT TO WIPE). All states
 * under one key have the same.
 *
 * \param state  the state, ARMFILE_STATE_BYTES bytes; it is only read.
 * \param out    receives the hash key, 16 bytes, whatever the state is. It must
 *               not overlap state.
 */
void armfile_hash_key(const uint8_t state[ARMFILE_STATE_BYTES],
	uint8_t out[ARMFILE_BLOCK_BYTES]);

/* ==================================================================== */
/* The five edits.                                                      */
/*                                                                      */
/* Each is given the bytes it puts in or takes out, and never the rest  */
/* of the file. Each is refused with 2, before all else, where the      */
/* state's length passes 2^61 - 1. On a refusal state and count stay as */
/* they were. An edit of no bytes that passes its checks is accepted,   */
/* leaves the state as it was and counts 0. The count is the number of  */
/* field products that the edit took: one for each 16-byte block that   */
/* the given bytes touch, and at most two for each binary digit of the  */
/* file's block count, the larger of before and after. It is the edit's */
/* cost, and its value may be ignored; `count` must still point to a    */
/* uint64_t.                                                            */

/**
 * \brief Replaces bytes in place: bytes p to p + new_len - 1 become new.
 *
 * Refused with 4 where `old_len` and `new_len` differ, then with 3 where
 * p + old_len passes the file's length (as whole numbers: nothing wraps). A
 * change of no bytes at p = n is accepted, at p = n + 1 refused with 3.
 *
 * \param state    the state, ARMFILE_STATE_BYTES bytes; updated.
 * \param p        the first byte's place, counted from 0.
 * \param old      the bytes that stand there now; see TRUE BYTES.
 * \param old_len  their number.
 * \param new_     the bytes to stand there.
 * \param new_len  their number; it must be old_len.
 * \param count    receives the number of products.
 * \return 0, 2, 4 or 3.
 */
uint64_t armfile_change(uint8_t state[ARMFILE_STATE_BYTES], uint64_t p,
	const uint8_t *old, size_t old_len,
	const uint8_t *new_, size_t new_len, uint64_t *count);

/**
 * \brief Puts bytes after the last.
 *
 * Any length; an append may begin and end inside a block. Refused with 2
 * where the new length would pass 2^61 - 1.
 *
 * \param state      the state, ARMFILE_STATE_BYTES bytes; updated.
 * \param bytes      the bytes.
 * \param bytes_len  their number.
 * \param count      receives the number of products.
 * \return 0 or 2.
 */
uint64_t armfile_append(uint8_t state[ARMFILE_STATE_BYTES],
	const uint8_t *bytes, size_t bytes_len, uint64_t *count);

/**
 * \brief Puts bytes before the first.
 *
 * Refused with 5 where `bytes_len` is no multiple of 16, then with 2 where the
 * new length would pass 2^61 - 1.
 *
 * \param state      the state, ARMFILE_STATE_BYTES bytes; updated.
 * \param bytes      the bytes.
 * \param bytes_len  their number, a multiple of 16.
 * \param count      receives the number of products.
 * \return 0, 2 or 5.
 */
uint64_t armfile_prepend(uint8_t state[ARMFILE_STATE_BYTES],
	const uint8_t *bytes, size_t bytes_len, uint64_t *count);

/**
 * \brief Takes bytes off the front.
 *
 * Refused with 5 where `bytes_len` is no multiple of 16, then with 3 where it
 * passes the file's length.
 *
 * \param state      the state, ARMFILE_STATE_BYTES bytes; updated.
 * \param bytes      the file's first bytes_len bytes; see TRUE BYTES.
 * \param bytes_len  how many to take off, a multiple of 16.
 * \param count      receives the number of products.
 * \return 0, 2, 5 or 3.
 */
uint64_t armfile_drop_front(uint8_t state[ARMFILE_STATE_BYTES],
	const uint8_t *bytes, size_t bytes_len, uint64_t *count);

/**
 * \brief Takes bytes off the end.
 *
 * Any length up to the file's. Refused with 3 where `bytes_len` passes the
 * file's length.
 *
 * \param state      the state, ARMFILE_STATE_BYTES bytes; updated.
 * \param bytes      the file's last bytes_len bytes; see TRUE BYTES.
 * \param bytes_len  how many to take off.
 * \param count      receives the number of products.
 * \return 0, 2 or 3.
 */
uint64_t armfile_cut_tail(uint8_t state[ARMFILE_STATE_BYTES],
	const uint8_t *bytes, size_t bytes_len, uint64_t *count);

/* ==================================================================== */
/* A journal of edits.                                                  */
/*                                                                      */
/* A journal is records back to back. A record is a head of 12 bytes,   */
/* packed most significant bit first, and the bytes of one edit:        */
/*                                                                      */
/*   3 bits   kind: 1 change, 2 append, 3 prepend, 4 drop-front,        */
/*            5 cut-tail                                                */
/*  61 bits   place p: that of a change; 0 in a record of another kind  */
/*  32 bits   length l                                                  */
/*   l bytes  those of the edit, or for a change l old ones and then    */
/*            l new ones                                                */
/*                                                                      */
/* So an append of two bytes, 61 and 62, is the record, in hexadecimal, */
/* 40 00 00 00 00 00 00 00  00 00 00 02  61 62.                         */
/*                                                                      */
/* A replay runs a journal, and a forecast says before what it will do. */
/* These two calls always write, whatever they return.                  */

/**
 * \brief Replays a journal: makes the edits of its records in order, up to the
 * first that is refused.
 *
 * UNLIKE EVERY CALL BUT armfile_forecast(), THIS ONE ALWAYS WRITES: whatever it
 * returns, it puts state, count and offset. They are those of the records
 * before the refused one, and of all records where none is refused: the state
 * that the same edits leave when they are made singly, the sum of their counts,
 * and the number of bytes of those records. So `offset` is the refused record's
 * first byte, counted from 0, or `journal_len` where 0 is returned.
 *
 * A caller who wants all or nothing keeps a copy of the state's
 * ARMFILE_STATE_BYTES bytes, puts it back where the call is refused, and wipes
 * it afterwards. No record seals, so going back repeats no seal number.
 *
 * Refused with 2 where the state's length passes 2^61 - 1, then with 10 where
 * `journal_len` passes 2^40; no byte of the journal is then read, the state is
 * as it was, and count and offset are 0. Then, of each record in turn, with 10
 * where fewer bytes remain than it needs: 12, then 2l more for a change and l
 * for any other kind, those that are refused among them; then with 11 where its
 * kind is 0, 6 or 7, then with 12 where p is not 0 and the kind is not 1, then
 * as its edit is: append with 2; prepend with 5, then 2; drop-front with 5,
 * then 3; change and cut-tail with 3. An edit of no bytes is a record like any
 * other. An empty journal is accepted where the state is, and counts 0.
 *
 * A journal may come in pieces: where one ends inside a record 10 is returned,
 * and the next call is given the bytes from `offset` on and those that follow
 * them. Count and offset are then of that piece alone, and the buffer must hold
 * the longest record whole. At the journal's true end 10 means that it was cut
 * short or damaged.
 *
 * \param state        the state, ARMFILE_STATE_BYTES bytes; updated, also where
 *                     the call is refused.
 * \param journal      the journal; it may be empty. It must not overlap state,
 *                     count or offset.
 * \param journal_len  its length, at most 2^40.
 * \param count        receives the number of products of all the records
 *                     before `offset`.
 * \param offset       receives the first byte of the refused record, or
 *                     journal_len. It must not be count.
 * \return 0, 2, 10, 11, 12, 5 or 3.
 */
uint64_t armfile_replay(uint8_t state[ARMFILE_STATE_BYTES],
	const uint8_t *journal, size_t journal_len,
	uint64_t *count, uint64_t *offset);

/**
 * \brief Forecasts a replay: the most products that it will count, the greatest
 * length that the file will reach, and where it will stop.
 *
 * A pendant asks this before a journal is run: how long to wait, and how long
 * the file will get. The answer is of an armfile_replay() of the journal to a
 * state of `n` bytes, and follows from n, from journal_len and from the heads
 * of the records. It takes no key and no state, and changes none. Who has a
 * state passes armfile_length(state).
 *
 * THIS CALL ALWAYS WRITES, as armfile_replay() does: whatever it returns, it
 * puts bound, greatest and offset. They are those of the records before the
 * refused one, and of all records where none is refused.
 *
 *  - `bound`: armfile_replay() counts at most so many products. It is the sum,
 *    over the edits of at least one byte, of one for each 16-byte block that
 *    the edit's bytes touch, and two for each binary digit of the file's block
 *    count, the larger of before and after. An edit of no bytes adds nothing.
 *    COST says what a product takes.
 *  - `greatest`: the largest of n and the file's lengths after each of these
 *    records. It is exact.
 *  - `offset`: the refused record's first byte, counted from 0, or journal_len
 *    where 0 is returned; the one that armfile_replay() puts.
 *
 * Of the journal only the heads are read, the 12 bytes where each record
 * begins, up to the refused one. What stands between them may still be on its
 * way, or lie in memory that is slow, or that cannot be read. So the time goes
 * by the number of records and not by their bytes, and whether old and removed
 * bytes are true does not matter. That the answer follows from the heads alone
 * is proved; that no other byte is read is observed of the compiled library
 * (tests/ct, tests/rust), and is not part of what is proved.
 *
 * Refused as armfile_replay() would be, at the same record: with 2 where `n`
 * passes 2^61 - 1, then with 10 where `journal_len` passes 2^40; no byte of the
 * journal is then read, bound and offset are 0, and greatest is n. Then, of
 * each record in turn, with 10, 11 and 12 and as its edit is, for the causes
 * and in the order of armfile_replay(). An empty journal is accepted where n
 * is: bound and offset are 0, and greatest is n.
 *
 * The length after the last record is not told. So of a journal that comes in
 * pieces each is forecast when those before it have been replayed.
 *
 * \param n            the file's length in bytes before the first record, at
 *                     most 2^61 - 1.
 * \param journal      the journal; it may be empty. It must not overlap bound,
 *                     greatest or offset.
 * \param journal_len  its length, at most 2^40.
 * \param bound        receives the most products that the records before
 *                     `offset` will take.
 * \param greatest     receives the greatest length, at least n. It must not be
 *                     bound.
 * \param offset       receives the first byte of the refused record, or
 *                     journal_len. It must not be bound or greatest.
 * \return 0, 2, 10, 11, 12, 5 or 3.
 */
uint64_t armfile_forecast(uint64_t n,
	const uint8_t *journal, size_t journal_len,
	uint64_t *bound, uint64_t *greatest, uint64_t *offset);

/* ==================================================================== */
/* Seal and check.                                                      */
/*                                                                      */
/* A slip is ARMFILE_SLIP_BYTES bytes, most significant bit first:      */
/* version (3 bits, value 1), the file's length in bytes (61 bits), arm */
/* number (32 bits), seal number (64 bits), tag (128 bits). Arm and     */
/* seal number are the 12-byte nonce of the tag. A slip is no secret.   */

/**
 * \brief Seals the file: writes a slip under the next seal number.
 *
 * The last used seal number rises by one, and the slip carries the new one. So
 * a state that was started with last = 0 numbers its first seal 1. Refused
 * with 2 where the state's length passes 2^61 - 1, then with 7 where
 * `slip_len` is not 36, then with 6 where the last used number is 2^64 - 1;
 * state and slip then stay as they were.
 *
 * Store the state before the slip leaves the controller. After a crash a state
 * that was stored before the seal would use the slip's number again, and a
 * repeated number gives the hash key away.
 *
 * \param state     the state, ARMFILE_STATE_BYTES bytes; its last used seal
 *                  number is raised.
 * \param slip      receives the slip, ARMFILE_SLIP_BYTES bytes.
 * \param slip_len  its length; anything but 36 is refused.
 * \return 0, 2, 7 or 6.
 */
uint64_t armfile_seal(uint8_t state[ARMFILE_STATE_BYTES],
	uint8_t *slip, size_t slip_len);

/**
 * \brief Says whether a slip is genuine, and whether it is the newest.
 *
 * It is genuine exactly when its length is the file's, its arm is the state's
 * and its tag is the file's under the slip's own arm and seal number. The
 * verdict on a genuine slip then goes by its seal number beside the state's
 * last used one, that of armfile_last():
 *
 *  - ARMFILE_NOT_GENUINE, 0: the slip is not genuine, whatever its number.
 *  - ARMFILE_CURRENT, 1: it is genuine, and its number is the last used. No
 *    other genuine slip is that of the newest seal.
 *  - ARMFILE_STALE, 2: it is genuine, and its number is smaller.
 *  - ARMFILE_AHEAD, 3: it is genuine, and its number is larger.
 *
 * Current, stale and ahead together are what genuine was when it was one
 * verdict, ARMFILE_GENUINE.
 *
 * DO NOT TEST THE VERDICT FOR NON-ZERO OR FOR TRUE. Such a test was right when
 * 1 was the only other verdict. It still compiles, and takes stale and ahead
 * slips too: the arm is then content with an old card. Test
 * `verdict == ARMFILE_CURRENT`, and lend no bool for the verdict's byte.
 *
 * A stale slip is, as a rule, that of an old card which was put back. As far as
 * GMAC can tell, the bytes that were sealed are those of the file held, which
 * has kept them or come back to them; but a later number was used since, and
 * the slip is not the newest.
 *
 * A slip that is ahead was sealed, as far as GMAC can tell, with this key, for
 * this arm and of these bytes, but this state has not come as far as its
 * number: an older copy of the state was put back, another controller with the
 * same key and arm sealed, or the state was begun with too small a `last`. Its
 * next seals may then give numbers that were given before, and a number that is
 * given twice is a nonce used twice under one key, which gives the hash key
 * away. DO NOT GO ON SEALING WITH SUCH A STATE before its last used number is
 * made right: make it anew, by armfile_read() or in pieces, with the highest
 * number of all seals, that slip's at the least, for `last`.
 *
 * Who reads a file only to check its slip gives the true `last` too: with 0,
 * every genuine slip that a seal wrote is ahead. A slip that was just sealed is
 * current; after an edit, as a rule, no slip is until the next seal.
 *
 * Refused with 2 where the state's length passes 2^61 - 1, then with 7 where
 * `slip_len` is not 36, then with 8 where the slip's version is not 1; the
 * verdict then stays as it was, so test the returned number first.
 *
 * \param state     the state, ARMFILE_STATE_BYTES bytes; it is only read.
 * \param slip      the slip to judge, any bytes.
 * \param slip_len  its length; anything but 36 is refused.
 * \param verdict   receives ARMFILE_NOT_GENUINE, ARMFILE_CURRENT,
 *                  ARMFILE_STALE or ARMFILE_AHEAD.
 * \return 0, 2, 7 or 8.
 */
uint64_t armfile_check(const uint8_t state[ARMFILE_STATE_BYTES],
	const uint8_t *slip, size_t slip_len, uint8_t *verdict);

#ifdef __cplusplus
}
#endif

#endif
