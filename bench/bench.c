/*
 * Times of the library's calls, and of the same work in BearSSL, OpenSSL, nettle, libgcrypt and mbedTLS where they are installed. bench/run
 * builds and runs this twice, with the peers' hardware paths and without them, and makes tables and plots of what it prints:
 *
 *     bench              # the peers use the instructions for AES and for products of polynomials that the processor has
 *     bench masked       # libgcrypt and mbedTLS don't, and BearSSL's calls that do are left out; OpenSSL and nettle take this by environment
 *
 * A line is: what, length in bytes, who, the best time of a call in nanoseconds, the median; with tabs between. What:
 *
 *  - ghash: GHASH of n bytes as additional data, with its length block. Of BearSSL one br_ghash_* of the message and the length block behind
 *    it. OpenSSL's CRYPTO_gcm128_* and nettle's gcm_* take the block cipher as a function: here it answers the hash key while the key's table
 *    is made, which is not timed, and zero afterwards. So what is left of GCM is GHASH.
 *  - gmac: GMAC of n bytes with a nonce of 12, for the peers that show no GHASH. The library's call takes a key, so it expands the key and makes
 *    H each time; of the peers the key's schedule and tables are made before.
 *  - product: armfile_multiply. Of BearSSL one br_ghash_* of a zero block, started with one factor, under the other.
 *  - block: AES-128 of one block, with the key's expansion in each call.
 *  - counter: counter mode alone, the schedule made before. The library has no such call, and the report works it out: encrypt less refusal.
 *  - encrypt, decrypt: GCM of n bytes without additional data, with a nonce of 12. Keys as in gmac.
 *  - refusal: armfile_gcm_decrypt where the tag does not fit, which does all that an encryption does, but for the cipher's blocks of the text.
 *  - change 1, change 4096: armfile_change of that many bytes at place 0 of a file of n zero bytes. start (of n zero bytes too), read, seal,
 *    check: the calls.
 *  - join: armfile_join of the parts of 1 MiB that n bytes have. Most of their sums are of chance, since no part is read.
 *  - forecast, replay: of a journal of appends of 4 KiB, n bytes in all, to a file of n zero bytes.
 *
 * BearSSL's counter mode and GCM work in place.
 *
 * Before anything is timed, all results are compared, byte by byte, with the library's. In each of ROUNDS rounds every call has a batch of BATCH
 * nanoseconds or more of the process's own time, one call after the other; texts of 1 MiB and more have one in some of the rounds (see step).
 */
#define _POSIX_C_SOURCE 199309L
#include <stdio.h>
#include <stdlib.h>
#include <string.h>
#include <time.h>
#include "armfile.h"
#ifdef BEARSSL
#include <bearssl.h>
#endif
#ifdef OPENSSL
#include <openssl/evp.h>
#include <openssl/modes.h>
#endif
#ifdef NETTLE
#include <nettle/aes.h>
#include <nettle/ctr.h>
#include <nettle/gcm.h>
#endif
#ifdef GCRYPT
#include <gcrypt.h>
#endif
#ifdef MBEDTLS
#include <mbedtls/aes.h>
#include <mbedtls/gcm.h>
#endif

#define ROUNDS 129
#define BATCH 200000
#define CHECKED 1024 /* results are compared at all multiples of 16 up to this, and at the lengths that are timed */
#define LONGEST ((size_t)16 << 20)
#define PART ((size_t)1 << 20)
#define PARTS 1000
#define HEAD 12 /* a record's: kind, place and length */
#define RECORD 4096
#define RECORDS 1000
#define JOBS 512

/*
 * What calls work on. Each takes key, hash key, nonce and the first n bytes of text, or of sent where it decrypts; or what out holds, where it
 * works in place. It leaves bytes in out, and in tag a hash, a product, a tag, or 1 where the tag that it was given fits.
 */
struct given {
	size_t n;
	uint8_t fits[16];                   /* the tag of the first n bytes of sent */
	uint8_t state[ARMFILE_STATE_BYTES]; /* a file of n zero bytes */
};
static const struct given *given;
static uint8_t key[16], h[16], nonce[12], *text, *sent, *out, tag[16];
static const uint8_t zero[4096];
static int masked;

typedef void call(void);
enum { GHASH, GMAC, PRODUCT, BLOCK, COUNTER, ENCRYPT, DECRYPT, REFUSAL, OPS };

/* ---- this library */

static uint8_t state[ARMFILE_STATE_BYTES], sealed[ARMFILE_STATE_BYTES], slip[ARMFILE_SLIP_BYTES], verdict;
static uint64_t refused, products; /* refused: whether any call was */
static uint8_t part_h[16], sums[16 * PARTS];
static uint64_t part_lengths[PARTS], total;
static uint8_t journal[RECORDS * (HEAD + RECORD)];
static uint64_t bound, greatest, offset;

static void own_ghash(void) { refused |= armfile_ghash(h, 16, text, given->n, text, 0, tag, 16); }
static void own_gmac(void) { refused |= armfile_gmac(key, 16, nonce, 12, text, given->n, tag, 16); }
static void own_product(void) { refused |= armfile_multiply(h, 16, text, 16, tag, 16); }
static void own_block(void) { refused |= armfile_encrypt(key, 16, text, 16, out, 16); }
static void own_encrypt(void) { refused |= armfile_gcm_encrypt(key, 16, nonce, 12, zero, 0, text, given->n, out, given->n, tag, 16); }
static void own_decrypt(void)
{
	refused |= armfile_gcm_decrypt(key, 16, nonce, 12, zero, 0, sent, given->n, out, given->n, given->fits, 16);
	tag[0] = 1;
}
static void own_refusal(void)
{
	refused |= armfile_gcm_decrypt(key, 16, nonce, 12, zero, 0, sent, given->n, out, given->n, zero, 16) != ARMFILE_WRONG_TAG;
}
static void change(size_t bytes)
{
	memcpy(state, given->state, sizeof state);
	refused |= armfile_change(state, 0, zero, bytes, text, bytes, &products);
}
static void own_change_1(void) { change(1); }
static void own_change_4096(void) { change(4096); }
static void own_start(void) { refused |= armfile_start(key, 16, 7, 0, given->n, 0, state, &products); }
static void own_read(void) { refused |= armfile_read(key, 16, 7, 0, text, given->n, state); }
static void own_seal(void) { refused |= armfile_seal(sealed, slip, sizeof slip); }
static void own_check(void)
{
	refused |= armfile_check(sealed, slip, sizeof slip, &verdict);
	refused |= verdict != ARMFILE_CURRENT;
}
static void own_join(void)
{
	size_t parts = given->n / PART;

	refused |= armfile_join(part_h, 16, sums, 16 * parts, part_lengths, parts, tag, &total);
}
static void own_forecast(void) { refused |= armfile_forecast(given->n, journal, sizeof journal, &bound, &greatest, &offset); }
static void own_replay(void)
{
	memcpy(state, given->state, sizeof state);
	refused |= armfile_replay(state, journal, sizeof journal, &products, &offset);
}

/* ---- BearSSL */

struct bear;
#ifdef BEARSSL
static struct bear {
	const char *hash_name, *cipher_name;
	br_ghash hash;
	const br_block_cbcenc_class *cbc;
	const br_block_ctr_class *ctr;
	br_aes_gen_ctr_keys keys;
	br_gcm_context gcm;
} bears[] = {
	{.hash_name = "ctmul", .cipher_name = "aes_ct", .hash = br_ghash_ctmul, .cbc = &br_aes_ct_cbcenc_vtable, .ctr = &br_aes_ct_ctr_vtable},
	{.hash_name = "ctmul64", .cipher_name = "aes_ct64", .hash = br_ghash_ctmul64, .cbc = &br_aes_ct64_cbcenc_vtable,
		.ctr = &br_aes_ct64_ctr_vtable},
	{.hash_name = "pclmul", .cipher_name = "aes_x86ni"}, /* filled where the processor has the instructions, and left out where masked */
}, *bear;
static void bear_init(void)
{
	bears[2].hash = masked ? 0 : br_ghash_pclmul_get();
	bears[2].cbc = br_aes_x86ni_cbcenc_get_vtable();
	bears[2].ctr = br_aes_x86ni_ctr_get_vtable();
}
static void bear_key(void)
{
	bear->ctr->init(&bear->keys.vtable, key, 16);
	br_gcm_init(&bear->gcm, &bear->keys.vtable, bear->hash);
}
static void bear_ghash(void)
{
	uint64_t bits = (uint64_t)given->n * 8;
	uint8_t *lengths = text + given->n;

	for (int i = 0; i < 8; i++)
		lengths[i] = (uint8_t)(bits >> (56 - 8 * i));
	memset(lengths + 8, 0, 8);
	memset(tag, 0, 16);
	bear->hash(tag, h, text, given->n + 16);
}
static void bear_product(void)
{
	memcpy(tag, text, 16);
	bear->hash(tag, h, zero, 16);
}
static void bear_block(void)
{
	br_aes_gen_cbcenc_keys once;
	uint8_t iv[16] = {0};

	bear->cbc->init(&once.vtable, key, 16);
	bear->cbc->run(&once.vtable, iv, out, 16);
}
static void bear_counter(void) { bear->ctr->run(&bear->keys.vtable, nonce, 2, out, given->n); }
static void bear_gcm(const uint8_t *aad, size_t aad_len, int encrypt, size_t n)
{
	br_gcm_reset(&bear->gcm, nonce, 12);
	br_gcm_aad_inject(&bear->gcm, aad, aad_len);
	br_gcm_flip(&bear->gcm);
	br_gcm_run(&bear->gcm, encrypt, out, n);
}
static void bear_gmac(void) { bear_gcm(text, given->n, 1, 0), br_gcm_get_tag(&bear->gcm, tag); }
static void bear_encrypt(void) { bear_gcm(zero, 0, 1, given->n), br_gcm_get_tag(&bear->gcm, tag); }
static void bear_decrypt(void) { bear_gcm(zero, 0, 0, given->n), tag[0] = (uint8_t)br_gcm_check_tag(&bear->gcm, given->fits); }
#endif

/* ---- OpenSSL */

/* What stands in for the cipher where GHASH alone is wanted: the hash key while tables are made, then zero. */
#if defined OPENSSL || defined NETTLE
static const uint8_t *answer = zero;
#endif
#ifdef OPENSSL
static GCM128_CONTEXT *bare;
static EVP_CIPHER_CTX *ecb, *ctr, *sealer, *opener;
static int done; /* bytes that a call wrote; check sees to the result */
static void no_cipher(const unsigned char in[16], unsigned char to[16], const void *unused)
{
	(void)in, (void)unused;
	memcpy(to, answer, 16);
}
static void openssl_init(void)
{
	bare = CRYPTO_gcm128_new(NULL, no_cipher);
	ecb = EVP_CIPHER_CTX_new(), ctr = EVP_CIPHER_CTX_new(), sealer = EVP_CIPHER_CTX_new(), opener = EVP_CIPHER_CTX_new();
}
static void openssl_key(void)
{
	answer = h;
	CRYPTO_gcm128_init(bare, NULL, no_cipher);
	answer = zero;
	EVP_EncryptInit_ex(ecb, EVP_aes_128_ecb(), NULL, key, NULL);
	EVP_EncryptInit_ex(ctr, EVP_aes_128_ctr(), NULL, key, NULL);
	EVP_EncryptInit_ex(sealer, EVP_aes_128_gcm(), NULL, key, NULL);
	EVP_DecryptInit_ex(opener, EVP_aes_128_gcm(), NULL, key, NULL);
}
static void openssl_ghash(void)
{
	CRYPTO_gcm128_setiv(bare, nonce, 12);
	CRYPTO_gcm128_aad(bare, text, given->n);
	CRYPTO_gcm128_tag(bare, tag, 16);
}
static void openssl_block(void)
{
	EVP_EncryptInit_ex(ecb, NULL, NULL, key, NULL);
	EVP_EncryptUpdate(ecb, out, &done, text, 16);
}
static void openssl_counter(void)
{
	uint8_t first[16] = {[15] = 2};

	memcpy(first, nonce, 12);
	EVP_EncryptInit_ex(ctr, NULL, NULL, NULL, first);
	EVP_EncryptUpdate(ctr, out, &done, text, (int)given->n);
}
static void openssl_seal(uint8_t *to)
{
	EVP_EncryptInit_ex(sealer, NULL, NULL, NULL, nonce);
	EVP_EncryptUpdate(sealer, to, &done, text, (int)given->n); /* to no place: additional data */
	EVP_EncryptFinal_ex(sealer, tag, &done);
	EVP_CIPHER_CTX_ctrl(sealer, EVP_CTRL_AEAD_GET_TAG, 16, tag);
}
static void openssl_gmac(void) { openssl_seal(NULL); }
static void openssl_encrypt(void) { openssl_seal(out); }
static void openssl_decrypt(void)
{
	uint8_t expected[16];

	memcpy(expected, given->fits, 16);
	EVP_DecryptInit_ex(opener, NULL, NULL, NULL, nonce);
	EVP_CIPHER_CTX_ctrl(opener, EVP_CTRL_AEAD_SET_TAG, 16, expected);
	EVP_DecryptUpdate(opener, out, &done, sent, (int)given->n);
	tag[0] = EVP_DecryptFinal_ex(opener, expected, &done) == 1;
}
#endif

/* ---- nettle */

#ifdef NETTLE
static struct gcm_key bare_key;
static struct gcm_ctx bare_ctx;
static struct gcm_aes128_ctx aes_gcm;
static struct aes128_ctx aes;
static void no_nettle_cipher(const void *unused, size_t n, uint8_t *to, const uint8_t *from)
{
	(void)unused, (void)from;
	memcpy(to, answer, n);
}
static void nettle_key(void)
{
	answer = h;
	gcm_set_key(&bare_key, NULL, no_nettle_cipher);
	answer = zero;
	gcm_aes128_set_key(&aes_gcm, key);
	aes128_set_encrypt_key(&aes, key);
}
static void nettle_ghash(void)
{
	gcm_set_iv(&bare_ctx, &bare_key, 12, nonce);
	gcm_update(&bare_ctx, &bare_key, given->n, text);
	gcm_digest(&bare_ctx, &bare_key, NULL, no_nettle_cipher, 16, tag);
}
static void nettle_gmac(void)
{
	gcm_aes128_set_iv(&aes_gcm, 12, nonce);
	gcm_aes128_update(&aes_gcm, given->n, text);
	gcm_aes128_digest(&aes_gcm, 16, tag);
}
static void nettle_block(void)
{
	struct aes128_ctx once;

	aes128_set_encrypt_key(&once, key);
	aes128_encrypt(&once, 16, out, text);
}
static void nettle_counter(void)
{
	uint8_t first[16] = {[15] = 2};

	memcpy(first, nonce, 12);
	ctr_crypt(&aes, (nettle_cipher_func *)aes128_encrypt, 16, first, given->n, out, text);
}
static void nettle_encrypt(void)
{
	gcm_aes128_set_iv(&aes_gcm, 12, nonce);
	gcm_aes128_encrypt(&aes_gcm, given->n, out, text);
	gcm_aes128_digest(&aes_gcm, 16, tag);
}
static void nettle_decrypt(void)
{
	uint8_t found[16];

	gcm_aes128_set_iv(&aes_gcm, 12, nonce);
	gcm_aes128_decrypt(&aes_gcm, given->n, out, sent);
	gcm_aes128_digest(&aes_gcm, 16, found);
	tag[0] = !memcmp(found, given->fits, 16);
}
#endif

/* ---- libgcrypt */

#ifdef GCRYPT
static gcry_cipher_hd_t g_ecb, g_ctr, g_gcm;
static void gcrypt_init(void)
{
	static const char *const hardware[] = {"intel-pclmul", "intel-aesni", "intel-vaes-vpclmul"};

	for (size_t i = 0; masked && i < sizeof hardware / sizeof hardware[0]; i++)
		gcry_control(GCRYCTL_DISABLE_HWF, hardware[i], NULL);
	gcry_check_version(NULL);
	gcry_control(GCRYCTL_DISABLE_SECMEM, 0);
	gcry_control(GCRYCTL_INITIALIZATION_FINISHED, 0);
	gcry_cipher_open(&g_ecb, GCRY_CIPHER_AES128, GCRY_CIPHER_MODE_ECB, 0);
	gcry_cipher_open(&g_ctr, GCRY_CIPHER_AES128, GCRY_CIPHER_MODE_CTR, 0);
	gcry_cipher_open(&g_gcm, GCRY_CIPHER_AES128, GCRY_CIPHER_MODE_GCM, 0);
}
static void gcrypt_key(void)
{
	gcry_cipher_setkey(g_ctr, key, 16);
	gcry_cipher_setkey(g_gcm, key, 16);
}
static void gcrypt_gmac(void)
{
	gcry_cipher_setiv(g_gcm, nonce, 12);
	gcry_cipher_authenticate(g_gcm, text, given->n);
	gcry_cipher_gettag(g_gcm, tag, 16);
}
static void gcrypt_block(void)
{
	gcry_cipher_setkey(g_ecb, key, 16);
	gcry_cipher_encrypt(g_ecb, out, 16, text, 16);
}
static void gcrypt_counter(void)
{
	uint8_t first[16] = {[15] = 2};

	memcpy(first, nonce, 12);
	gcry_cipher_setctr(g_ctr, first, 16);
	gcry_cipher_encrypt(g_ctr, out, given->n, text, given->n);
}
static void gcrypt_encrypt(void)
{
	gcry_cipher_setiv(g_gcm, nonce, 12);
	gcry_cipher_encrypt(g_gcm, out, given->n, text, given->n);
	gcry_cipher_gettag(g_gcm, tag, 16);
}
static void gcrypt_decrypt(void)
{
	gcry_cipher_setiv(g_gcm, nonce, 12);
	gcry_cipher_decrypt(g_gcm, out, given->n, sent, given->n);
	tag[0] = !gcry_cipher_checktag(g_gcm, given->fits, 16);
}
#endif

/* ---- mbedTLS: linked with --wrap, so that its test of the processor comes here, and is answered as fast as there */

#ifdef MBEDTLS
static mbedtls_gcm_context m_gcm;
static mbedtls_aes_context m_aes;
static unsigned has;
int __real_mbedtls_aesni_has_support(unsigned what);
int __wrap_mbedtls_aesni_has_support(unsigned what);
int __wrap_mbedtls_aesni_has_support(unsigned what) { return (has & what) != 0; }
static void mbedtls_init(void)
{
	static const unsigned features[] = {0x02000000u, 0x00000002u}; /* AES; products of polynomials */

	for (int i = 0; !masked && i < 2; i++)
		has |= __real_mbedtls_aesni_has_support(features[i]) ? features[i] : 0;
	mbedtls_gcm_init(&m_gcm);
	mbedtls_aes_init(&m_aes);
}
static void mbedtls_key(void)
{
	mbedtls_gcm_free(&m_gcm);
	mbedtls_gcm_init(&m_gcm);
	mbedtls_gcm_setkey(&m_gcm, MBEDTLS_CIPHER_ID_AES, key, 128);
	mbedtls_aes_setkey_enc(&m_aes, key, 128);
}
static void mbedtls_gmac(void) { mbedtls_gcm_crypt_and_tag(&m_gcm, MBEDTLS_GCM_ENCRYPT, 0, nonce, 12, text, given->n, text, out, 16, tag); }
static void mbedtls_block(void)
{
	mbedtls_aes_context once;

	mbedtls_aes_init(&once);
	mbedtls_aes_setkey_enc(&once, key, 128);
	mbedtls_aes_crypt_ecb(&once, MBEDTLS_AES_ENCRYPT, text, out);
}
static void mbedtls_counter(void)
{
	uint8_t first[16] = {[15] = 2}, stream[16];
	size_t used = 0;

	memcpy(first, nonce, 12);
	mbedtls_aes_crypt_ctr(&m_aes, given->n, &used, first, stream, text, out);
}
static void mbedtls_encrypt(void)
{
	mbedtls_gcm_crypt_and_tag(&m_gcm, MBEDTLS_GCM_ENCRYPT, given->n, nonce, 12, NULL, 0, text, out, 16, tag);
}
static void mbedtls_decrypt(void)
{
	tag[0] = !mbedtls_gcm_auth_decrypt(&m_gcm, given->n, nonce, 12, NULL, 0, given->fits, 16, sent, out);
}
#endif

/* ---- who there is; init is called once, key whenever the key or the hash key changes */

static void nothing(void) {}
#define BEAR(i) {"BearSSL", &bears[i], bear_init, bear_key, \
	{bear_ghash, bear_gmac, bear_product, bear_block, bear_counter, bear_encrypt, bear_decrypt}}
static const struct peer {
	const char *name;
	struct bear *bear;
	call *init, *key, *calls[OPS];
} peers[] = {
	{"this library", NULL, nothing, nothing, {own_ghash, own_gmac, own_product, own_block, NULL, own_encrypt, own_decrypt, own_refusal}},
#ifdef BEARSSL
	BEAR(0), BEAR(1), BEAR(2),
#endif
#ifdef OPENSSL
	{"OpenSSL", NULL, openssl_init, openssl_key,
		{openssl_ghash, openssl_gmac, NULL, openssl_block, openssl_counter, openssl_encrypt, openssl_decrypt}},
#endif
#ifdef NETTLE
	{"nettle", NULL, nothing, nettle_key, {nettle_ghash, nettle_gmac, NULL, nettle_block, nettle_counter, nettle_encrypt, nettle_decrypt}},
#endif
#ifdef GCRYPT
	{"libgcrypt", NULL, gcrypt_init, gcrypt_key, {NULL, gcrypt_gmac, NULL, gcrypt_block, gcrypt_counter, gcrypt_encrypt, gcrypt_decrypt}},
#endif
#ifdef MBEDTLS
	{"mbedTLS", NULL, mbedtls_init, mbedtls_key,
		{NULL, mbedtls_gmac, NULL, mbedtls_block, mbedtls_counter, mbedtls_encrypt, mbedtls_decrypt}},
#endif
};
#define EACH(p) (const struct peer *p = peers; p < peers + sizeof peers / sizeof peers[0]; p++)

static const size_t one[] = {16, 0}, some[] = {16, 64, 1024, 65536, LONGEST, 0}, many[] = {16, 64, 256, 1024, 4096, 65536, 1 << 20, LONGEST, 0};
static const struct { const char *name; const size_t *sizes; } ops[OPS] = {
	[GHASH] = {"ghash", many}, [GMAC] = {"gmac", many}, [PRODUCT] = {"product", one}, [BLOCK] = {"block", one}, [COUNTER] = {"counter", some},
	[ENCRYPT] = {"encrypt", some}, [DECRYPT] = {"decrypt", some}, [REFUSAL] = {"refusal", some},
};

static const size_t first_page[] = {1 << 10, 0}, files[] = {1 << 10, 1 << 20, 0}, joined[] = {PARTS * PART, 0}, journals[] = {RECORDS * RECORD, 0};
static const size_t lengths[] = {1 << 10, 1 << 15, 1 << 20, 1 << 25, 1 << 30, (size_t)1 << 35, (size_t)1 << 40, 0};
static const struct { const char *name; call *run; const size_t *sizes; } own[] = {
	{"change 1", own_change_1, lengths}, {"change 4096", own_change_4096, lengths + 1}, {"start", own_start, first_page},
	{"read", own_read, files}, {"seal", own_seal, first_page}, {"check", own_check, first_page}, {"join", own_join, joined},
	{"forecast", own_forecast, journals}, {"replay", own_replay, journals},
};
#define OWN (sizeof own / sizeof own[0])

/* Whether a peer's call can be made here, and whose is the turn from now on. */
static int turn(const struct peer *p)
{
#ifdef BEARSSL
	bear = p->bear;
	return !bear || (bear->hash && bear->cbc && bear->ctr);
#else
	return p->bear == NULL;
#endif
}

static const char *label(const struct peer *p, int op)
{
	static char name[64];

	snprintf(name, sizeof name, "%s", p->name);
#ifdef BEARSSL
	if (p->bear && (op == GHASH || op == PRODUCT))
		snprintf(name, sizeof name, "%s %s", p->name, p->bear->hash_name);
	else if (p->bear && (op == BLOCK || op == COUNTER))
		snprintf(name, sizeof name, "%s %s", p->name, p->bear->cipher_name);
	else if (p->bear)
		snprintf(name, sizeof name, "%s %s + %s", p->name, p->bear->cipher_name, p->bear->hash_name);
#else
	(void)op;
#endif
	return name;
}

/* ---- results are compared */

static void agree(int yes, const char *who, const char *what, size_t n)
{
	if (!yes)
		exit((fprintf(stderr, "error: this library and %s do not agree: %s, %zu bytes\n", who, what, n), 1));
}

/* Fills with bytes of chance, the same in every run. */
static void chance(uint8_t *to, size_t n)
{
	for (size_t i = 0; i < n; i++)
		to[i] = (uint8_t)(rand() >> 8);
}

/* What belongs to a length: sent and its tag where there is as much text, and a state. */
static void give(struct given *g, size_t n)
{
	g->n = n;
	if (n <= LONGEST)
		refused |= armfile_gcm_encrypt(key, 16, nonce, 12, zero, 0, text, n, sent, n, g->fits, 16);
	refused |= armfile_start(key, 16, 7, 0, n, 0, g->state, &products);
}

/* What a call leaves in out and in tag; where it works in place, out holds its text before. */
static void result(call *run, int op)
{
	memcpy(out, op == DECRYPT ? sent : text, given->n);
	memset(tag, 0, 16);
	run();
}

/* All results at one length, under a key, a hash key, a nonce and a text of chance. */
static void check(size_t n)
{
	static uint8_t *wanted;
	uint8_t wanted_tag[16];
	static struct given g;

	if (!wanted && !(wanted = malloc(LONGEST)))
		exit(1);
	chance(key, 16), chance(h, 16), chance(nonce, 12), chance(text, n);
	give(&g, n);
	given = &g;
	for EACH(p)
		if (turn(p))
			p->key();
	for (int op = 0; op < OPS; op++) {
		result(peers[0].calls[op == COUNTER ? ENCRYPT : op], op);
		memcpy(wanted, out, n);
		memcpy(wanted_tag, op == COUNTER ? zero : tag, 16);
		for EACH(p) {
			if (!turn(p) || !p->calls[op])
				continue;
			result(p->calls[op], op);
			agree(!memcmp(out, wanted, n) && !memcmp(tag, wanted_tag, 16), label(p, op), ops[op].name, n);
		}
	}
	agree(!refused, "the check", "a call is refused", n);
}

/* A change at the front of a file of n zero bytes gives the state of the file so changed. */
static void check_change(call *run, size_t bytes, size_t n)
{
	uint8_t whole[ARMFILE_STATE_BYTES];
	static struct given g;

	give(&g, n);
	given = &g;
	run();
	memset(out, 0, n);
	memcpy(out, text, bytes);
	refused |= armfile_read(key, 16, 7, 0, out, n, whole);
	agree(!refused && !memcmp(state, whole, sizeof state), "itself", "a change and the changed file", n);
}

/* The text's parts of 1 MiB, each read by itself and joined, have the sum and the length of the text. Behind their sums stand those of chance. */
static void check_join(void)
{
	uint8_t sum[16];
	static struct given g;

	give(&g, LONGEST);
	given = &g;
	chance(sums, sizeof sums);
	for (size_t i = 0; i < PARTS; i++)
		part_lengths[i] = PART;
	for (size_t i = 0; i < LONGEST / PART; i++) {
		refused |= armfile_read(key, 16, 7, 0, text + i * PART, PART, state);
		armfile_sum(state, sums + 16 * i);
	}
	refused |= armfile_read(key, 16, 7, 0, text, LONGEST, state);
	armfile_hash_key(state, part_h);
	armfile_sum(state, sum);
	own_join();
	agree(!refused && !memcmp(tag, sum, 16) && total == LONGEST, "itself", "joined parts and the whole", LONGEST);
}

/* The journal appends text to a file of as many zero bytes. Its replay gives the state of the file with the text behind it, in no more products
 * than were forecast, and at the forecast's greatest length. */
static void check_journal(void)
{
	const size_t n = RECORDS * RECORD;
	uint8_t whole[ARMFILE_STATE_BYTES];
	static struct given g;

	for (size_t i = 0; i < RECORDS; i++) {
		uint8_t *record = journal + i * (HEAD + RECORD);

		record[0] = 2 << 5; /* the kind: an append */
		record[10] = RECORD >> 8;
		memcpy(record + HEAD, text + i * RECORD, RECORD);
	}
	give(&g, n);
	given = &g;
	own_forecast();
	own_replay();
	memset(out, 0, n);
	memcpy(out + n, text, n);
	refused |= armfile_read(key, 16, 7, 0, out, 2 * n, whole);
	agree(!refused && !memcmp(state, whole, sizeof state) && products <= bound && greatest == 2 * n, "itself", "a journal and its forecast", n);
}

/* ---- times */

static struct job {
	char what[16], who[64];
	call *run;
	const struct peer *peer;
	const struct given *given;
	int times, step, rounds; /* calls in a batch; it has one in every step-th round; batches so far */
	double took[ROUNDS];
} jobs[JOBS];
static size_t count;

/* The time of one call in a batch: this process's own, not that of others that run in between. */
static double batch(const struct job *j)
{
	struct timespec from, to;

	turn(j->peer);
	given = j->given;
	clock_gettime(CLOCK_PROCESS_CPUTIME_ID, &from);
	for (int i = 0; i < j->times; i++)
		j->run();
	clock_gettime(CLOCK_PROCESS_CPUTIME_ID, &to);
	return ((double)(to.tv_sec - from.tv_sec) * 1e9 + (double)(to.tv_nsec - from.tv_nsec)) / j->times;
}

/* A job of a text or a file of n bytes, work of which the call goes through. It has a batch in every step-th round. */
static void put(const char *what, const char *who, call *run, const struct peer *p, size_t n, size_t work)
{
	static struct given all[32];
	struct given *g = all;
	struct job *j = &jobs[count++];

	while (g->n && g->n != n)
		g++;
	if (!g->n)
		give(g, n);
	*j = (struct job){.run = run, .peer = p, .given = g, .times = 1, .step = work < 1 << 20 ? 1 : work < LONGEST ? 8 : 32};
	snprintf(j->what, sizeof j->what, "%s", what);
	snprintf(j->who, sizeof j->who, "%s", who);
	while (batch(j) * j->times < BATCH)
		j->times *= 2;
}

/* The jobs: those that are compared stand side by side. The library's own calls are timed once, in the process that isn't masked. */
static void list(void)
{
	for (int op = 0; op < OPS; op++)
		for (const size_t *n = ops[op].sizes; *n; n++)
			for EACH(p)
				if (turn(p) && p->calls[op])
					put(ops[op].name, label(p, op), p->calls[op], p, *n, *n);
	for (size_t i = 0; !masked && i < OWN; i++)
		for (const size_t *n = own[i].sizes; *n; n++)
			put(own[i].name, peers[0].name, own[i].run, peers, *n, own[i].run == own_read || own[i].run == own_replay ? *n : 0);
}

static int compare(const void *a, const void *b)
{
	double x = *(const double *)a, y = *(const double *)b;

	return (x > y) - (x < y);
}

int main(int argc, char **argv)
{
	masked = argc == 2 && !strcmp(argv[1], "masked");
	if (argc != 1 + masked)
		return fprintf(stderr, "usage: bench [masked]\n"), 1;
	text = malloc(LONGEST + 16), sent = malloc(LONGEST), out = malloc(LONGEST);
	if (!text || !sent || !out)
		return fprintf(stderr, "error: no memory\n"), 1;
	for EACH(p)
		p->init();
	for (size_t n = 16; n <= CHECKED; n += 16)
		check(n);
	for (const size_t *n = many; *n; n++)
		check(*n);
	for (const size_t *n = files; *n; n++) {
		check_change(own_change_1, 1, *n);
		if (*n >= 4096)
			check_change(own_change_4096, 4096, *n);
	}
	check_join();
	check_journal();
	refused |= armfile_start(key, 16, 7, 0, 1 << 10, 0, sealed, &products);
	list();
	for (int round = 0; round < ROUNDS; round++)
		for (struct job *j = jobs; j < jobs + count; j++)
			if (round % j->step == 0)
				j->took[j->rounds++] = batch(j);
	agree(!refused, "the clock", "a timed call was refused", 0);
	for (struct job *j = jobs; j < jobs + count; j++) {
		qsort(j->took, (size_t)j->rounds, sizeof j->took[0], compare);
		printf("%s\t%zu\t%s\t%.3f\t%.3f\n", j->what, j->given->n, j->who, j->took[0], j->took[j->rounds / 2]);
	}
	return 0;
}
