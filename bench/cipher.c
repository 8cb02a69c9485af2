/*
 * Times of the cipher in two builds of the library, the old one with its symbols renamed to old_*, and in BearSSL and OpenSSL where they are
 * installed. bench/cipher builds and runs this, and says how to call it.
 *
 *  - One block: armfile_encrypt, which expands the key and encrypts one block. Of BearSSL it is br_aes_*_cbcenc of one block with a zero IV, of
 *    OpenSSL AES-128-ECB through EVP; both make the key's schedule anew in each call.
 *  - Counter mode of n bytes: armfile_gcm_encrypt less armfile_ghash of n bytes, with a nonce of 12 bytes and no additional data. What is left
 *    is counter mode, the key's expansion and two blocks more, H and the tag's pad. Of the peers it is counter mode alone, in place, with one
 *    schedule that was made before: br_aes_*_ctr, and AES-128-CTR through EVP with the counter set anew.
 *  - Sixteen more blocks of a long text: (64 KiB's time less 4 KiB's) / 3840 blocks, times sixteen.
 *  - GHASH of 64 KiB, which is subtracted: where a change is one of the cipher alone, old and new should be alike here.
 *
 * In each of REPEATS rounds every call has a batch of BATCH nanoseconds or more of the process's own time. A difference is one of times of the
 * same round. Rounds are put in order by the sum of the times in question, and a time is the mean of the best twentieth of them: the processor's
 * pace changes within a round, and one best round says too little about a difference. "median/best" is the mean of the middle twentieth by
 * that of the best: how restless the machine was. A block is one of the text. "of old" is the time divided by the old library's.
 */
#define _POSIX_C_SOURCE 199309L
#include <stdio.h>
#include <stdlib.h>
#include <string.h>
#include <time.h>
#include "armfile.h"
#ifdef BEARSSL
#include <bearssl.h>
#endif
#ifdef OPENSSL
#include <openssl/evp.h>
#endif

#define REPEATS 400
#define SHARE (REPEATS / 20)
#define BATCH 100000
#define CHECKED 600 /* results are compared at all lengths up to this */
#define LONG 4096
#define LONGEST 65536

static uint8_t key[16], nonce[64], aad[40], text[LONGEST], sent[LONGEST], out[LONGEST], tag[16], old_tag[16];

/* What is timed, on n bytes: it takes key, nonce and text, or what out holds where it works in place, and writes to out. */
typedef void call(size_t n);

#define LIBRARY(name, p)                                                                                                            \
	static void name##_encrypt(size_t n) { p##armfile_encrypt(key, 16, text, n, out, n); }                                      \
	static void name##_gcm(size_t n) { p##armfile_gcm_encrypt(key, 16, nonce, 12, aad, 0, text, n, out, n, old_tag, 16); }      \
	static void name##_ghash(size_t n) { p##armfile_ghash(key, 16, aad, 0, text, n, old_tag, 16); }
extern __typeof__(armfile_encrypt) old_armfile_encrypt;
extern __typeof__(armfile_gcm_encrypt) old_armfile_gcm_encrypt;
extern __typeof__(armfile_ghash) old_armfile_ghash;
LIBRARY(old, old_)
LIBRARY(new, )
static void no_schedule(void) {}

/* The peers' first counter is nonce and 2, as in GCM. */
#ifdef BEARSSL
#define BEAR(kind)                                                                                                                  \
	static br_aes_##kind##_ctr_keys kind##_keys;                                                                                \
	static void kind##_schedule(void) { br_aes_##kind##_ctr_init(&kind##_keys, key, 16); }                                      \
	static void kind##_counter(size_t n) { br_aes_##kind##_ctr_run(&kind##_keys, nonce, 2, out, n); }                           \
	static void kind##_encrypt(size_t n)                                                                                        \
	{                                                                                                                           \
		br_aes_##kind##_cbcenc_keys keys;                                                                                   \
		uint8_t iv[16] = {0};                                                                                               \
		br_aes_##kind##_cbcenc_init(&keys, key, 16);                                                                        \
		br_aes_##kind##_cbcenc_run(&keys, iv, out, n);                                                                      \
	}
BEAR(ct)
BEAR(ct64)
#endif
#ifdef OPENSSL
static EVP_CIPHER_CTX *ctr, *ecb;
static int done; /* bytes that a call wrote; check sees to the result */
static void openssl_schedule(void)
{
	if (!ctr)
		ctr = EVP_CIPHER_CTX_new(), ecb = EVP_CIPHER_CTX_new();
	EVP_EncryptInit_ex(ctr, EVP_aes_128_ctr(), NULL, key, NULL);
	EVP_EncryptInit_ex(ecb, EVP_aes_128_ecb(), NULL, key, NULL);
}
static void openssl_counter(size_t n)
{
	uint8_t first[16] = {[15] = 2};

	memcpy(first, nonce, 12);
	EVP_EncryptInit_ex(ctr, NULL, NULL, NULL, first);
	EVP_EncryptUpdate(ctr, out, &done, out, (int)n);
}
static void openssl_encrypt(size_t n)
{
	EVP_EncryptInit_ex(ecb, NULL, NULL, key, NULL);
	EVP_EncryptUpdate(ecb, out, &done, out, (int)n);
}
#endif

static const struct cipher {
	const char *name;
	void (*schedule)(void);
	call *counter, *encrypt, *ghash; /* GHASH of what counter does besides; a peer has none */
} ciphers[] = {
	{"old", no_schedule, old_gcm, old_encrypt, old_ghash},
	{"new", no_schedule, new_gcm, new_encrypt, new_ghash},
#ifdef BEARSSL
	{"BearSSL aes_ct", ct_schedule, ct_counter, ct_encrypt, NULL},
	{"BearSSL aes_ct64", ct64_schedule, ct64_counter, ct64_encrypt, NULL},
#endif
#ifdef OPENSSL
	{"OpenSSL", openssl_schedule, openssl_counter, openssl_encrypt, NULL},
#endif
};
#define END (ciphers + sizeof ciphers / sizeof ciphers[0])
#define EACH(c) (const struct cipher *c = ciphers; c < END; c++)

/* Fills with bytes of chance, the same in every run, and answers one more. */
static size_t chance(uint8_t *to, size_t n)
{
	for (size_t i = 0; i < n; i++)
		to[i] = (uint8_t)(rand() >> 8);
	return (size_t)(rand() >> 8);
}

static void agree(int yes, const char *who, size_t n)
{
	if (!yes)
		exit((fprintf(stderr, "error: new and %s do not agree, text of %zu bytes\n", who, n), 1));
}

/* All results at one length, under a key, a nonce and a text of chance; of the libraries also with nonces and additional data of any length. */
static void check(size_t n)
{
	size_t lengths[2][2] = {{1 + chance(nonce, sizeof nonce) % sizeof nonce, chance(aad, sizeof aad) % sizeof aad}, {12, 0}};

	chance(key, sizeof key);
	chance(text, n < 16 ? 16 : n);
	for (int i = 0; i < 2; i++)
		agree(!armfile_gcm_encrypt(key, 16, nonce, lengths[i][0], aad, lengths[i][1], text, n, sent, n, tag, 16)
			&& !old_armfile_gcm_encrypt(key, 16, nonce, lengths[i][0], aad, lengths[i][1], text, n, out, n, old_tag, 16)
			&& !memcmp(sent, out, n) && !memcmp(tag, old_tag, 16), "old", n);
	agree(!armfile_encrypt(key, 16, text, 16, tag, 16), "new", 16);
	for EACH(c) {
		c->schedule();
		memcpy(out, text, n);
		c->counter(n);
		agree(!memcmp(out, sent, n), c->name, n);
		memcpy(out, text, 16);
		c->encrypt(16);
		agree(!memcmp(out, tag, 16), c->name, 16);
	}
}

static struct timed {
	call *run;
	size_t n;
	int times; /* calls in a batch */
	double took[REPEATS];
} timed[64];
static size_t count;

/* The time of one call in a batch: this process's own, not that of others that run in between. */
static double batch(const struct timed *t)
{
	struct timespec from, to;

	clock_gettime(CLOCK_PROCESS_CPUTIME_ID, &from);
	for (int i = 0; i < t->times; i++)
		t->run(t->n);
	clock_gettime(CLOCK_PROCESS_CPUTIME_ID, &to);
	return ((double)(to.tv_sec - from.tv_sec) * 1e9 + (double)(to.tv_nsec - from.tv_nsec)) / t->times;
}

/* What a call took in a round. A call that was not asked for before is put on the list of those to time. */
static double of(call *run, size_t n, int round)
{
	size_t i = 0;

	while (i < count && (timed[i].run != run || timed[i].n != n))
		i++;
	if (i == count)
		for (timed[count++] = (struct timed){.run = run, .n = n, .times = 1}; batch(&timed[i]) * timed[i].times < BATCH;)
			timed[i].times *= 2;
	return timed[i].took[round];
}

/* What the table shows of n bytes: a time or a difference of times, and the sum of all times in it. */
typedef struct { double ns, sum; } cost;
static cost block(const struct cipher *c, size_t n, int round) { double t = of(c->encrypt, n, round); return (cost){t, t}; }
static cost hash(const struct cipher *c, size_t n, int round) { double t = of(c->ghash, n, round); return (cost){t, t}; }
static cost counter(const struct cipher *c, size_t n, int round)
{
	double t = of(c->counter, n, round), less = c->ghash ? of(c->ghash, n, round) : 0;

	return (cost){t - less, t + less};
}
static cost more(const struct cipher *c, size_t n, int round)
{
	cost a = counter(c, LONG, round), b = counter(c, LONGEST, round);

	return (cost){(b.ns - a.ns) * (double)n / (LONGEST - LONG), b.sum + a.sum};
}

static int compare(const void *a, const void *b)
{
	double x = ((const cost *)a)->sum, y = ((const cost *)b)->sum;

	return (x > y) - (x < y);
}

/* The mean of a twentieth of all rounds. */
static double mean(const cost *from)
{
	double all = 0;

	for (int i = 0; i < SHARE; i++)
		all += from[i].ns;
	return all / SHARE;
}

static void rows(int show, const char *what, cost f(const struct cipher *, size_t, int), size_t n)
{
	double old = 0;

	if (show)
		printf("%s: %zu bytes\n", what, n);
	for EACH(c) {
		cost rounds[REPEATS];
		if (!c->ghash && (f == hash || (f == counter && n < LONG)))
			continue;
		for (int i = 0; i < REPEATS; i++)
			rounds[i] = f(c, n, i);
		qsort(rounds, REPEATS, sizeof rounds[0], compare);
		double best = mean(rounds), middle = mean(rounds + (REPEATS - SHARE) / 2);
		old = c == ciphers ? best : old;
		if (show)
			printf("  %-18s %12.1f %10.2f %8.3f %12.3f\n", c->name, best, best * 16 / (double)n, best / old, middle / best);
	}
}

/* Once to put the calls on the list, and once to show their times. */
static void table(int show)
{
	static const size_t sizes[] = {16, 64, 256, 1024, LONG, LONGEST};

	rows(show, "one block, with the key's expansion", block, 16);
	for (size_t i = 0; i < sizeof sizes / sizeof sizes[0]; i++)
		rows(show, "counter mode", counter, sizes[i]);
	rows(show, "sixteen more blocks of a long text", more, 256);
	rows(show, "GHASH, which is subtracted", hash, LONGEST);
}

int main(void)
{
	for (size_t i = 0; i < 4 * (CHECKED + 1); i++)
		check(i / 4);
	check(LONG);
	check(LONGEST);
	printf("these agree:");
	for EACH(c)
		printf(" %s%s", c->name, c + 1 < END ? "," : "\n");
	table(0);
	for (int round = 0; round < REPEATS; round++)
		for (size_t i = 0; i < count; i++)
			timed[i].took[round] = batch(&timed[i]);
	printf("\n%-20s %12s %10s %8s %12s\n", "", "ns", "ns/block", "of old", "median/best");
	table(1);
	return 0;
}
