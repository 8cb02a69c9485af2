/* What the calls cost on this machine, in nanoseconds: the median of many calls. `make cost` builds and runs it. */
#define _POSIX_C_SOURCE 199309L
#include <stdio.h>
#include <stdlib.h>
#include <time.h>
#include "armfile.h"

#define TIMES 301
#define KIB ((size_t)1024)
#define APPENDS 100
#define RECORD (12 + 16) /* a record of 16 bytes */
#define PARTS 1000

static uint8_t key[ARMFILE_BLOCK_BYTES], file[1024 * KIB], tag[ARMFILE_BLOCK_BYTES], slip[ARMFILE_SLIP_BYTES], verdict;
static uint8_t journal[APPENDS * RECORD], sent[1024 * KIB], text[KIB];
static uint8_t sums[PARTS * ARMFILE_BLOCK_BYTES]; /* made up: a join reads no part */
static uint64_t lengths[PARTS], total, count, offset, bound, greatest;

static uint64_t now(void)
{
	struct timespec t;

	clock_gettime(CLOCK_MONOTONIC, &t);
	return (uint64_t)t.tv_sec * 1000000000u + (uint64_t)t.tv_nsec;
}

static int compare(const void *a, const void *b)
{
	uint64_t x = *(const uint64_t *)a, y = *(const uint64_t *)b;

	return (x > y) - (x < y);
}

/* The median of `times` calls, each on a new state of a file of n zero bytes, sealed once. */
#define COST(name, times, n, call)                                                             \
	do {                                                                                   \
		uint64_t took[TIMES];                                                          \
		for (size_t i = 0; i < (times); i++) {                                         \
			uint8_t state[ARMFILE_STATE_BYTES];                                    \
			if (armfile_start(key, sizeof key, 7, 0, (n), 0, state, &count)        \
				!= ARMFILE_OK                                                  \
			    || armfile_seal(state, slip, sizeof slip) != ARMFILE_OK)           \
				return 1;                                                      \
			uint64_t from = now();                                                 \
			if ((call) != ARMFILE_OK)                                              \
				return 1;                                                      \
			took[i] = now() - from;                                                \
		}                                                                              \
		qsort(took, (times), sizeof took[0], compare);                                 \
		printf("%-35s %12llu ns\n", (name), (unsigned long long)took[(times) / 2]);    \
	} while (0)

int main(void)
{
	for (size_t i = 0; i < sizeof journal; i += RECORD) {
		journal[i] = 2 << 5; /* the kind: an append */
		journal[i + 11] = 16;
	}
	for (size_t i = 0; i < PARTS; i++)
		lengths[i] = 1024 * KIB;
	COST("start of 0 bytes", TIMES, 0, armfile_start(key, sizeof key, 7, 0, 0, 0xff, state, &count));
	COST("start of 1 GiB of FF", TIMES, 0, armfile_start(key, sizeof key, 7, 0, KIB << 20, 0xff, state, &count));
	COST("read of 1 KiB", TIMES, 0, armfile_read(key, sizeof key, 7, 0, file, KIB, state));
	COST("read of 1 MiB", 9, 0, armfile_read(key, sizeof key, 7, 0, file, 1024 * KIB, state));
	COST("append of 16 bytes", TIMES, 0, armfile_append(state, file, 16, &count));
	COST("append of 4 KiB", TIMES, 0, armfile_append(state, file, 4 * KIB, &count));
	COST("change of 16 bytes, first of 1 GiB", TIMES, KIB << 20, armfile_change(state, 0, file, 16, file, 16, &count));
	COST("cut_tail of 16 bytes", TIMES, 16, armfile_cut_tail(state, file, 16, &count));
	COST("replay of 100 appends of 16 bytes", TIMES, 0, armfile_replay(state, journal, sizeof journal, &count, &offset));
	COST("forecast of 100 appends of 16 bytes", TIMES, 0, armfile_forecast(0, journal, sizeof journal, &bound, &greatest, &offset));
	COST("seal", TIMES, 0, armfile_seal(state, slip, sizeof slip));
	COST("check", TIMES, 0, armfile_check(state, slip, sizeof slip, &verdict));
	COST("gmac of 1 KiB", TIMES, 0, armfile_gmac(key, sizeof key, key, 12, file, KIB, tag, sizeof tag));
	COST("gcm_encrypt of 1 MiB", 9, 0,
		armfile_gcm_encrypt(key, sizeof key, key, 12, key, 0, file, 1024 * KIB, sent, 1024 * KIB, tag, sizeof tag));
	COST("gcm_encrypt of 1 KiB", TIMES, 0, armfile_gcm_encrypt(key, sizeof key, key, 12, key, 0, file, KIB, sent, KIB, tag, sizeof tag));
	/* What the encryption just above sent. */
	COST("gcm_decrypt of 1 KiB", TIMES, 0, armfile_gcm_decrypt(key, sizeof key, key, 12, key, 0, sent, KIB, text, KIB, tag, sizeof tag));
	COST("encrypt", TIMES, 0, armfile_encrypt(key, sizeof key, file, 16, tag, sizeof tag));
	COST("multiply", TIMES, 0, armfile_multiply(key, sizeof key, file, 16, tag, sizeof tag));
	COST("join of 1000 parts of 1 MiB", TIMES, 0, armfile_join(key, sizeof key, sums, sizeof sums, lengths, PARTS, tag, &total));
	return 0;
}
