/* How many bytes of stack each call takes.
 *
 * The stack is painted just before a call and looked at just after it. A figure goes from the end of the caller's frame down to the lowest
 * byte that is no longer paint: the arguments that go by the stack, the return address and every frame of the library, and nothing of the
 * caller's own. Only bytes that are written count; what the lowest frame reserves at its end and never writes does not.
 *
 * It is an error where a call is refused, where it does not take the same at every length above 0, and where it takes more at length 0. A join's
 * length is its number of parts, and that of a replay or a forecast the length of each edit. Edits and a join may take less where they need no power
 * of H. Calls that hash a whole input may take another figure below 512 bytes than from there on, where they go by batches, and another where nothing
 * is left behind the batches; and GCM by the way in which it makes the last bytes of a text. The largest is told, and where a call takes less at
 * every length below 512, behind it the largest of those. */
#define _XOPEN_SOURCE 700
#include <pthread.h>
#include <stdio.h>
#include <stdlib.h>
#include "armfile.h"

#define STACK ((size_t)1 << 18)
#define ROOM 1024
#define MOST 4095
#define WHOLE(n) (((n) + 15) / 16 * 16)
#define NONCE(n) ((n) == 0 ? 12 : (n)) /* a nonce is not empty, and one of 12 bytes is not hashed */
#define HEAD 12 /* a record's head: kind and place in 8 bytes, l in 4 */
/* A blank file needs no memory: from 512 bytes on it is longer by so many times 2^40. At some lengths it is of zeros, which are not summed. */
#define BLANK(n) ((n) < 512 ? (n) : (uint64_t)(n) << 40 | (n))
#define FILL(n) ((n) % 256 == 255 ? 0 : 0xff)
/* The slip's number is 1, and the state's last used one 0, 1 or 2, by which the slip is ahead, current or stale. */
#define LAST(n) ((n) % 3)
/* Every third part is empty, the first of all among them; the others have up to 2^44 blocks. */
#define PART(i) ((i) % 3 == 0 ? 0 : (uint64_t)16 << (i) % 45)
/* Where no power of H is needed: in a cut of less than a block, since all files are of whole blocks, and in a join of one part, which is empty. */
#define NO_POWER(n) ((n) < 16)
/* Whether out holds other bytes than the state at a place. No function is called for it, since that would take stack. */
#define IS_NOT_AT(place) (out[0] != state[place] || out[15] != state[(place) + 15])

static volatile uint8_t *stack;
static uintptr_t caller;
static uint8_t key[16], state[ARMFILE_STATE_BYTES], slip[ARMFILE_SLIP_BYTES], file[MOST + 16], out[16], verdict;
static uint8_t text[MOST], sent[MOST], tag[16];
static uint8_t sums[16 * MOST];
static uint64_t parts[MOST], total;
static uint8_t journal[5 * HEAD + 6 * (MOST + 16)];
static size_t journal_len;
static uint64_t count, offset, bound, greatest;
static const uint8_t verdicts[] = { ARMFILE_AHEAD, ARMFILE_CURRENT, ARMFILE_STALE };

/* A call at a length, from a frame so large that the paint, which ends below the frame of the code that paints, covers its end. The room
 * is used after the call too, so that the frame is there as long as the call. */
#define CALL(name, call)                                  \
	static uint64_t name(size_t n)                    \
	{                                                 \
		_Alignas(16) volatile uint8_t room[ROOM]; \
		(void)n;                                  \
		room[0] = 0;                              \
		caller = (uintptr_t)room;                 \
		uint64_t answer = call;                   \
		return answer + room[0];                  \
	}
CALL(encrypt, armfile_encrypt(key, 16, file + n, 16, out, 16))
CALL(multiply, armfile_multiply(key, 16, file + n, 16, out, 16))
CALL(ghash, armfile_ghash(key, 16, file, n, file, n, out, 16))
CALL(join, armfile_join(key, 16, sums, 16 * n, parts, n, out, &total))
CALL(gmac, armfile_gmac(key, 16, file, NONCE(n), file, n, out, 16))
CALL(gcm_encrypt, armfile_gcm_encrypt(key, 16, file, NONCE(n), file, n, file, n, sent, n, tag, 16))
CALL(gcm_decrypt, armfile_gcm_decrypt(key, 16, file, NONCE(n), file, n, sent, n, text, n, tag, 16))
CALL(start, armfile_start(key, 16, 7, 0, BLANK(n), FILL(n), state, &count))
CALL(read_file, armfile_read(key, 16, 7, 0, file, n, state))
CALL(length, armfile_length(state) != (uint64_t)n << 40)
CALL(arm, armfile_arm(state) != 7)
CALL(last, armfile_last(state) != LAST(n))
CALL(sum, (armfile_sum(state, out), IS_NOT_AT(48)))
CALL(hash_key, (armfile_hash_key(state, out), IS_NOT_AT(16)))
CALL(change, armfile_change(state, n, file, n, file, n, &count))
CALL(append, armfile_append(state, file, n, &count))
CALL(prepend, armfile_prepend(state, file, WHOLE(n), &count))
CALL(drop_front, armfile_drop_front(state, file, WHOLE(n), &count))
CALL(cut_tail, armfile_cut_tail(state, file, n, &count))
CALL(replay, armfile_replay(state, journal, journal_len, &count, &offset))
CALL(forecast, armfile_forecast((uint64_t)n << 40, journal, journal_len, &bound, &greatest, &offset))
CALL(seal, armfile_seal(state, slip, sizeof slip))
CALL(check, armfile_check(state, slip, sizeof slip, &verdict) || verdict != verdicts[LAST(n)])

/* By what the figure of a call may differ: by nothing, by whether it needs a power of H, by how an input is hashed, or by that and by how a text's
 * last bytes are made. */
enum ways { NOTHING, POWERS, HASHING, TEXTS };

static const struct {
	const char *name;
	uint64_t (*call)(size_t);
	enum ways by;
} calls[] = {
	{ "encrypt", encrypt, NOTHING }, { "multiply", multiply, NOTHING }, { "ghash", ghash, HASHING }, { "join", join, POWERS },
	{ "gmac", gmac, HASHING }, { "gcm_encrypt", gcm_encrypt, TEXTS }, { "gcm_decrypt", gcm_decrypt, TEXTS }, { "start", start, NOTHING },
	{ "read", read_file, HASHING }, { "length", length, NOTHING }, { "arm", arm, NOTHING }, { "last", last, NOTHING },
	{ "sum", sum, NOTHING }, { "hash_key", hash_key, NOTHING }, { "change", change, POWERS }, { "append", append, POWERS },
	{ "prepend", prepend, POWERS }, { "drop_front", drop_front, POWERS }, { "cut_tail", cut_tail, POWERS }, { "replay", replay, NOTHING },
	{ "forecast", forecast, NOTHING }, { "seal", seal, NOTHING }, { "check", check, NOTHING },
};

/* Lengths of five kinds. Below 512 bytes an input is hashed block by block, and from there on by batches of 256 and what is left block by block.
 * GCM makes up to 32 bytes of a text, in all or behind batches of 256, block by block (few), and more by sixteen blocks at once (many). At whole
 * batches nothing is left for either. */
enum kind { SHORT_FEW, SHORT_MANY, LONG_FEW, LONG_MANY, WHOLE_BATCHES, KINDS };
#define LENGTHS 6
static const size_t lengths[KINDS][LENGTHS] = {
	[SHORT_FEW] = { 1, 17, 32, 257, 272, 288 },
	[SHORT_MANY] = { 33, 100, 255, 256, 289, 511 },
	[LONG_FEW] = { 513, 528, 544, 769, 800, 3872 },
	[LONG_MANY] = { 545, 560, 767, 801, 1000, MOST },
	[WHOLE_BATCHES] = { 512, 768, 1024, 1280, 2048, 3840 },
};

static void stop(const char *name, const char *what)
{
	fprintf(stderr, "error: stack: %s %s\n", name, what);
	exit(1);
}

static void big_endian(uint8_t *bytes, uint64_t number, size_t width)
{
	for (size_t i = 0; i < width; i++)
		bytes[i] = (uint8_t)(number >> (8 * (width - 1 - i)));
}

/* A journal of one record of each kind, 1 to 5, at this length. A change, 1, has l bytes twice; the l of prepend, 3, and drop_front, 4, is
 * made whole. What the bytes are does not matter. */
static void write_journal(size_t n)
{
	journal_len = 0;
	for (uint64_t kind = 1; kind <= 5; kind++) {
		size_t l = kind == 3 || kind == 4 ? WHOLE(n) : n;

		big_endian(journal + journal_len, kind << 61, 8);
		big_endian(journal + journal_len + 8, l, 4);
		journal_len += HEAD + (kind == 1 ? 2 * l : l);
	}
}

/* What a call at a length takes on this paint, with the state of a file of so many times 2^40 bytes and a slip of it, and with a text of
 * this length that was sent and its tag. */
static size_t on_paint(const char *name, uint64_t (*volatile call)(size_t), size_t n, uint8_t paint)
{
	uintptr_t low = (uintptr_t)stack, end = (uintptr_t)&low - ROOM / 2;
	size_t i;

	if (armfile_start(key, 16, 7, 0, (uint64_t)n << 40, 0xff, state, &count) != 0 || armfile_seal(state, slip, sizeof slip) != 0
	    || armfile_start(key, 16, 7, LAST(n), (uint64_t)n << 40, 0xff, state, &count) != 0)
		stop(name, "has no state and slip to be called on");
	if (armfile_gcm_encrypt(key, 16, file, NONCE(n), file, n, file, n, sent, n, tag, 16) != 0)
		stop(name, "has no text that was sent");
	write_journal(n);
	for (i = 0; low + i < end; i++)
		stack[i] = paint;
	if (call(n) != 0)
		stop(name, "is refused, reads another field than was put there, or gives another verdict");
	if (caller > end)
		stop(name, "was not called from painted stack");
	for (i = 0; low + i < caller && stack[i] == paint; i++)
		;
	return caller - low - i;
}

/* A byte that is written may happen to be the paint, so two are tried. */
static size_t taken(size_t c, size_t n)
{
	size_t one = on_paint(calls[c].name, calls[c].call, n, 0xa5);
	size_t other = on_paint(calls[c].name, calls[c].call, n, 0x5a);

	return one > other ? one : other;
}

/* What a call takes at all lengths of a kind, but for those where it may take less. */
static size_t taken_by_all(size_t c, enum kind kind)
{
	size_t figure = taken(c, lengths[kind][LENGTHS - 1]);

	for (size_t i = 0; i < LENGTHS - 1; i++) {
		size_t n = lengths[kind][i], here = taken(c, n);
		int may_be_less = calls[c].by == POWERS && NO_POWER(n);

		if (may_be_less ? here > figure : here != figure)
			stop(calls[c].name, "takes more stack at one length than at another");
	}
	return figure;
}

static size_t larger(size_t a, size_t b)
{
	return a > b ? a : b;
}

static void *run(void *unused)
{
	for (size_t c = 0; c < sizeof calls / sizeof calls[0]; c++) {
		size_t at[KINDS], at_0 = taken(c, 0), at_short, most;

		for (enum kind kind = 0; kind < KINDS; kind++) {
			at[kind] = taken_by_all(c, kind);
			if (calls[c].by <= POWERS && at[kind] != at[0])
				stop(calls[c].name, "takes more stack at one length than at another");
		}
		if (calls[c].by == HASHING && (at[SHORT_FEW] != at[SHORT_MANY] || at[LONG_FEW] != at[LONG_MANY]))
			stop(calls[c].name, "takes more stack at one length than at another");
		at_short = larger(at[SHORT_FEW], at[SHORT_MANY]);
		most = larger(larger(at[LONG_FEW], at[LONG_MANY]), larger(at[WHOLE_BATCHES], at_short));
		if (at_0 > at_short)
			stop(calls[c].name, "takes more stack at length 0 than at others");
		printf("%-11s %5zu", calls[c].name, most);
		if (at_short < most)
			printf(" %5zu", at_short);
		putchar('\n');
	}
	return unused;
}

int main(void)
{
	pthread_attr_t attr;
	pthread_t thread;
	void *area = aligned_alloc(4096, STACK);

	stack = area;
	for (size_t i = 0; i < MOST; i++)
		parts[i] = PART(i);
	if (!area || pthread_attr_init(&attr) || pthread_attr_setstack(&attr, area, STACK)
	    || pthread_create(&thread, &attr, run, NULL) || pthread_join(thread, NULL))
		stop("thread", "does not run");
	free(area);
	return 0;
}
