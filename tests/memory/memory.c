/* runtime/memory.S beside loops of bytes: every length up to 300 and the lengths of the library's large arrays, at every place of a block, with the
 * bytes before and behind looked at. The two functions come here under other names, so that the compiler puts nothing else in their place. */
#include <stdint.h>
#include <stdio.h>
#include <stdlib.h>

void *armfile_test_memset(void *to, int byte, size_t n);
void *armfile_test_memcpy(void *to, const void *from, size_t n);

#define ROOM 11000
#define EDGE 64

static uint8_t to[ROOM], from[ROOM];

static uint8_t mark(size_t i)
{
	return (uint8_t)(i * 7 + i / 251 + 1);
}

static void stop(const char *what, size_t n, size_t at)
{
	fprintf(stderr, "error: %s of %zu bytes at %zu\n", what, n, at);
	exit(1);
}

/* Whether byte i is what it must be, after n bytes at a place were written. */
static int is(size_t i, size_t at, size_t n, uint8_t written)
{
	return to[i] == (i >= at && i < at + n ? written : mark(i));
}

static void try(size_t n, size_t at, int byte)
{
	size_t i;

	for (i = 0; i < ROOM; i++) {
		to[i] = mark(i);
		from[i] = (uint8_t)(mark(i) ^ 0x5a);
	}
	if (armfile_test_memset(to + at, byte, n) != to + at)
		stop("memset's answer", n, at);
	for (i = 0; i < ROOM; i++)
		if (!is(i, at, n, (uint8_t)byte))
			stop("memset", n, at);
	for (i = 0; i < ROOM; i++)
		to[i] = mark(i);
	if (armfile_test_memcpy(to + at, from + EDGE, n) != to + at)
		stop("memcpy's answer", n, at);
	for (i = 0; i < ROOM; i++)
		if (!is(i, at, n, i >= at && i < at + n ? from[EDGE + i - at] : 0))
			stop("memcpy", n, at);
}

int main(void)
{
	static const size_t large[] = { 1152, 4096, 10352, 10368 };
	size_t n, at, i;

	for (n = 0; n <= 300; n++)
		for (at = EDGE; at < EDGE + 16; at += 5)
			try(n, at, (int)(n % 3 == 0 ? 0 : n + 0x180));
	for (i = 0; i < sizeof large / sizeof large[0]; i++)
		for (at = EDGE; at < EDGE + 16; at++)
			try(large[i], at, i % 2 ? 0xff : 0);
	puts("memory: as loops of bytes do");
	return 0;
}
