/* A file's life with the library: begun on a blank card, edited, call by call and by a journal, sealed, put away, taken out again and checked, an
 * old card too; and sent unread. Then a cell's file, which is kept in parts. */
#include <stdio.h>
#include <string.h>
#include "armfile.h"

#define ARM 7
#define ERASED 0xff /* what a byte of a blank card reads */
#define TEXT(t) (t), sizeof(t) - 1 /* a text's bytes and their number */

static const uint8_t key[ARMFILE_BLOCK_BYTES] = { 1, 2, 3, 4, 5, 6, 7, 8, 9, 10, 11, 12, 13, 14, 15, 16 };
static const uint8_t head[] = "; arm 7, cell 3\n", line[] = "G1 X10 Y20 Z30\n", line_2[] = "G1 X11 Y20 Z30\n";
static const uint8_t carrying_key[ARMFILE_BLOCK_BYTES] = { 16, 15, 14, 13, 12, 11, 10, 9, 8, 7, 6, 5, 4, 3, 2, 1 }; /* it seals nothing */
static const uint8_t old[] = "X10", new_[] = "X12", other[] = "X15", left[] = "G1 X12 Y20 Z30\nG1 X14 Y20 Z30\n";

/* A service laptop's journal: an append of a line of 15 bytes, and a change of 3 bytes at place 18. */
static const uint8_t journal[] = "\x40\0\0\0\0\0\0\0\0\0\0\x0fG1 X11 Y20 Z30\n\x20\0\0\0\0\0\0\x12\0\0\0\x03X11X14";

/* A cell's file and its parts, one a gripper: from each place to the next. All but the last part are of whole blocks. */
#define PARTS 3
static const uint8_t cell[] = "G1 X10 Y20 Z30 \nG1 X11 Y20 Z30 \nG1 X12 Y20 Z30 \nG1 X13 Y20 Z30\n";
static const size_t places[PARTS + 1] = { 0, 32, 48, sizeof cell - 1 };

/* What is put away: the state, which is secret, and the slip, which is not. */
struct stored {
	uint8_t state[ARMFILE_STATE_BYTES], slip[ARMFILE_SLIP_BYTES];
};

/* What a join of the cell's parts takes and gives. All of it is secret. */
struct joined {
	uint8_t state[ARMFILE_STATE_BYTES], h[ARMFILE_BLOCK_BYTES], sums[PARTS * ARMFILE_BLOCK_BYTES];
	uint8_t sum[ARMFILE_BLOCK_BYTES], of_reader[ARMFILE_BLOCK_BYTES];
};

/* Overwrites the stack below its caller, where the library's calls leave keys and sums (armfile.h, WHAT TO WIPE). */
static void overwrite_stack(void)
{
	volatile uint8_t room[16384];

	for (size_t i = 0; i < sizeof room; i++)
		room[i] = 0;
}
static void (*volatile wipe_stack)(void) = overwrite_stack; /* volatile, so that it is not inlined */

static void wipe(volatile uint8_t *bytes, size_t n)
{
	while (n--)
		*bytes++ = 0;
}

/* Whether a call was refused; if so, its number is told. Nothing has changed then, a replay excepted, and the caller may go on. */
static int refused(const char *what, uint64_t number)
{
	if (number != ARMFILE_OK)
		printf("%s: refused %u\n", what, (unsigned)number);
	return number != ARMFILE_OK;
}

/* From a blank card to the first line of `left`. What a change, a drop or a cut names does stand in the file at that place: blank bytes, at first. */
static int edit(uint8_t *state)
{
	uint8_t blank[sizeof line - 1];
	uint64_t count;

	memset(blank, ERASED, sizeof blank);
	if (refused("start", armfile_start(key, sizeof key, ARM, 0, sizeof blank, ERASED, state, &count))
	    || refused("change", armfile_change(state, 0, blank, sizeof blank, TEXT(line), &count))
	    || refused("append", armfile_append(state, TEXT(line_2), &count)))
		return 1;
	/* Whole blocks alone are prepended: without its line end the head is none, and with it it is. */
	if (!refused("prepend of 15 bytes", armfile_prepend(state, head, 15, &count))
	    || refused("prepend", armfile_prepend(state, TEXT(head), &count)))
		return 1;
	printf("%u bytes\n", (unsigned)armfile_length(state));
	return refused("change", armfile_change(state, sizeof head - 1 + 3, TEXT(old), TEXT(new_), &count))
	    || refused("drop_front", armfile_drop_front(state, TEXT(head), &count))
	    || refused("cut_tail", armfile_cut_tail(state, TEXT(line_2), &count));
}

/* Runs the journal, to `left`, once it is forecast that no record is refused: how long to wait at most, in products, and how long the file gets. */
static int run_journal(uint8_t *state)
{
	uint64_t bound, greatest, count, offset;

	if (refused("forecast", armfile_forecast(armfile_length(state), TEXT(journal), &bound, &greatest, &offset)))
		return 1;
	printf("journal: at most %u products and %u bytes\n", (unsigned)bound, (unsigned)greatest);
	return refused("replay", armfile_replay(state, TEXT(journal), &count, &offset)) || count > bound || armfile_length(state) > greatest;
}

/* Seals three times: `left`, with a slip for Tuesday's card, a change of it, and `left` again, since the change was undone. */
static int seal(struct stored *kept, uint8_t *tuesday)
{
	uint64_t count;

	return refused("seal", armfile_seal(kept->state, tuesday, ARMFILE_SLIP_BYTES))
	    || refused("change", armfile_change(kept->state, 3, TEXT(new_), TEXT(other), &count))
	    || refused("seal", armfile_seal(kept->state, kept->slip, sizeof kept->slip))
	    || refused("change", armfile_change(kept->state, 3, TEXT(other), TEXT(new_), &count))
	    || refused("seal", armfile_seal(kept->state, kept->slip, sizeof kept->slip));
}

/* Puts away and takes out again. A controller would store the state where nobody else reads it, and before the slip leaves. */
static int put_away(const struct stored *from, struct stored *to)
{
	FILE *f = tmpfile();
	int fine = f && fwrite(from, sizeof *from, 1, f) == 1 && fseek(f, 0, SEEK_SET) == 0 && fread(to, sizeof *to, 1, f) == 1;

	if (f)
		fclose(f);
	return !fine;
}

/* Tuesday's card is put back. Its slip is of the bytes that are held, but not the newest: a test for anything but 0 would take it. */
static int old_card(const uint8_t *state, const uint8_t *tuesday)
{
	uint8_t verdict = ARMFILE_NOT_GENUINE;

	if (refused("check", armfile_check(state, tuesday, ARMFILE_SLIP_BYTES, &verdict)) || verdict != ARMFILE_STALE)
		return 1;
	printf("Tuesday's card: stale\n");
	return 0;
}

/* Sends the file unread, and reads it where it arrives. One bit altered on the way, and it is refused: no text comes of it. */
static int carry(void)
{
	uint8_t nonce[12] = { 0 }; /* a number that is counted up, and stored before it is used */
	uint8_t carried[sizeof left - 1], text[sizeof left - 1], tag[ARMFILE_BLOCK_BYTES];

	nonce[11] = 1;
	int failed = refused("gcm_encrypt", armfile_gcm_encrypt(carrying_key, sizeof carrying_key, nonce, sizeof nonce, TEXT(head), TEXT(left),
		carried, sizeof carried, tag, sizeof tag))
	    || refused("gcm_decrypt", armfile_gcm_decrypt(carrying_key, sizeof carrying_key, nonce, sizeof nonce, TEXT(head), carried,
		sizeof carried, text, sizeof text, tag, sizeof tag))
	    || memcmp(text, left, sizeof text);
	wipe(text, sizeof text);
	carried[0] ^= 1;
	return failed || armfile_gcm_decrypt(carrying_key, sizeof carrying_key, nonce, sizeof nonce, TEXT(head), carried, sizeof carried, text,
		sizeof text, tag, sizeof tag) != ARMFILE_WRONG_TAG;
}

/* Whether two blocks differ, in a time that says nothing of where. */
static int differ(const uint8_t *a, const uint8_t *b)
{
	uint8_t bits = 0;

	for (size_t i = 0; i < ARMFILE_BLOCK_BYTES; i++)
		bits |= a[i] ^ b[i];
	return bits != 0;
}

/* Reads each part of the cell's file by itself and joins them. Sum and length must be those of one who reads the file whole. None of these states
 * seals, so their last used number may be 0. */
static int join(struct joined *j)
{
	uint64_t lengths[PARTS], n;

	for (size_t i = 0; i < PARTS; i++) {
		if (refused("read", armfile_read(key, sizeof key, ARM, 0, cell + places[i], places[i + 1] - places[i], j->state)))
			return 1;
		armfile_sum(j->state, j->sums + i * ARMFILE_BLOCK_BYTES);
		lengths[i] = armfile_length(j->state);
	}
	armfile_hash_key(j->state, j->h); /* one key, one H: any part's */
	if (refused("join", armfile_join(j->h, sizeof j->h, j->sums, sizeof j->sums, lengths, PARTS, j->sum, &n))
	    || refused("read", armfile_read(key, sizeof key, ARM, 0, TEXT(cell), j->state)))
		return 1;
	armfile_sum(j->state, j->of_reader);
	printf("%d parts, %u bytes\n", PARTS, (unsigned)n);
	return n != armfile_length(j->state) || differ(j->sum, j->of_reader);
}

/* The file's life. The newest slip must be current by the state that was put away, and by that of one who reads the file whole. The reader is told the
 * last used number too: by 0 the slip would be ahead. */
static int life(struct stored *kept, struct stored *back, uint8_t *reader)
{
	uint8_t tuesday[ARMFILE_SLIP_BYTES], verdict = ARMFILE_NOT_GENUINE, of_reader = ARMFILE_NOT_GENUINE;

	if (edit(kept->state) || run_journal(kept->state) || seal(kept, tuesday) || put_away(kept, back))
		return 1;
	printf("%u bytes, arm %u, seal %u\n", (unsigned)armfile_length(back->state), (unsigned)armfile_arm(back->state),
		(unsigned)armfile_last(back->state));
	return refused("check", armfile_check(back->state, back->slip, sizeof back->slip, &verdict))
	    || refused("read", armfile_read(key, sizeof key, ARM, armfile_last(back->state), TEXT(left), reader))
	    || refused("check", armfile_check(reader, back->slip, sizeof back->slip, &of_reader))
	    || verdict != ARMFILE_CURRENT || of_reader != ARMFILE_CURRENT
	    || old_card(back->state, tuesday) || carry();
}

/* Whatever came of it, what is secret is wiped. */
int main(void)
{
	struct stored kept, back;
	struct joined joined;
	uint8_t reader[ARMFILE_STATE_BYTES];
	int failed = life(&kept, &back, reader) || join(&joined);

	wipe(kept.state, sizeof kept.state);
	wipe(back.state, sizeof back.state);
	wipe(reader, sizeof reader);
	wipe((uint8_t *)&joined, sizeof joined);
	wipe_stack();
	printf("%s\n", failed ? "failed" : "current");
	return failed;
}
