/*
 * Questions that a client asks over and over. A record grows by what happens, and not by how often a client asks: it leaves
 * out a question that changes nothing if the lines before it have it already, with the same answer. These are the line before
 * it, or a round of up to 16 lines, such as a question and a sleep. A comment says how many lines are left out, and the time of
 * the last one. So whoever plays a record again gets all answers that the client got.
 *
 * Children of the client have the same record, so what is kept here is in the memory that they share.
 */
#define _GNU_SOURCE
#include "device.h"
#include "server.h"
#include <stdio.h>
#include <string.h>

/* A line after its time, with its line feed, and its answer. */
struct question {
	const char *words, *answer;
	size_t length, length_of_answer;
};

/* Returns the line that was recorded so many lines before the next one. */
static struct asked *line_before(struct folding *f, unsigned lines)
{
	return f->asked + (f->recorded - lines) % MOST_OF_A_ROUND;
}

static int is_same(const struct asked *a, const struct question *q)
{
	if (a->length != q->length + q->length_of_answer || memcmp(a->text, q->words, q->length))
		return 0;
	return !memcmp(a->text + q->length, q->answer, q->length_of_answer);
}

/* Returns how many lines the round has that is complete with this line for the second time, or 0. */
static unsigned find_round(struct folding *f, const struct question *q)
{
	unsigned found = 0;
	for (unsigned lines = MOST_OF_A_ROUND; lines; lines--) {
		int is = lines <= f->recorded && is_same(line_before(f, lines), q);
		f->same[lines] = is ? f->same[lines] + 1 : 0;
		if (f->same[lines] >= lines)
			found = lines;
	}
	return found;
}

static void keep(struct folding *f, const struct question *q)
{
	struct asked *a = line_before(f, 0);
	a->length = q->length + q->length_of_answer;
	memcpy(a->text, q->words, q->length);
	memcpy(a->text + q->length, q->answer, q->length_of_answer);
	f->recorded++;
}

/* Forgets the lines before, since something happens. Says how many were left out, if any. */
void folding_end(void)
{
	struct folding *f = &device->folding;
	char text[128], lines[16] = "one";
	if (!f->recorded)
		return;
	if (f->round > 1)
		snprintf(lines, sizeof lines, "%u", f->round);
	if (f->round) {
		int length = snprintf(text, sizeof text, "# %llu repeated: %llu line%s like the last %s\n", (unsigned long long)f->last_time,
			(unsigned long long)f->left_out, f->left_out == 1 ? "" : "s", lines);
		record_put(text, length);
	}
	f->recorded = f->round = f->left_out = 0;
	memset(f->same, 0, sizeof f->same);
}

/* Returns whether a record leaves out a question. It comes with its words after the time, and with its answer. */
int folding_leaves_out(uint64_t time, const char *words, size_t length, const char *answer)
{
	struct folding *f = &device->folding;
	const struct question q = { words, answer, length, strlen(answer) };
	if (q.length + q.length_of_answer > sizeof f->asked->text) {
		folding_end();
		return 0;
	}
	if (f->round && !is_same(line_before(f, f->round - f->left_out % f->round), &q))
		folding_end();
	if (!f->round)
		f->round = find_round(f, &q);
	if (!f->round) {
		keep(f, &q);
		return 0;
	}
	f->left_out++;
	f->last_time = time;
	return 1;
}
