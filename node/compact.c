/* SPDX-License-Identifier: Apache-2.0 */
/*
 * Makes the next image of a register in a store: kunchrol-compact STORE. It has a register of its own, which it opens from the newest
 * image and the rows after it, as a start does. Rows and images that are older than the image it began with are deleted. A process that
 * leads goes on meanwhile, and waits only while the image is written.
 */
#include "durable.h"
#include "status.h"

#include <signal.h>

static enum store_answer compact(struct store *store)
{
	struct durable it;
	enum store_answer answer = durable_open(&it, store);
	unsigned long long from = it.from, last = it.next - 1;

	if (!answer && last == from)
		printf("image %llu is the newest\n", last);
	else if (!answer && !(answer = durable_put_image(&it)))
		printf("image %llu, from image %llu\n", last, from);
	durable_close(&it);
	return answer;
}

int main(int argc, char **argv)
{
	struct store *store;
	enum store_answer answer;

	signal(SIGXFSZ, SIG_IGN); /* so that a file that may not grow makes a write fail */
	if (argc != 2)
		return fprintf(stderr, "kunchrol-compact STORE\nSTORE is " STORES "\n"), ended(END_WORDS);
	store = store_open(argv[1], false);
	if (!store)
		return ended(END_STORE);
	answer = compact(store);
	store->close(store);
	return ended_by(answer);
}
