/* SPDX-License-Identifier: Apache-2.0 */
#define _DEFAULT_SOURCE /* eventfd */
#include "caller.h"

#include <pthread.h>
#include <semaphore.h>
#include <signal.h>
#include <stdio.h>
#include <sys/eventfd.h>
#include <unistd.h>

/* How many octets of rows are read in one call, about. */
enum { MAX_READ = 4 << 20 };

struct caller {
	struct store *store;
	pthread_t thread;
	sem_t is_asked, is_answered;
	int fd;
	enum { APPEND, READ, END } call;
	uint64_t seq;
	const uint8_t *lines;
	size_t len;
	struct text rows; /* each with its number and its length before it */
	bool is_short;    /* of memory, for a row */
	enum store_answer answer;
};

struct head {
	uint64_t seq;
	size_t len;
};

static bool keep_row(void *context, uint64_t seq, const uint8_t *lines, size_t len)
{
	struct caller *it = context;
	const struct head head = { seq, len };

	it->is_short = !text_has_space(&it->rows, sizeof(head) + len);
	if (it->is_short)
		return false;
	text_add(&it->rows, &head, sizeof(head));
	text_add(&it->rows, lines, len);
	return it->rows.len < MAX_READ;
}

static enum store_answer read_rows(struct caller *it)
{
	const struct store_reader reader = { NULL, keep_row, it };
	enum store_answer answer;

	it->rows.len = 0;
	it->is_short = false;
	answer = it->store->rows(it->store, it->seq, &reader);
	return answer != STORE_STOPPED ? answer : it->is_short ? STORE_REFUSED : STORE_DURABLE;
}

static void *work(void *context)
{
	struct caller *it = context;
	const uint64_t one = 1;

	for (;;) {
		while (sem_wait(&it->is_asked))
			;
		if (it->call == END)
			return NULL;
		if (it->call == READ)
			it->answer = read_rows(it);
		else
			it->answer = it->lines ? it->store->append(it->store, it->seq, it->lines, it->len) : STORE_REFUSED;
		/* first the descriptor: who has the answer has read it, so that it tells of no answer that was taken */
		if (write(it->fd, &one, sizeof(one)) != sizeof(one))
			perror("caller");
		sem_post(&it->is_answered);
	}
}

/* The signals of the process are for its other threads. */
static bool has_thread(struct caller *it)
{
	sigset_t all, before;
	bool is_there;

	sigfillset(&all);
	pthread_sigmask(SIG_SETMASK, &all, &before);
	is_there = !pthread_create(&it->thread, NULL, work, it);
	pthread_sigmask(SIG_SETMASK, &before, NULL);
	return is_there;
}

static void free_caller(struct caller *it)
{
	if (it->fd >= 0)
		close(it->fd);
	sem_destroy(&it->is_asked);
	sem_destroy(&it->is_answered);
	text_free(&it->rows);
	free(it);
}

struct caller *caller_begin(struct store *store)
{
	struct caller *it = calloc(1, sizeof(*it));

	if (!it)
		return NULL;
	it->store = store;
	sem_init(&it->is_asked, 0, 0);
	sem_init(&it->is_answered, 0, 0);
	it->fd = eventfd(0, EFD_CLOEXEC);
	if (it->fd >= 0 && has_thread(it))
		return it;
	free_caller(it);
	return NULL;
}

void caller_append(struct caller *it, uint64_t seq, const uint8_t *lines, size_t len)
{
	it->call = APPEND;
	it->seq = seq;
	it->lines = lines;
	it->len = len;
	sem_post(&it->is_asked);
}

void caller_read(struct caller *it, uint64_t after)
{
	it->call = READ;
	it->seq = after;
	sem_post(&it->is_asked);
}

int caller_fd(const struct caller *it)
{
	return it->fd;
}

enum store_answer caller_answer(struct caller *it)
{
	uint64_t count;

	while (sem_wait(&it->is_answered))
		;
	if (read(it->fd, &count, sizeof(count)) != sizeof(count))
		perror("caller");
	return it->answer;
}

bool caller_rows(const struct caller *it, const struct store_reader *reader)
{
	struct head head;

	for (size_t at = 0; at < it->rows.len; at += sizeof(head) + head.len) {
		memcpy(&head, it->rows.at + at, sizeof(head));
		if (!reader->row(reader->context, head.seq, it->rows.at + at + sizeof(head), head.len))
			return false;
	}
	return true;
}

void caller_end(struct caller *it)
{
	it->call = END;
	sem_post(&it->is_asked);
	pthread_join(it->thread, NULL);
	free_caller(it);
}
