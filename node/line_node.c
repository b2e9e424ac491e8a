/* SPDX-License-Identifier: Apache-2.0 */
/*
 * A register that loses nothing, on a pipe: line_node [--list | --pair SECONDS] STORE [RECORDS].
 *
 * It leads, and writes `leads <row>`. Standard input has lines of a log, and notes (notes.h). A line `W`, and the end, commits those that were read since the last one.
 * When they are in the store, each frame that they sent is written as `S <to> <octets in hexadecimal>`, and then `W <number of the last
 * row>`. Lines after a W are read while its commit runs, up to the next W. A line that the register refuses is told on standard error, with
 * its number. RECORDS is read only if the store has no register yet.
 *
 * With --pair it follows another process, and writes `follows <row>`; what is read then is refused. It leads when the other one leaves, or gives no
 * row for so many seconds, follows again when its number is taken, and leaves at the end of the input.
 *
 * With --list it reads nothing, and writes the records, the open dialogues and their notes.
 */
#define _POSIX_C_SOURCE 200809L
#include "durable.h"
#include "status.h"

#include <poll.h>
#include <signal.h>
#include <stdlib.h>
#include <string.h>
#include <unistd.h>

/* How often one who follows looks for rows, and how much is read at a time. */
enum { PACE_MILLISECONDS = 50, MAX_READ = 1 << 16 };

struct node {
	struct durable it;
	struct store *store;
	const char *records;
	unsigned patience; /* milliseconds, of one of a pair; 0 for one that is alone */
	struct text input; /* what was read and not given */
	unsigned long long number; /* of the last line */
	bool rests; /* between two looks for rows */
	bool is_over, is_done;
	int status;
};

static void write_frame(const struct durable_frame *frame)
{
	printf("S %.*s ", (int)frame->to_len, (const char *)frame->to);
	for (size_t octet = 0; octet < frame->len; octet++)
		printf("%02X", frame->octets[octet]);
	putchar('\n');
}

/* Writes what may be sent. */
static void hand_out(struct node *node)
{
	struct durable_frame frame;

	while (durable_next(&node->it, &frame))
		write_frame(&frame);
	if (fflush(stdout))
		node->status = ended(END_PIPE);
}

/* Writes a word, and the number of the last row. */
static void tell(struct node *node, const char *word)
{
	printf("%s %llu\n", word, (unsigned long long)node->it.next - 1);
	if (fflush(stdout))
		node->status = ended(END_PIPE);
}

static int list(struct durable *it)
{
	struct text text = { NULL, 0, 0 };
	uint32_t code = durable_write(it, DURABLE_RECORDS, 0, &text);

	for (uint8_t shard = 0; shard < KUNCHROL_SHARDS && !code; shard++)
		code = durable_write(it, DURABLE_DIALOGUES, shard, &text);
	for (uint8_t shard = 0; shard < KUNCHROL_SHARDS && !code; shard++)
		code = durable_write(it, DURABLE_NOTES, shard, &text);
	if (code)
		fprintf(stderr, "list: %s\n", kunchrol_name(code));
	else
		fwrite(text.at, 1, text.len, stdout);
	free(text.at);
	return code || fflush(stdout) ? ended(END_PIPE) : END_WELL;
}

/* Begins the register of a store that has none, with the text of a file, if no other process does so first. */
static int begin(struct store *store, const char *path)
{
	FILE *file = fopen(path, "rb");
	long len = file && !fseek(file, 0, SEEK_END) ? ftell(file) : -1;
	uint8_t *text = len < 0 ? NULL : malloc((size_t)len + 1);
	int status = END_WORDS;

	if (text && !fseek(file, 0, SEEK_SET) && fread(text, 1, (size_t)len, file) == (size_t)len) {
		enum store_answer answer = durable_begin(store, text, (size_t)len);

		status = answer == STORE_TAKEN ? END_WELL : ended_by(answer);
	} else {
		perror(path);
		ended(status);
	}
	free(text);
	if (file)
		fclose(file);
	return status;
}

static int open_or_begin(struct durable *it, struct store *store, const char *path)
{
	enum store_answer answer = durable_open(it, store);
	int status = END_WELL;

	if (answer == STORE_NONE && path) {
		status = begin(store, path);
		answer = status ? answer : durable_open(it, store);
	}
	return status ? status : ended_by(answer);
}

/* Opens the register; one of a pair follows. */
static void open_register(struct node *node)
{
	node->status = open_or_begin(&node->it, node->store, node->records);
	if (!node->status && node->patience)
		tell(node, "follows");
}

/*
 * What one of a pair does when another one was faster: it goes on from what is in the store. So does one that is alone and does not lead yet: what came
 * may be the last row of a process that was killed, which a server had still to do. One that is alone and leads ends.
 */
static void yield_to_other(struct node *node, enum durable_job job)
{
	if (!node->patience && job != DURABLE_LEAD) {
		node->status = ended_by(STORE_TAKEN);
	} else if (!node->patience || node->it.answer) {
		durable_close(&node->it);
		open_register(node);
	}
}

static void take_answer(struct node *node)
{
	const enum durable_job job = node->it.job;
	const enum store_answer answer = durable_finish(&node->it);

	hand_out(node);
	if (answer == STORE_TAKEN) {
		yield_to_other(node, job);
	} else if (answer) {
		node->status = ended_by(answer);
	} else if (job == DURABLE_COMMIT) {
		tell(node, "W");
	} else if (job == DURABLE_LEAD) {
		tell(node, "leads");
	}
	node->rests = job == DURABLE_FOLLOW && !node->it.found;
	node->is_done = job == DURABLE_LEAVE;
}

static void give_event(struct node *node, const uint8_t *line, size_t len)
{
	struct note note;
	const uint32_t code = note_read(line, len, &note) ? durable_note(&node->it, &note) : durable_line(&node->it, line, len);

	if (!node->it.leads)
		fprintf(stderr, "line %llu: it follows\n", node->number);
	else if (code && code != KUNCHROL_NONE)
		fprintf(stderr, "line %llu: %s\n", node->number, kunchrol_name(code));
}

/* Gives a line; false if it has to wait for the commit that runs. */
static bool is_given(struct node *node, const uint8_t *line, size_t len)
{
	const bool is_commit = len == 1 && *line == 'W' && node->it.leads;

	if (is_commit && node->it.job)
		return false;
	node->number++;
	if (!is_commit)
		give_event(node, line, len);
	else if (!durable_start(&node->it, DURABLE_COMMIT))
		tell(node, "W");
	return true;
}

/* Gives each whole line that was read, and at the end of the input commits what is left. */
static void give_lines(struct node *node)
{
	const uint8_t *end;
	size_t given = 0;

	while (!node->status && given < node->input.len && (end = memchr(node->input.at + given, '\n', node->input.len - given)) &&
	       is_given(node, node->input.at + given, (size_t)(end - node->input.at) - given))
		given = (size_t)(end - node->input.at) + 1;
	text_drop(&node->input, given);
}

/* Whether all whole lines were given. */
static bool is_idle(const struct node *node)
{
	return !node->input.len || !memchr(node->input.at, '\n', node->input.len);
}

/* After the end of the input, and the last commit. */
static void end_in_order(struct node *node)
{
	if (!node->it.job)
		node->is_done = !node->patience || !durable_start(&node->it, DURABLE_LEAVE);
}

/* The end is as good as a W. What stands there without its line feed is not whole, and is left out. */
static void take_end(struct node *node)
{
	node->is_over = true;
	while (node->input.len && node->input.at[node->input.len - 1] != '\n')
		node->input.len--;
	if (node->it.leads)
		text_add(&node->input, "W\n", 2);
}

static void read_input(struct node *node)
{
	ssize_t len = text_has_space(&node->input, MAX_READ) ? read(STDIN_FILENO, node->input.at + node->input.len, MAX_READ) : -1;

	if (len < 0)
		node->status = ended(END_PIPE);
	else if (len)
		node->input.len += (size_t)len;
	else
		take_end(node);
}

/* One turn of the loop: an answer, or what has come. Nothing is read as long as lines wait, nor before it leads, if it is alone. */
static void turn(struct node *node)
{
	const bool is_reading = !node->is_over && is_idle(node) && (node->patience || node->it.leads);
	struct pollfd fds[] = { { durable_fd(&node->it), POLLIN, 0 }, { is_reading ? STDIN_FILENO : -1, POLLIN, 0 } };

	if (!node->rests)
		durable_start(&node->it, durable_may_lead(&node->it, node->patience) ? DURABLE_LEAD : DURABLE_FOLLOW);
	if (!poll(fds, 2, node->rests ? PACE_MILLISECONDS : -1))
		node->rests = false;
	if (fds[0].revents)
		take_answer(node);
	if (!node->status && fds[1].revents)
		read_input(node);
	if (!node->status)
		give_lines(node);
	if (!node->status)
		hand_out(node);
	if (!node->status && node->is_over && is_idle(node))
		end_in_order(node);
}

static int run(struct node *node, bool is_listed)
{
	open_register(node);
	if (!node->status && is_listed)
		node->status = list(&node->it);
	while (!node->status && !node->is_done && !is_listed)
		turn(node);
	durable_close(&node->it);
	return node->status;
}

int main(int argc, char **argv)
{
	const bool is_listed = argc > 1 && !strcmp(argv[1], "--list"), is_paired = argc > 2 && !strcmp(argv[1], "--pair");
	char **words = argv + 1 + is_listed + 2 * is_paired;
	struct node node = { .patience = is_paired ? (unsigned)(1000 * strtod(argv[2], NULL)) : 0 };
	int status;

	signal(SIGXFSZ, SIG_IGN); /* so that a file that may not grow makes a write fail */
	signal(SIGPIPE, SIG_IGN);
	if (!words[0] || (words[1] && words[2]) || (is_paired && !node.patience))
		return fprintf(stderr, "line_node [--list | --pair SECONDS] STORE [RECORDS]\nSTORE is " STORES "\n"), ended(END_WORDS);
	node.records = words[1];
	node.store = store_open(words[0], words[1]);
	if (!node.store)
		return ended(END_STORE);
	status = run(&node, is_listed);
	text_free(&node.input);
	node.store->close(node.store);
	return status;
}
