/*
 * A register that goes on with its open dialogues after a crash, and whose log does not grow for ever:
 * restored FOLDER EVENTS [EVERY [LIFE WHERE]].
 *
 * Each event is a line. It is written to a log and then given, and what it sends goes out: here, to the file `wire`. After one event in EVERY,
 * at random, the register is saved: records and image into one file, `saved`, whose first line also has the number of a new, empty log,
 * how many events were given, and how many octets went out. It is written beside the old one, and one rename puts both texts and the new
 * log in use. A start restores the register from `saved`, and replays the log that it names. What that sends has to be what went out before,
 * octet by octet; what did not goes out now. (A machine that loses power also needs an fdatasync of the log before anything goes out. Here
 * a process dies, and the file stays.)
 *
 * What comes next follows from the number of the event and from what has gone out, as with peers. So a run that dies and is started again,
 * however often, has to end with what one run ends with that never died and never saved: the program prints the records, the image and the
 * open dialogues, and `wire` has all that was sent. With LIFE it is killed in the event after that many, or in the first save after that;
 * WHERE says in which of the places below.
 */
#include "../../include/kunchrol.h"
#include "events.h"
#include "replay.h"

enum { MAX_WIRE = 16777216, MAX_TEXT = 1048576, MAX_FRAME_LINE = 8320, CREATED = 0x42, EMPTY = 0x242, OWN = 0600, KILL = 9 };

enum place { IN_LINE, BEFORE_EVENT, ON_WIRE, BETWEEN_TEXTS, BEFORE_RENAME, AFTER_RENAME, NOWHERE };

/* The first line of the file `saved`: the number of the log that goes on from it, and what had been done. */
struct head {
	size_t log;
	size_t events;
	size_t sent;
	size_t records;
	size_t image;
};

static const char *const LOGS[] = { "log.0", "log.1" };

static struct kunchrol hlr = KUNCHROL_CLOSED_HANDLE;
static int log_file, wire_file;
static size_t log_number, sent, wire_len;
static char wire[MAX_WIRE], log_text[MAX_WIRE];
static uint8_t text[MAX_TEXT], again[MAX_TEXT];

static void die(enum place here, enum place where)
{
	if (here == where)
		raise(KILL);
}

static long read_whole(const char *path, void *into, size_t most)
{
	int file = open(path, READ_ONLY);
	long len = file < 0 ? -1 : read(file, into, most);

	if (file >= 0)
		close(file);
	return len;
}

/* The records at the front of a buffer, and after them the image of each shard. */
static uint32_t save_both(uint8_t *into, size_t *records, size_t *image)
{
	size_t at, len;
	uint32_t code;

	*records = 0;
	code = kunchrol_save(&hlr, into, MAX_TEXT, records);
	at = *records;
	for (uint8_t shard = 0; shard < KUNCHROL_SHARDS && !code; shard++)
		if (!(code = kunchrol_image(&hlr, shard, into + at, MAX_TEXT - at, &len)))
			at += len;
	*image = at - *records;
	return code;
}

/* Sends a text. What of it went out in an earlier life has to be the same. */
static uint32_t put_on_wire(const char *words, size_t len, enum place where)
{
	size_t known = sent >= wire_len ? 0 : wire_len - sent < len ? wire_len - sent : len, left = len - known;
	size_t count = where == ON_WIRE ? left / 2 : left;

	if (memcmp(wire + sent, words, known))
		return KUNCHROL_ARGUMENT;
	sent += len;
	if (write(wire_file, words + known, count) != (long)count)
		return KUNCHROL_MEMORY;
	die(ON_WIRE, where);
	return KUNCHROL_OK;
}

/* Takes what waits, and sends it; the ids of dialogues that begin or go on are noted. */
static uint32_t send_all(enum place where)
{
	uint8_t to[KUNCHROL_MAX_DIGITS], octets[KUNCHROL_MAX_OCTETS];
	char words[MAX_FRAME_LINE];
	size_t to_len, count;
	uint32_t code;

	while (!(code = kunchrol_next(&hlr, to, sizeof(to), &to_len, octets, sizeof(octets), &count))) {
		size_t len = (size_t)snprintf(words, sizeof(words), "S %.*s ", (int)to_len, (const char *)to);

		for (size_t octet = 0; octet < count; octet++)
			len += (size_t)snprintf(words + len, sizeof(words) - len, "%02X", octets[octet]);
		words[len++] = '\n';
		note_ids(octets);
		if ((code = put_on_wire(words, len, where)))
			return code;
	}
	return code == KUNCHROL_NONE ? KUNCHROL_OK : code;
}

/* Notes the ids of what went out before the register was saved. */
static void note_sent(void)
{
	for (char *at = wire; at < wire + sent; at = strchr(at, '\n') + 1) {
		uint8_t octets[16] = { 0 };
		char pair[3] = { 0 };

		at = strchr(at + 2, ' ') + 1;
		for (size_t octet = 0; octet < sizeof(octets) && at[2 * octet] != '\n'; octet++) {
			memcpy(pair, at + 2 * octet, 2);
			octets[octet] = (uint8_t)strtoull(pair, NULL, 16);
		}
		note_ids(octets);
	}
}

/* Saves the register, and begins a new log; one rename puts both in use. */
static uint32_t save(size_t events, enum place where)
{
	struct head head = { 1 - log_number, events, sent, 0, 0 };
	uint32_t code = save_both(text, &head.records, &head.image);
	int log = open(LOGS[head.log], EMPTY, OWN), part = open("saved.part", EMPTY, OWN), folder = open(".", READ_ONLY);

	if (code || log < 0 || part < 0 || folder < 0)
		return code ? code : KUNCHROL_MEMORY;
	dprintf(part, "%zu %zu %zu %zu %zu\n", head.log, head.events, head.sent, head.records, head.image);
	if (write(part, text, head.records) != (long)head.records)
		return KUNCHROL_MEMORY;
	die(BETWEEN_TEXTS, where);
	if (write(part, text + head.records, head.image) != (long)head.image || fsync(part) || fsync(log) || close(part))
		return KUNCHROL_MEMORY;
	die(BEFORE_RENAME, where);
	if (rename("saved.part", "saved"))
		return KUNCHROL_MEMORY;
	die(AFTER_RENAME, where);
	close(log_file);
	log_file = log;
	log_number = head.log;
	return fsync(folder) || close(folder) ? KUNCHROL_MEMORY : KUNCHROL_OK;
}

/* Restores the register of the file `saved`, which has this many octets. What is written of it at once is what it was restored from. */
static uint32_t restore(size_t len, struct head *head)
{
	char *at = (char *)text;
	size_t *const fields[] = { &head->log, &head->events, &head->sent, &head->records, &head->image };
	size_t records, image;
	uint64_t fault;
	uint32_t code;

	for (size_t field = 0; field < sizeof(fields) / sizeof(fields[0]); field++)
		*fields[field] = strtoull(at, &at, 10);
	at++;
	if ((size_t)(at - (char *)text) + head->records + head->image != len)
		return KUNCHROL_ARGUMENT;
	code = kunchrol_restore((uint8_t *)at, head->records, (uint8_t *)at + head->records, head->image, 0, &hlr, &fault);
	if (!code && !(code = save_both(again, &records, &image)))
		code = records != head->records || image != head->image || memcmp(again, at, records + image) ? KUNCHROL_ARGUMENT : KUNCHROL_OK;
	return code;
}

/* Restores the register that was saved, or opens the first. */
static uint32_t start(size_t *events)
{
	struct head head = { 0, 0, 0, 0, 0 };
	char records[MAX_RECORDS];
	size_t records_len = make_many(records);
	long len = read_whole("saved", text, MAX_TEXT);
	uint64_t fault;
	uint32_t code = len < 0 ? kunchrol_open((uint8_t *)records, records_len, 0, 0, &hlr, &fault) : restore((size_t)len, &head);

	if (code || head.log > 1 || head.sent > wire_len)
		return code ? code : KUNCHROL_ARGUMENT;
	*events = head.events;
	log_number = head.log;
	sent = head.sent;
	note_sent();
	return KUNCHROL_OK;
}

static uint32_t send_rest(void)
{
	return send_all(NOWHERE);
}

/* Writes the line of an event, gives it, and sends what it sends. */
static uint32_t go_on(size_t number, enum place where)
{
	size_t len = make_line(number), written = where == IN_LINE ? len / 2 : len + 1;
	uint32_t code;

	line[len] = '\n';
	if (write(log_file, line, written) != (long)written)
		return KUNCHROL_MEMORY;
	die(IN_LINE, where);
	die(BEFORE_EVENT, where);
	code = kunchrol_line(&hlr, (const uint8_t *)line, len);
	return code && code != KUNCHROL_NONE ? code : send_all(where);
}

/* Whether the register is saved after the event with this number. */
static int is_saved_after(size_t number, size_t every)
{
	sow(~number);
	return every && draw(every) == 0;
}

static uint32_t print_all(void)
{
	size_t records, image, len;
	uint32_t code = save_both(text, &records, &image);

	if (!code)
		printf("%.*s", (int)(records + image), (const char *)text);
	for (uint8_t shard = 0; shard < KUNCHROL_SHARDS && !code; shard++)
		if (!(code = kunchrol_dialogues(&hlr, shard, text, sizeof(text), &len)))
			printf("%.*s", (int)len, (const char *)text);
	return code;
}

/* The events that are left, with the saves between them, up to the last one or to the end of this life. */
static uint32_t live(size_t done, size_t ends, size_t every, size_t dies, enum place where)
{
	uint32_t code = KUNCHROL_OK;

	for (; done < ends && !code; done++) {
		code = go_on(done, done >= dies ? where : NOWHERE);
		if (!code && is_saved_after(done, every))
			code = save(done + 1, done >= dies ? where : NOWHERE);
	}
	return code ? code : print_all();
}

int main(int argc, char **argv)
{
	size_t done = 0, ends = argc > 2 ? strtoull(argv[2], NULL, 10) : 0, every = argc > 3 ? strtoull(argv[3], NULL, 10) : 0;
	enum place where = argc > 5 ? (enum place)(argv[5][0] - '0') : NOWHERE;
	uint32_t code;
	long len;

	if (argc < 3 || chdir(argv[1]) || (wire_file = open("wire", CREATED, OWN)) < 0 || (len = read(wire_file, wire, MAX_WIRE - 1)) < 0)
		return 2;
	wire_len = (size_t)len;
	code = start(&done);
	log_file = open(LOGS[log_number], CREATED, OWN);
	if (!code)
		code = log_file < 0 ? KUNCHROL_MEMORY : replay(&hlr, log_file, log_text, &done, send_rest);
	if (!code)
		code = live(done, ends, every, argc > 5 ? done + strtoull(argv[4], NULL, 10) : ends, where);
	printf("%zu octets sent (%s)\n", sent, kunchrol_name(code));
	kunchrol_close(&hlr);
	return code != KUNCHROL_OK;
}
