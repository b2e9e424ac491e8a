/*
 * A register that loses nothing by a crash: logged LOG EVENTS [LIFE WHERE]. Each event is a line. It is written to the log, and then given; what it
 * sends would go out after that. A log that is there is replayed first: its whole lines are given again, in pieces that end anywhere. (A machine
 * that loses power needs an fdatasync before anything goes out. Here a process dies, and the file stays.)
 *
 * What comes next follows from the number of the event and from what the register has sent, as with peers. So a run that dies and is started
 * again, however often, has to end with what one run ends with: the program prints the records and the open dialogues. With LIFE it is
 * killed in the event after that many: WHERE 0, when half of its line is written; 1, before it is given; 2, after that.
 *
 * logged LOG prints how many lines of the log a register replays in a second of the processor.
 */
#include "../../include/kunchrol.h"
#include "events.h"
#include "replay.h"

enum { MAX_LOG = 8388608, MAX_TEXT = 1048576, MADE = 0x42, OWN = 0600, KILL = 9, LONG_PIECE = 65536, LIVES = 30 };

static struct kunchrol hlr = KUNCHROL_CLOSED_HANDLE;
static char log_text[MAX_LOG];
static uint8_t text[MAX_TEXT];

/* Takes what waits: the ids of dialogues that begin or go on are noted. */
static uint32_t take_all(void)
{
	uint8_t to[KUNCHROL_MAX_DIGITS], octets[KUNCHROL_MAX_OCTETS];
	size_t to_len, count;
	uint32_t code;

	while (!(code = kunchrol_next(&hlr, to, sizeof(to), &to_len, octets, sizeof(octets), &count)))
		note_ids(octets);
	return code == KUNCHROL_NONE ? KUNCHROL_OK : code;
}

/* Gives a line, and takes what it sends. */
static uint32_t give(const char *words, size_t len)
{
	uint32_t code = kunchrol_line(&hlr, (const uint8_t *)words, len);

	return code && code != KUNCHROL_NONE ? code : take_all();
}

/* How many lines a second of the processor registers replay that are opened anew, one after the other. */
static int time_replay(const char *path)
{
	int file = open(path, READ_ONLY);
	long len = file < 0 ? 0 : read(file, log_text, MAX_LOG);
	size_t lines = 0, used = 1;
	uint32_t code = KUNCHROL_OK;
	uint64_t fault;
	double spent = 0;

	for (long at = 0; at < len; at++)
		lines += log_text[at] == '\n';
	for (int life = 0; life < LIVES && !code; life++) {
		code = kunchrol_open((const uint8_t *)RECORDS, strlen(RECORDS), 0, 0, &hlr, &fault);
		spent -= seconds(PROCESSOR);
		for (long at = 0; at < len && used && !code; at += (long)used) {
			long left = len - at;

			code = kunchrol_replay(&hlr, (const uint8_t *)log_text + at, (size_t)(left < LONG_PIECE ? left : LONG_PIECE), &used, &fault);
			if (!code)
				code = kunchrol_drop_frames(&hlr);
		}
		spent += seconds(PROCESSOR);
		kunchrol_close(&hlr);
	}
	printf("%.0f lines of a log a second of the processor (%s)\n", (double)lines * LIVES / spent, kunchrol_name(code));
	return !lines || code;
}

/* Writes the line of an event, and gives it. */
static uint32_t go_on(int file, uint64_t number, int dies)
{
	size_t len = make_line(number);
	uint32_t code;

	line[len] = '\n';
	if (write(file, line, dies == 0 ? len / 2 : len + 1) < 0)
		return KUNCHROL_MEMORY;
	if (dies == 0 || dies == 1)
		raise(KILL);
	code = give(line, len);
	if (dies == 2)
		raise(KILL);
	return code;
}

static uint32_t print_all(void)
{
	size_t len;
	uint32_t code = kunchrol_save(&hlr, text, sizeof(text), &len);

	if (!code)
		printf("%.*s", (int)len, (const char *)text);
	for (uint8_t shard = 0; shard < KUNCHROL_SHARDS && !code; shard++)
		if (!(code = kunchrol_dialogues(&hlr, shard, text, sizeof(text), &len)))
			printf("%.*s", (int)len, (const char *)text);
	return code;
}

int main(int argc, char **argv)
{
	size_t done = 0;
	uint64_t ends = argc > 2 ? strtoull(argv[2], NULL, 10) : 0, dies = ends, fault = 0;
	int where = argc == 5 ? argv[4][0] - '0' : -1, file = ends ? open(argv[1], MADE, OWN) : -1;
	uint32_t code;

	if (argc == 2)
		return time_replay(argv[1]);
	if (file < 0 || kunchrol_open((const uint8_t *)RECORDS, strlen(RECORDS), 0, 0, &hlr, &fault))
		return 2;
	code = replay(&hlr, file, log_text, &done, take_all);
	if (where >= 0)
		dies = done + strtoull(argv[3], NULL, 10);
	for (; done < ends && !code; done++)
		code = go_on(file, done, done == dies ? where : -1);
	if (!code)
		code = print_all();
	printf("%llu events (%s)\n", (unsigned long long)done, kunchrol_name(code));
	kunchrol_close(&hlr);
	return code != KUNCHROL_OK;
}
