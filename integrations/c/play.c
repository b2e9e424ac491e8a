/*
 * Plays a script on records through the library, as the program `hlr` does in one thread:
 * play RECORDS SCRIPT [--again] [--late] [--none] [--restored] [--list] [--save].
 * Prints `S <to> <octets>` for each frame that is sent, with --late only where a batch ends; with --list then the records, which are
 * looked up one by one, the open dialogues, and the journals, which are cut; and with --save the records, each line after `V `. Counts of a
 * shard that are not those of its dialogues and its journal as they are listed are reported on standard error. A call that
 * returns MEMORY changed nothing, so with --again it is made once more; if a journal is full all are cut, and the call is made again. With
 * --none the register keeps no journals, and with --restored it is closed where a batch ends, and restored from its records and its image. A
 * line that is not handled is reported on standard error, and the status is then 1.
 */
#include "../../include/kunchrol.h"
#include "libc.h"

enum { MAX_TEXT = 16777216, MAX_LETTERS = 26, MAX_FRAME = 65536 };

static struct kunchrol hlr = KUNCHROL_CLOSED_HANDLE;
static uint8_t records[MAX_TEXT], text[MAX_TEXT], image[MAX_TEXT];
static char script[MAX_TEXT + 1];
static uint8_t ids[MAX_LETTERS][4];
static size_t id_count;

static int is_made_again, is_late, is_restored;

/* the call, and with --again once more where memory was refused */
#define CALL(code, call) \
	do { \
		if (((code) = (call)) == KUNCHROL_MEMORY && is_made_again) \
			(code) = (call); \
	} while (0)

/* the lines of a listing that begin with this letter */
static size_t lines_of(char letter, size_t len)
{
	size_t count = 0;

	for (size_t at = 0; at < len; at++)
		count += (at == 0 || text[at - 1] == '\n') && text[at] == letter;
	return count;
}

static void look_at_count(uint8_t shard, size_t count, size_t listed)
{
	if (count != listed)
		dprintf(STANDARD_ERROR, "play: shard %u counts %zu, and lists %zu\n", shard, count, listed);
}

static uint32_t cut_journals(int is_listed)
{
	uint32_t code = KUNCHROL_OK;
	size_t len, dialogues, entries;

	for (uint8_t shard = 0; shard < KUNCHROL_SHARDS && !code; shard++) {
		code = kunchrol_counts(&hlr, shard, &dialogues, &entries);
		if (!code)
			CALL(code, kunchrol_cut(&hlr, shard, text, sizeof(text), &len));
		if (!code)
			look_at_count(shard, entries, lines_of('J', len));
		if (!code && is_listed)
			printf("%.*s", (int)len, (const char *)text);
	}
	return code;
}

static uint32_t print_dialogues(void)
{
	uint32_t code = KUNCHROL_OK;
	size_t len, dialogues, entries;

	for (uint8_t shard = 0; shard < KUNCHROL_SHARDS && !code; shard++) {
		code = kunchrol_counts(&hlr, shard, &dialogues, &entries);
		if (!code)
			CALL(code, kunchrol_dialogues(&hlr, shard, text, sizeof(text), &len));
		if (!code) {
			look_at_count(shard, dialogues, lines_of('D', len));
			printf("%.*s", (int)len, (const char *)text);
		}
	}
	return code;
}

/* the call of an event, and once more where a journal was full; one that would do nothing is none */
#define GIVE(code, call) \
	do { \
		CALL(code, call); \
		if ((code) == KUNCHROL_JOURNAL && cut_journals(0) == KUNCHROL_OK) \
			CALL(code, call); \
		if ((code) == KUNCHROL_NONE) \
			(code) = KUNCHROL_OK; \
	} while (0)

/* a new id that the register took: that of a Begin or a Continue which it sends */
static void note_id(const uint8_t *octets, size_t len)
{
	size_t at = len > 1 && octets[1] == 0x81 ? 3 : len > 1 && octets[1] == 0x82 ? 4 : 2;

	if (len < at + 6 || (octets[0] != 0x62 && octets[0] != 0x65) || octets[at] != 0x48 || octets[at + 1] != 4)
		return;
	for (size_t i = 0; i < id_count; i++)
		if (!memcmp(ids[i], octets + at + 2, 4))
			return;
	if (id_count < MAX_LETTERS)
		memcpy(ids[id_count++], octets + at + 2, 4);
}

static uint32_t print_sent(void)
{
	uint8_t to[KUNCHROL_MAX_DIGITS], octets[KUNCHROL_MAX_OCTETS];
	size_t to_len, len;
	uint32_t code;

	for (;;) {
		/* at first with too little room, as a caller may ask how much is needed: nothing is taken */
		CALL(code, kunchrol_next(&hlr, to, sizeof(to), &to_len, octets, 0, &len));
		if (code == KUNCHROL_SMALL)
			CALL(code, kunchrol_next(&hlr, to, sizeof(to), &to_len, octets, len, &len));
		if (code != KUNCHROL_OK)
			return code == KUNCHROL_NONE ? KUNCHROL_OK : code;
		printf("S %.*s ", (int)to_len, (const char *)to);
		for (size_t i = 0; i < len; i++)
			printf("%02X", octets[i]);
		printf("\n");
		note_id(octets, len);
	}
}

/* what an event sends, unless that waits for the end of the batch */
static uint32_t print_if_due(void)
{
	return is_late ? KUNCHROL_OK : print_sent();
}

static int digit(char c)
{
	return c >= '0' && c <= '9' ? c - '0' : c >= 'A' && c <= 'F' ? c - 'A' + 10 : c >= 'a' && c <= 'f' ? c - 'a' + 10 : -1;
}

/* the octets of a line's field, and -1 where it is none */
static long read_octets(const char *field, uint8_t *octets)
{
	long len = 0;

	if (!strcmp(field, "-"))
		return 0;
	for (; *field; field += 2) {
		if (len + 4 > MAX_FRAME)
			return -1;
		if (*field == '$') {
			if (field[1] < 'A' || (size_t)(field[1] - 'A') >= id_count)
				return -1;
			memcpy(octets + len, ids[field[1] - 'A'], 4);
			len += 4;
		} else {
			if (digit(field[0]) < 0 || digit(field[1]) < 0)
				return -1;
			octets[len++] = (uint8_t)(digit(field[0]) * 16 + digit(field[1]));
		}
	}
	return len;
}

static uint32_t give_frame(const char *from, const char *field)
{
	static uint8_t octets[MAX_FRAME];
	long len = read_octets(field, octets);
	uint32_t code = KUNCHROL_ARGUMENT;

	if (len >= 0)
		GIVE(code, kunchrol_frame(&hlr, (const uint8_t *)from, strlen(from), octets, (size_t)len));
	return code ? code : print_if_due();
}

static uint32_t give_clock(const char *ticks)
{
	uint32_t code;

	GIVE(code, kunchrol_clock(&hlr, strtoull(ticks, NULL, 10)));
	return code ? code : print_if_due();
}

static uint32_t give_expiries(void)
{
	uint32_t code = KUNCHROL_OK;

	for (uint8_t shard = 0; shard < KUNCHROL_SHARDS && !code; shard++) {
		GIVE(code, kunchrol_expire(&hlr, shard));
		if (!code)
			code = print_if_due();
	}
	return code;
}

static uint32_t give_change(const char *imsi, const char *codes)
{
	uint32_t code;

	if (codes)
		GIVE(code, kunchrol_codes(&hlr, (const uint8_t *)imsi, strlen(imsi), (const uint8_t *)codes, strlen(codes)));
	else
		GIVE(code, kunchrol_withdraw(&hlr, (const uint8_t *)imsi, strlen(imsi)));
	return code ? code : print_if_due();
}

/* cuts the word off that begins a text, and returns what is behind it, if anything is */
static char *cut_word(char *word)
{
	char *space = word ? strchr(word, ' ') : NULL;

	if (space)
		*space++ = 0;
	return space;
}

/* closes the register, and goes on with the one that is restored from what it wrote of itself */
static uint32_t restore(void)
{
	size_t len, image_len = 0, records_len;
	uint64_t line;
	uint32_t code;

	CALL(code, kunchrol_save(&hlr, text, sizeof(text), &records_len));
	for (uint8_t shard = 0; shard < KUNCHROL_SHARDS && !code; shard++) {
		CALL(code, kunchrol_image(&hlr, shard, image + image_len, sizeof(image) - image_len, &len));
		image_len += code ? 0 : len;
	}
	if (code)
		return code;
	kunchrol_close(&hlr);
	CALL(code, kunchrol_restore(text, records_len, image, image_len, 0, &hlr, &line));
	return code;
}

/* the end of a batch */
static uint32_t end_batch(void)
{
	uint32_t code = print_sent();

	return code || !is_restored ? code : restore();
}

static uint32_t give_line(char *line)
{
	char *first = cut_word(line), *second = cut_word(first);

	if (!strcmp(line, "W"))
		return end_batch();
	if (!strcmp(line, "E"))
		return give_expiries();
	if (!strcmp(line, "C") && first)
		return give_clock(first);
	if (!strcmp(line, "X") && first)
		return give_change(first, NULL);
	if (!strcmp(line, "O") && second)
		return give_change(first, second);
	if (!strcmp(line, "F") && second)
		return give_frame(first, second);
	return KUNCHROL_ARGUMENT;
}

static uint32_t print_records(void)
{
	uint32_t code;
	size_t len;

	CALL(code, kunchrol_save(&hlr, text, sizeof(text), &len));
	for (size_t at = 0; !code && at < len; at++)
		printf(at == 0 || text[at - 1] == '\n' ? "V %c" : "%c", text[at]);
	return code;
}

/* the record that is found under an IMSI, which has to be that which is found under its MSISDN */
static uint32_t print_record(char *imsi)
{
	uint8_t line[KUNCHROL_MAX_LINE], same[KUNCHROL_MAX_LINE];
	char *msisdn = cut_word(imsi);
	size_t len, same_len;
	uint32_t code;

	cut_word(msisdn);
	CALL(code, kunchrol_record(&hlr, (const uint8_t *)imsi, strlen(imsi), line, 0, &len));
	if (code != KUNCHROL_SMALL)
		return code ? code : KUNCHROL_LINE;
	CALL(code, kunchrol_record(&hlr, (const uint8_t *)imsi, strlen(imsi), line, len, &len));
	if (code)
		return code;
	printf("R %.*s\n", (int)len, (const char *)line);
	CALL(code, kunchrol_record_of_number(&hlr, (const uint8_t *)msisdn, strlen(msisdn), same, sizeof(same), &same_len));
	return code ? code : same_len != len || memcmp(line, same, len) ? KUNCHROL_TWICE : KUNCHROL_OK;
}

/* each record, by the IMSIs of the records file that is saved */
static uint32_t look_up_records(void)
{
	uint32_t code;
	char *line, *end;
	size_t len;

	CALL(code, kunchrol_save(&hlr, text, sizeof(text) - 1, &len));
	text[code ? 0 : len] = 0;
	for (line = code ? NULL : strchr((char *)text, '\n'); line && line[1] && !code; line = end) {
		end = strchr(line + 1, '\n');
		code = print_record(line + 1);
	}
	return code;
}

static uint32_t list_all(void)
{
	uint32_t code = look_up_records();

	if (!code)
		code = print_dialogues();
	return code ? code : cut_journals(1);
}

static long read_file(const char *path, void *room, size_t most)
{
	int file = open(path, READ_ONLY);
	size_t len = 0;
	long count = 1;

	while (file >= 0 && len < most && (count = read(file, (char *)room + len, most - len)) > 0)
		len += (size_t)count;
	if (file < 0 || count < 0)
		return -1;
	close(file);
	return (long)len;
}

static uint32_t play(size_t len)
{
	unsigned long number = 0;
	uint32_t code;
	char *end;

	script[len] = 0;
	for (char *line = script; *line; line = end) {
		number++;
		end = strchr(line, '\n');
		if (end)
			*end++ = 0;
		else
			end = line + strlen(line);
		code = give_line(line);
		if (code) {
			dprintf(STANDARD_ERROR, "play: script line %lu: %s\n", number, kunchrol_name(code));
			return code;
		}
	}
	return end_batch();
}

int main(int argc, char **argv)
{
	long records_len = argc < 3 ? -1 : read_file(argv[1], records, sizeof(records));
	long script_len = argc < 3 ? -1 : read_file(argv[2], script, MAX_TEXT);
	uint8_t journals = KUNCHROL_KEEP_JOURNALS;
	uint64_t line = 0;
	uint32_t code;

	if (records_len < 0 || script_len < 0)
		return 2;
	for (int word = 3; word < argc; word++) {
		is_made_again |= !strcmp(argv[word], "--again");
		is_late |= !strcmp(argv[word], "--late");
		is_restored |= !strcmp(argv[word], "--restored");
		if (!strcmp(argv[word], "--none"))
			journals = 0;
	}
	CALL(code, kunchrol_open(records, (size_t)records_len, journals, 0, &hlr, &line));
	if (code) {
		dprintf(STANDARD_ERROR, "play: records line %llu: %s\n", (unsigned long long)line, kunchrol_name(code));
		return 1;
	}
	code = play((size_t)script_len);
	for (int word = 3; word < argc && !code; word++)
		if (!strcmp(argv[word], "--list"))
			code = list_all();
		else if (!strcmp(argv[word], "--save"))
			code = print_records();
	kunchrol_close(&hlr);
	return code != KUNCHROL_OK;
}
