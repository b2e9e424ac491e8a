/*
 * Damaged images: images SEED TIMES damages the image of a register so many times, by the seed: octets are changed, left out or doubled, and
 * lines are. images STEP --cut cuts it off at each octet, or at each STEPth: it has to be refused, unless only its last line feed is missing.
 * The register has open dialogues in most shards: of all kinds, among them some whose timers are due, and cancels of subscribers who are
 * withdrawn, one of them repeated.
 *
 * kunchrol_restore has to answer OK, or IMAGE_LINE with the number of a line that the text has, or IMAGE_SHORT with the line 0, and after a
 * refusal the handle is closed. A register that is restored, from whatever image, has to answer what follows, before and after which
 * its own image is restored again: to a register that has the same image and the same records.
 */
#include "../../include/kunchrol.h"
#include "events.h"

enum { MAX_TEXT = 1048576, FIRST_EVENTS = 1600, MORE_EVENTS = 40, FILL = 99 };

/* Two subscribers who are withdrawn, and the shard of the first. */
static const char *const WITHDRAWN[] = { "234150000000005", "234150000000010" };
static const uint8_t SHARD = 5;

static struct kunchrol hlr = KUNCHROL_CLOSED_HANDLE;
static uint8_t records[MAX_TEXT], image[MAX_TEXT], damaged[MAX_TEXT], own_records[MAX_TEXT], own_image[MAX_TEXT], other[MAX_TEXT], listing[MAX_TEXT];
static size_t records_len, image_len, own_records_len, own_image_len, other_len;
static unsigned long long answered[KUNCHROL_IMAGE_SHORT + 1];

static uint32_t write_image(struct kunchrol *of, uint8_t *buffer, size_t *len)
{
	uint32_t code = KUNCHROL_OK;
	size_t part;

	*len = 0;
	for (uint8_t shard = 0; shard < KUNCHROL_SHARDS && !code; shard++)
		if (!(code = kunchrol_image(of, shard, buffer + *len, MAX_TEXT - *len, &part)))
			*len += part;
	return code;
}

/* Events by their numbers. What they send is dropped, after the ids of its dialogues are noted. */
static uint32_t give_events(uint64_t from, uint64_t to)
{
	uint8_t peer[KUNCHROL_MAX_DIGITS], octets[KUNCHROL_MAX_OCTETS];
	size_t peer_len, len;
	uint32_t code = KUNCHROL_OK;

	for (; from < to && code <= KUNCHROL_NONE; from++) {
		len = make_line(from);
		code = kunchrol_line(&hlr, (const uint8_t *)line, len);
		while (code <= KUNCHROL_NONE && !(code = kunchrol_next(&hlr, peer, sizeof(peer), &peer_len, octets, sizeof(octets), &len)))
			note_ids(octets);
	}
	return code == KUNCHROL_NONE ? KUNCHROL_OK : code;
}

/* Whether the image has what is to be damaged. */
static int has_all_kinds(void)
{
	static const char *const words[] = { " wait ", " * update ", " - update ", " data\n", " 1 update\n",
					     " 1 withdraw\n", " 2 withdraw\n", "\nF ", "\nE\n" };

	for (size_t word = 0; word < sizeof(words) / sizeof(words[0]); word++)
		if (!strstr((const char *)image, words[word]))
			return 0;
	return 1;
}

/* The end of a subscription; the cancel is repeated since its timer expires, and then the end of another one. */
static uint32_t withdraw_both(void)
{
	uint32_t code = kunchrol_withdraw(&hlr, (const uint8_t *)WITHDRAWN[0], strlen(WITHDRAWN[0]));

	if (!code)
		code = kunchrol_clock(&hlr, FIRST_EVENTS / 8 + 20);
	while (!code)
		code = kunchrol_expire(&hlr, SHARD);
	return code == KUNCHROL_NONE ? kunchrol_withdraw(&hlr, (const uint8_t *)WITHDRAWN[1], strlen(WITHDRAWN[1])) : code;
}

/* The register whose image is damaged. */
static uint32_t begin(void)
{
	char text[MAX_RECORDS];
	size_t len = make_many(text);
	uint64_t fault;
	uint32_t code = kunchrol_open((const uint8_t *)text, len, 0, 7, &hlr, &fault);

	if (!code)
		code = give_events(0, FIRST_EVENTS);
	if (!code)
		code = withdraw_both();
	if (!code)
		code = kunchrol_save(&hlr, records, MAX_TEXT, &records_len);
	if (!code)
		code = write_image(&hlr, image, &image_len);
	kunchrol_close(&hlr);
	return code ? code : has_all_kinds() ? KUNCHROL_OK : KUNCHROL_NONE;
}

static uint64_t lines_in(const uint8_t *text, size_t len)
{
	uint64_t count = len && text[len - 1] != '\n';

	for (size_t at = 0; at < len; at++)
		count += text[at] == '\n';
	return count;
}

/* Whether what a register writes of itself is restored to one that writes the same. */
static int is_restored_again(void)
{
	struct kunchrol again = KUNCHROL_CLOSED_HANDLE;
	uint64_t fault = FILL;
	int is_same = !kunchrol_save(&hlr, own_records, MAX_TEXT, &own_records_len) && !write_image(&hlr, own_image, &own_image_len) &&
		      !kunchrol_restore(own_records, own_records_len, own_image, own_image_len, 0, &again, &fault) && fault == 0 &&
		      !write_image(&again, other, &other_len) && other_len == own_image_len && !memcmp(other, own_image, other_len) &&
		      !kunchrol_save(&again, other, MAX_TEXT, &other_len) && other_len == own_records_len && !memcmp(other, own_records, other_len);

	kunchrol_close(&again);
	return is_same;
}

/* Whether a register answers calls: listings, events of all kinds, and expiries of all that is due far ahead. */
static int is_in_service(void)
{
	size_t len;
	uint64_t when;
	uint32_t code = give_events(FIRST_EVENTS, FIRST_EVENTS + MORE_EVENTS);

	for (uint8_t shard = 0; shard < KUNCHROL_SHARDS && !code; shard++)
		code = kunchrol_dialogues(&hlr, shard, listing, MAX_TEXT, &len);
	if (!code)
		code = kunchrol_deadline(&hlr, &when);
	if (code <= KUNCHROL_NONE)
		code = kunchrol_clock(&hlr, 2 * FIRST_EVENTS);
	for (uint8_t shard = 0; shard < KUNCHROL_SHARDS && code <= KUNCHROL_NONE; shard++)
		while (!(code = kunchrol_expire(&hlr, shard)))
			;
	return code <= KUNCHROL_NONE && !kunchrol_drop_frames(&hlr);
}

/* Restores the register from a text, and says whether the answer and what follows are as they have to be. */
static int is_answered(const uint8_t *text, size_t len)
{
	uint64_t fault = FILL, when;
	uint32_t code = kunchrol_restore(records, records_len, text, len, 0, &hlr, &fault);
	int is_well;

	if (code != KUNCHROL_OK && code != KUNCHROL_IMAGE_LINE && code != KUNCHROL_IMAGE_SHORT)
		return 0;
	answered[code]++;
	if (code)
		return (code == KUNCHROL_IMAGE_LINE ? fault > 0 && fault <= lines_in(text, len) : fault == 0) &&
		       kunchrol_deadline(&hlr, &when) == KUNCHROL_CLOSED;
	is_well = fault == 0 && is_restored_again() && is_in_service() && is_restored_again();
	kunchrol_close(&hlr);
	return is_well;
}

/* Whether the image, cut off after so many octets, is refused, at the end of a line as too short; without its last line feed it is whole. */
static int is_cut_answered(size_t len)
{
	unsigned long long restored = answered[KUNCHROL_OK], refused = answered[KUNCHROL_IMAGE_LINE];
	int is_whole = len + 1 >= image_len, ends_line = !len || image[len - 1] == '\n' || image[len] == '\n';

	if (is_answered(image, len) && (answered[KUNCHROL_OK] != restored) == is_whole &&
	    (answered[KUNCHROL_IMAGE_LINE] == refused || !ends_line))
		return 1;
	dprintf(STANDARD_ERROR, "images: cut at %zu\n", len);
	return 0;
}

static int are_cuts_answered(size_t step)
{
	for (size_t len = 0; len + 1 < image_len; len += step)
		if (!is_cut_answered(len))
			return 0;
	return is_cut_answered(image_len - 1) && is_cut_answered(image_len);
}

/* a place in the text, and at its start or its end that of a line */
static size_t line_start(size_t at)
{
	while (at && damaged[at - 1] != '\n')
		at--;
	return at;
}

static size_t line_end(size_t at, size_t len)
{
	while (at < len && damaged[at] != '\n')
		at++;
	return at < len ? at + 1 : len;
}

static void move(size_t to, size_t from, size_t count)
{
	memmove(damaged + to, damaged + from, count);
}

/* Octets or lines are changed, left out or doubled. */
static size_t damage(size_t len)
{
	static const char likely[] = "0123456789ABCDEF -*\nSTFID";
	size_t at = draw(len), first = line_start(at), next = line_end(at, len), count = next - first;

	switch (draw(6)) {
	case 0:
		damaged[at] = (uint8_t)draw(256);
		return len;
	case 1:
		damaged[at] = (uint8_t)likely[draw(sizeof(likely) - 1)];
		return len;
	case 2:
		move(at, at + 1, len - at - 1);
		return len - 1;
	case 3:
		move(at + 1, at, len - at);
		return len + 1;
	case 4:
		move(first, next, len - next);
		return len - count;
	default:
		move(next, first, len - first);
		return len + count;
	}
}

static int are_damages_answered(uint64_t seed, unsigned long long times)
{
	for (unsigned long long time = 0; time < times; time++) {
		size_t len = image_len;

		sow(seed * 1000003 + time);
		memcpy(damaged, image, len);
		for (size_t more = 1 + draw(2); more && len; more--)
			len = damage(len);
		if (!is_answered(damaged, len)) {
			dprintf(STANDARD_ERROR, "images: seed %llu, damage %llu\n", (unsigned long long)seed, time);
			return 0;
		}
	}
	return 1;
}

int main(int argc, char **argv)
{
	int is_cut = argc == 3 && !strcmp(argv[2], "--cut"), is_well;
	unsigned long long first = argc == 3 ? strtoull(argv[1], NULL, 10) : 0, times = argc == 3 && !is_cut ? strtoull(argv[2], NULL, 10) : 0;
	uint32_t code = first ? begin() : KUNCHROL_ARGUMENT;

	if (code) {
		dprintf(STANDARD_ERROR, "images: %s\n", kunchrol_name(code));
		return 2;
	}
	is_well = is_cut ? are_cuts_answered(first) : are_damages_answered(first, times);
	printf("an image of %zu octets: %llu restored, %llu refused at a line, %llu too short\n", image_len, answered[KUNCHROL_OK],
	       answered[KUNCHROL_IMAGE_LINE], answered[KUNCHROL_IMAGE_SHORT]);
	return !is_well;
}
