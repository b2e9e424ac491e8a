/*
 * Damaged frames: damage SEED FRAMES. Whole frames, frames with octets turned, frames cut short, and answers in dialogues that the
 * register has opened, with clocks and expiries between them. Each call has to answer OK, or JOURNAL where a journal has
 * to be cut first; in the end what is saved has to open again.
 */
#include "../../include/kunchrol.h"
#include "frames.h"

enum { MAX_SAVED = 65536, MAX_LISTING = 4194304 };

static struct kunchrol hlr = KUNCHROL_CLOSED_HANDLE;
static uint64_t drawn;
static uint64_t sent;
static uint8_t open_id[4] = { 1, 0, 0, 1 };
static uint8_t saved[MAX_SAVED];
static uint8_t listing[MAX_LISTING];

/* xorshift, so that a seed gives the same frames everywhere */
static size_t draw(size_t below)
{
	drawn ^= drawn << 13;
	drawn ^= drawn >> 7;
	drawn ^= drawn << 17;
	return (size_t)(drawn % below);
}

static void turn(uint8_t *frame, size_t len, size_t times)
{
	while (times--)
		frame[draw(len)] = (uint8_t)draw(256);
}

/* an End or a Continue with a result, in the dialogue that was opened last */
static size_t answer(uint8_t *frame)
{
	const uint8_t result[] = { 0x64, 0x0D, 0x49, 4, open_id[0], open_id[1], open_id[2], open_id[3], 0x6C, 5, 0xA2, 3, 2, 1, 1 };
	const uint8_t more[] = { 0x65, 0x13, 0x48, 4, 0, 0, 0, 11, 0x49, 4, open_id[0], open_id[1], open_id[2], open_id[3],
				 0x6C, 5, 0xA2, 3, 2, 1, 1 };
	int goes_on = draw(2) == 1;
	size_t len = goes_on ? sizeof(more) : sizeof(result);

	memcpy(frame, goes_on ? more : result, len);
	if (draw(3) == 0)
		turn(frame, len, 1);
	return len;
}

static size_t make_frame(uint8_t *frame)
{
	int updates = draw(2) == 1;
	size_t len = updates ? sizeof(UPDATE) : sizeof(ROUTE);

	memcpy(frame, updates ? UPDATE : ROUTE, len);
	switch (draw(4)) {
	case 0:
		return len;
	case 1:
		turn(frame, len, 1 + draw(4));
		return len;
	case 2:
		return draw(len);
	default:
		return answer(frame);
	}
}

static uint32_t take_sent(void)
{
	uint8_t to[KUNCHROL_MAX_DIGITS], octets[KUNCHROL_MAX_OCTETS];
	size_t to_len, len, at;
	uint32_t code;

	while (!(code = kunchrol_next(&hlr, to, sizeof(to), &to_len, octets, sizeof(octets), &len))) {
		sent++;
		at = octets[1] == 0x81 ? 3 : octets[1] == 0x82 ? 4 : 2;
		if ((octets[0] == 0x62 || octets[0] == 0x65) && len >= at + 6)
			memcpy(open_id, octets + at + 2, sizeof(open_id));
	}
	return code == KUNCHROL_NONE ? KUNCHROL_OK : code;
}

static uint32_t cut_all(void)
{
	uint32_t code = KUNCHROL_OK;
	size_t len;

	for (uint8_t shard = 0; shard < KUNCHROL_SHARDS && !code; shard++)
		code = kunchrol_cut(&hlr, shard, listing, sizeof(listing), &len);
	return code;
}

static uint32_t give_frame(void)
{
	uint8_t frame[sizeof(UPDATE) + sizeof(ROUTE)];
	size_t len = make_frame(frame);
	uint32_t code = kunchrol_frame(&hlr, (const uint8_t *)ASKING, strlen(ASKING), frame, len);

	if (code == KUNCHROL_JOURNAL && !(code = cut_all()))
		code = kunchrol_frame(&hlr, (const uint8_t *)ASKING, strlen(ASKING), frame, len);
	return code ? code : take_sent();
}

/* a clock value, and one expiry of each shard: what is due later than another timer stays */
static uint32_t give_time(uint64_t now)
{
	uint32_t code = kunchrol_clock(&hlr, now);

	if (code == KUNCHROL_JOURNAL && !(code = cut_all()))
		code = kunchrol_clock(&hlr, now);
	for (uint8_t shard = 0; shard < KUNCHROL_SHARDS && !code; shard++) {
		code = kunchrol_expire(&hlr, shard);
		if (code == KUNCHROL_NONE)
			code = KUNCHROL_OK;
		if (code == KUNCHROL_JOURNAL)
			code = cut_all();
	}
	return code ? code : take_sent();
}

static uint32_t save_and_open(void)
{
	struct kunchrol again = KUNCHROL_CLOSED_HANDLE;
	uint64_t line;
	size_t len;
	uint32_t code = kunchrol_save(&hlr, saved, sizeof(saved), &len);

	if (!code && !(code = kunchrol_open(saved, len, KUNCHROL_KEEP_JOURNALS, 0, &again, &line)))
		kunchrol_close(&again);
	return code;
}

int main(int argc, char **argv)
{
	unsigned long long frames = argc == 3 ? strtoull(argv[2], NULL, 10) : 0;
	uint32_t code = KUNCHROL_OK;
	uint64_t line = 0;

	if (!frames || kunchrol_open((const uint8_t *)RECORDS, strlen(RECORDS), KUNCHROL_KEEP_JOURNALS, 0, &hlr, &line))
		return 2;
	drawn = 0x9E3779B97F4A7C15u + strtoull(argv[1], NULL, 10);
	for (unsigned long long given = 0; given < frames && !code; given++) {
		code = give_frame();
		if (!code && draw(50) == 0)
			code = give_time(given);
	}
	if (!code)
		code = save_and_open();
	printf("seed %s: %llu frames given, %llu sent (%s)\n", argv[1], frames, (unsigned long long)sent, kunchrol_name(code));
	kunchrol_close(&hlr);
	return code != KUNCHROL_OK;
}
