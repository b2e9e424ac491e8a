/*
 * A register without journals takes no more memory however many frames it handles: steady FRAMES. Routes, and updates with their results,
 * in turns; the memory of the process after a hundredth of them is compared with that at the end.
 */
#include "../../include/kunchrol.h"
#include "frames.h"

/* How many octets the process may take more. */
enum { MORE = 262144, ID_AT = 4, ID_LEN = 4 };

static struct kunchrol hlr = KUNCHROL_CLOSED_HANDLE;
static uint8_t to[KUNCHROL_MAX_DIGITS], octets[KUNCHROL_MAX_OCTETS];
static size_t to_len, len;

/* The last result of the insert of UPDATE's dialogue; the local id stands at 10. */
static uint8_t result[] = {
	0x65, 0x13, 0x48, 0x04, 0x00, 0x00, 0x00, 0x0B, 0x49, 0x04, 0, 0, 0, 0, 0x6C, 0x05, 0xA2, 0x03, 0x02, 0x01, 0x01,
};

/* Gives a frame, and takes what it sends; the first of these stays in octets. */
static uint32_t give(const uint8_t *frame, size_t frame_len)
{
	uint8_t more[KUNCHROL_MAX_OCTETS];
	size_t more_len;
	uint32_t code = kunchrol_frame(&hlr, (const uint8_t *)ASKING, strlen(ASKING), frame, frame_len);

	if (!code)
		code = kunchrol_next(&hlr, to, sizeof(to), &to_len, octets, sizeof(octets), &len);
	if (code)
		return code;
	while (!(code = kunchrol_next(&hlr, to, sizeof(to), &to_len, more, sizeof(more), &more_len)))
		;
	return code == KUNCHROL_NONE ? KUNCHROL_OK : code;
}

/* A route, and an update with its result. */
static uint32_t round_of_three(void)
{
	uint32_t code = give(ROUTE, sizeof(ROUTE));

	if (!code)
		code = give(UPDATE, sizeof(UPDATE));
	if (code)
		return code;
	memcpy(result + 10, octets + ID_AT, ID_LEN);
	return give(result, sizeof(result));
}

/* The octets of memory that the process has, 0 if that cannot be told: the second number of statm, in pages. */
static unsigned long long resident(void)
{
	char text[256] = { 0 }, *behind = text;
	int file = open("/proc/self/statm", READ_ONLY);

	if (file < 0)
		return 0;
	if (read(file, text, sizeof(text) - 1) > 0)
		strtoull(text, &behind, 10);
	close(file);
	return strtoull(behind, NULL, 10) * 4096;
}

int main(int argc, char **argv)
{
	unsigned long long frames = argc == 2 ? strtoull(argv[1], NULL, 10) : 0, first = 0, last;
	uint32_t code = KUNCHROL_OK;
	uint64_t line = 0;

	if (!frames || kunchrol_open((const uint8_t *)RECORDS, strlen(RECORDS), 0, 0, &hlr, &line))
		return 2;
	for (unsigned long long done = 0; done < frames && !code; done += 3) {
		code = round_of_three();
		if (!first && done >= frames / 100)
			first = resident();
	}
	last = resident();
	printf("%llu frames (%s): %llu octets of memory, %lld more than after a hundredth of them\n", frames, kunchrol_name(code), last,
	       (long long)(last - first));
	kunchrol_close(&hlr);
	return code || !first || last > first + MORE;
}
