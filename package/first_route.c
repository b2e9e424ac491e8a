/* A program as whoever has installed the library writes it: opens a register, gives a frame, prints what is sent, and the version. */
#include <kunchrol.h>
#include "frames.h"

static struct kunchrol hlr = KUNCHROL_CLOSED_HANDLE;

static uint32_t print_sent(void)
{
	uint8_t to[KUNCHROL_MAX_DIGITS], octets[KUNCHROL_MAX_OCTETS];
	size_t to_len, len;
	uint32_t code;

	while (!(code = kunchrol_next(&hlr, to, sizeof(to), &to_len, octets, sizeof(octets), &len))) {
		printf("S %.*s ", (int)to_len, (const char *)to);
		for (size_t at = 0; at < len; at++)
			printf("%02X", octets[at]);
		printf("\n");
	}
	return code == KUNCHROL_NONE ? KUNCHROL_OK : code;
}

int main(void)
{
	uint64_t line;
	uint32_t code = kunchrol_open((const uint8_t *)RECORDS, strlen(RECORDS), 0, 0, &hlr, &line);

	if (!code)
		code = kunchrol_frame(&hlr, (const uint8_t *)ASKING, strlen(ASKING), ROUTE, sizeof(ROUTE));
	if (!code)
		code = print_sent();
	kunchrol_close(&hlr);
	printf("%s, header %d, library %u\n", kunchrol_name(code), KUNCHROL_VERSION_NUMBER, kunchrol_version());
	return code != KUNCHROL_OK;
}
