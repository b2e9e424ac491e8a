/* The time of a route through the library: speed ROUTES. The register keeps no journals. */
#include "../../include/kunchrol.h"
#include "frames.h"

static struct kunchrol hlr = KUNCHROL_CLOSED_HANDLE;

static uint32_t route(void)
{
	uint8_t to[KUNCHROL_MAX_DIGITS], octets[KUNCHROL_MAX_OCTETS];
	size_t to_len, len;
	uint32_t code = kunchrol_frame(&hlr, (const uint8_t *)ASKING, strlen(ASKING), ROUTE, sizeof(ROUTE));

	return code ? code : kunchrol_next(&hlr, to, sizeof(to), &to_len, octets, sizeof(octets), &len);
}

int main(int argc, char **argv)
{
	unsigned long long routes = argc == 2 ? strtoull(argv[1], NULL, 10) : 0;
	uint32_t code = KUNCHROL_OK;
	uint64_t line = 0;
	double begun;

	if (!routes || kunchrol_open((const uint8_t *)RECORDS, strlen(RECORDS), 0, 0, &hlr, &line))
		return 2;
	begun = seconds(MONOTONIC);
	for (unsigned long long done = 0; done < routes && !code; done++)
		code = route();
	printf("%.2f microseconds a route (%s)\n", (seconds(MONOTONIC) - begun) / (double)routes * 1e6, kunchrol_name(code));
	kunchrol_close(&hlr);
	return code != KUNCHROL_OK;
}
