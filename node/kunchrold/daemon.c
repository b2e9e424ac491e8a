/* SPDX-License-Identifier: Apache-2.0 */
#include "daemon.h"
#include "../store.h"
#include "../../integrations/osmo-sccp/stack.h"

#include <osmocom/core/application.h>
#include <osmocom/core/msgb.h>
#include <osmocom/core/stats.h>
#include <osmocom/core/talloc.h>
#include <osmocom/core/utils.h>
#include <stdarg.h>
#include <stdio.h>
#include <string.h>
#include <time.h>

enum { MAX_TOLD = 1024 };

void *daemon_context;
struct rate_ctr_group *counters;
struct settings settings = { .ticks = 1 };

static const struct log_info_cat categories[] = {
	[DKUNCHROL] = { .name = "DKUNCHROL", .description = "The register and its role", .enabled = 1, .loglevel = LOGL_NOTICE },
	[DSTORE] = { .name = "DSTORE", .description = "The store of the register", .enabled = 1, .loglevel = LOGL_NOTICE },
	[DSCCP] = { .name = "DSCCP", .description = "Frames from and to the STP", .enabled = 1, .loglevel = LOGL_NOTICE },
};
const struct log_info daemon_log_info = { .cat = categories, .num_cat = ARRAY_SIZE(categories) };

static const struct rate_ctr_desc descriptions[COUNTERS] = {
	[FRAMES_TAKEN] = { "frames:taken", "Frames given to the register" },
	[FRAMES_SENT] = { "frames:sent", "Frames of the register, to the STP or waiting for it" },
	[FRAMES_UNSENT] = { "frames:unsent", "Frames of the register that SCCP cannot carry" },
	[FRAMES_LOST] = { "frames:lost", "Frames of the register dropped: too much waits for the STP, or the library refused them" },
	[FRAMES_RETURNED] = { "frames:returned", "Frames that came back (N-NOTICE)" },
	[FRAMES_UNREADABLE] = { "frames:unreadable", "Frames dropped: no number and no subsystem, or too long" },
	[FRAMES_NOT_LEADING] = { "frames:not_leading", "Frames dropped: this process does not lead" },
	[FRAMES_NO_ROOM] = { "frames:no_room", "Frames dropped: too much waits for the store" },
	[EVENTS_REFUSED] = { "events:refused", "Events that the register refused" },
	[EVENTS_OF_OPERATOR] = { "events:operator", "Changes given by VTY and CTRL" },
	[ROWS] = { "store:rows", "Groups of events that became durable" },
	[LEADS] = { "role:leads", "Times that this process began to lead" },
	[FOLLOWS] = { "role:follows", "Times that this process began to follow" },
};
static const struct rate_ctr_group_desc group = { "kunchrol", "Kunchrol register", OSMO_STATS_CLASS_GLOBAL, COUNTERS, descriptions };

void count(enum counter counter)
{
	rate_ctr_inc(rate_ctr_group_get_ctr(counters, counter));
}

bool count_and_tell(enum counter counter)
{
	static time_t told[COUNTERS];
	struct timespec now = { 0, 0 };
	bool is_new;

	clock_gettime(CLOCK_MONOTONIC, &now);
	is_new = now.tv_sec != told[counter];
	told[counter] = now.tv_sec;
	count(counter);
	return is_new;
}

static void tell(int category, int level, const char *format, va_list words)
{
	char text[MAX_TOLD];

	vsnprintf(text, sizeof(text), format, words);
	text[strcspn(text, "\n")] = 0;
	LOGP(category, level, "%s\n", text);
}

void store_tell(const char *format, ...)
{
	va_list words;

	va_start(words, format);
	tell(DSTORE, LOGL_ERROR, format, words);
	va_end(words);
}

void stack_tell(const struct stack_user *user, const char *format, ...)
{
	va_list words;

	(void)user;
	va_start(words, format);
	tell(DSCCP, LOGL_NOTICE, format, words);
	va_end(words);
}

void daemon_begin(void)
{
	daemon_context = talloc_named_const(NULL, 0, "kunchrold");
	msgb_talloc_ctx_init(daemon_context, 0);
	osmo_init_logging2(daemon_context, &daemon_log_info);
	log_enable_multithread(); /* the store's thread tells too */
	osmo_stats_init(daemon_context);
	rate_ctr_init(daemon_context);
	counters = rate_ctr_group_alloc(daemon_context, &group, 0);
}
