/* SPDX-License-Identifier: Apache-2.0 */
/* kunchrold: a home location register that loses nothing, behind an STP. kunchrold(8) says how it is used. */
#include "../../integrations/osmo-sccp/way.h"
#include "../status.h"
#include "console.h"
#include "control.h"
#include "daemon.h"
#include "service.h"
#include "signalling.h"

#include <getopt.h>
#include <osmocom/core/application.h>
#include <osmocom/core/select.h>
#include <osmocom/core/talloc.h>
#include <signal.h>
#include <stdio.h>
#include <string.h>

static const char USAGE[] = "kunchrold [-c FILE] [-s] [-h] [-V]\n"
			    "  -c --config-file FILE  the configuration (kunchrold.cfg)\n"
			    "  -s --disable-color     no colours in the log on standard error\n"
			    "  -h --help              this text\n"
			    "  -V --version           the version\n";

static const struct option LONG_OPTIONS[] = { { "config-file", required_argument, NULL, 'c' },
					      { "disable-color", no_argument, NULL, 's' },
					      { "help", no_argument, NULL, 'h' },
					      { "version", no_argument, NULL, 'V' },
					      { NULL, 0, NULL, 0 } };

/* Reads the words of the command; -1 if it is to go on, otherwise the status with which it ends. */
static int read_words(int argc, char **argv, const char **config)
{
	int option;

	while ((option = getopt_long(argc, argv, "c:shV", LONG_OPTIONS, NULL)) != -1) {
		if (option == 'c')
			*config = optarg;
		else if (option == 's')
			log_set_use_color(osmo_stderr_target, 0);
		else if (option == 'h' || option == 'V')
			return option == 'h' ? fputs(USAGE, stdout) : printf("kunchrold %s\n", console_version), END_WELL;
		else
			return fputs(USAGE, stderr), END_WORDS;
	}
	return optind < argc ? (fputs(USAGE, stderr), END_WORDS) : -1;
}

static void take_signal(struct osmo_signalfd *signals, const struct signalfd_siginfo *info)
{
	(void)signals;
	(void)info;
	service_end();
}

static bool has_signals(void)
{
	sigset_t signals;

	sigemptyset(&signals);
	sigaddset(&signals, SIGTERM);
	sigaddset(&signals, SIGINT);
	signal(SIGXFSZ, SIG_IGN); /* so that a file that may not grow makes a write fail */
	osmo_init_ignore_signals();
	return !sigprocmask(SIG_BLOCK, &signals, NULL) && osmo_signalfd_setup(daemon_context, signals, take_signal, NULL);
}

/* Opens all there is. The status with which it ends, or 0. */
static int begin(const char *config)
{
	int code;

	if (!console_begin(config) || !signalling_begin() || !console_open() || !control_begin())
		return END_WORDS;
	code = service_begin();
	return code || has_signals() ? code : END_WORDS;
}

static int serve(const char *config)
{
	int code = begin(config);

	if (code)
		return code;
	while (!service_is_over()) {
		osmo_select_main_ctx(0);
		service_turn();
		way_turn();
	}
	code = service_status();
	stack_close();
	service_close();
	return code;
}

int main(int argc, char **argv)
{
	const char *config = "kunchrold.cfg";
	int code;

	daemon_begin();
	code = read_words(argc, argv, &config);
	return code < 0 ? serve(config) : code;
}
