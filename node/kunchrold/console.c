/* SPDX-License-Identifier: Apache-2.0 */
#include "console.h"
#include "commands.h"
#include "daemon.h"
#include "service.h"

#include <errno.h>
#include <osmocom/core/talloc.h>
#include <osmocom/ctrl/control_vty.h>
#include <osmocom/sigtran/osmo_ss7.h>
#include <osmocom/sigtran/sccp_sap.h>
#include <osmocom/vty/command.h>
#include <osmocom/vty/logging.h>
#include <osmocom/vty/misc.h>
#include <osmocom/vty/stats.h>
#include <osmocom/vty/telnet_interface.h>
#include <stdio.h>
#include <stdlib.h>
#include <string.h>

enum { PORT = 4299, KUNCHROL_NODE = _LAST_OSMOVTY_NODE + 1 };

const char console_version[] = OSMO_STRINGIFY_VAL(KUNCHROL_VERSION_MAJOR) "." OSMO_STRINGIFY_VAL(KUNCHROL_VERSION_MINOR) "." OSMO_STRINGIFY_VAL(
	KUNCHROL_VERSION_PATCH);

static struct cmd_node kunchrol_node = { .node = KUNCHROL_NODE, .prompt = "%s(config-kunchrol)# ", .vtysh = 1 };

DEFUN(cfg_kunchrol, cfg_kunchrol_cmd, "kunchrol", "Configure the register. A change is for the next start\n")
{
	vty->node = KUNCHROL_NODE;
	return CMD_SUCCESS;
}

DEFUN(cfg_store, cfg_store_cmd, "store .STORE", "Where the log and the images of the register lie\n" STORES "\n")
{
	char *store = argv_concat(argv, argc, 0);

	osmo_talloc_replace_string(daemon_context, &settings.store, store);
	talloc_free(store);
	return CMD_SUCCESS;
}

DEFUN(cfg_records, cfg_records_cmd, "records FILE", "Records with which a store begins that has no register yet\nA records file\n")
{
	osmo_talloc_replace_string(daemon_context, &settings.records, argv[0]);
	return CMD_SUCCESS;
}

DEFUN(cfg_no_records, cfg_no_records_cmd, "no records", NO_STR "A store without a register is not begun\n")
{
	TALLOC_FREE(settings.records);
	return CMD_SUCCESS;
}

DEFUN(cfg_pair, cfg_pair_cmd, "pair <1-3600>",
      "Two processes use the store, of which one leads\nSeconds without a row after which the one that follows leads\n")
{
	settings.patience = (unsigned)atoi(argv[0]);
	return CMD_SUCCESS;
}

DEFUN(cfg_no_pair, cfg_no_pair_cmd, "no pair", NO_STR "This process alone uses the store\n")
{
	settings.patience = 0;
	return CMD_SUCCESS;
}

DEFUN(cfg_ticks, cfg_ticks_cmd, "ticks <1-1000>", "How fast the clock of the register goes: it waits 20 ticks for an answer\nTicks a second\n")
{
	settings.ticks = (unsigned)atoi(argv[0]);
	return CMD_SUCCESS;
}

DEFUN(cfg_peers, cfg_peers_cmd, "peers NAME",
      "Where frames go whose address has no point code\nName of an sccp-address of a cs7 instance, with a point code\n")
{
	osmo_talloc_replace_string(daemon_context, &settings.peers, argv[0]);
	return CMD_SUCCESS;
}

static void write_text(struct vty *vty, const char *word, const char *text)
{
	if (text)
		vty_out(vty, " %s %s%s", word, text, VTY_NEWLINE);
}

static int write_settings(struct vty *vty)
{
	vty_out(vty, "kunchrol%s", VTY_NEWLINE);
	write_text(vty, "store", settings.store);
	write_text(vty, "records", settings.records);
	write_text(vty, "peers", settings.peers);
	vty_out(vty, " ticks %u%s", settings.ticks, VTY_NEWLINE);
	if (settings.patience)
		vty_out(vty, " pair %u%s", settings.patience, VTY_NEWLINE);
	else
		vty_out(vty, " no pair%s", VTY_NEWLINE);
	return CMD_SUCCESS;
}

static void install_settings(void)
{
	install_element(CONFIG_NODE, &cfg_kunchrol_cmd);
	install_node(&kunchrol_node, write_settings);
	install_element(KUNCHROL_NODE, &cfg_store_cmd);
	install_element(KUNCHROL_NODE, &cfg_records_cmd);
	install_element(KUNCHROL_NODE, &cfg_no_records_cmd);
	install_element(KUNCHROL_NODE, &cfg_pair_cmd);
	install_element(KUNCHROL_NODE, &cfg_no_pair_cmd);
	install_element(KUNCHROL_NODE, &cfg_ticks_cmd);
	install_element(KUNCHROL_NODE, &cfg_peers_cmd);
}

static struct vty_app_info app_info = { .name = "kunchrold",
					.version = console_version,
					.copyright = "Apache License 2.0; linked with libosmo-sigtran and libosmocore, the program is under the GPL, "
						     "version 3\r\n",
					.go_parent_cb = osmo_ss7_vty_go_parent };

/* The number of the line that was read last, or 0 of a file that cannot be read again, a pipe say. */
static unsigned line_read_last(FILE *file)
{
	long octets = ftell(file);
	unsigned lines = 0;
	int octet = '\n';

	for (rewind(file); octets > 0; octets--) {
		octet = getc(file);
		lines += octet == '\n';
	}
	return lines + (octet != '\n');
}

static void tell_fault(const char *path, unsigned line)
{
	if (line)
		LOGP(DKUNCHROL, LOGL_FATAL, "the configuration %s has a fault in line %u\n", path, line);
	else
		LOGP(DKUNCHROL, LOGL_FATAL, "the configuration %s has a fault\n", path);
}

/* libosmovty stops after the first line with a fault, whose text it shows without its number. */
static bool read_settings(const char *path)
{
	FILE *file = fopen(path, "r");
	bool is_read;

	if (!file) {
		LOGP(DKUNCHROL, LOGL_FATAL, "the configuration %s cannot be read: %s\n", path, strerror(errno));
		return false;
	}
	is_read = vty_read_config_filep(file, NULL) >= 0;
	if (is_read)
		host_config_set(path); /* which `write file` writes */
	else
		tell_fault(path, line_read_last(file));
	fclose(file);
	return is_read;
}

bool console_begin(const char *path)
{
	app_info.tall_ctx = daemon_context;
	vty_init(&app_info);
	logging_vty_add_cmds();
	osmo_talloc_vty_add_cmds();
	osmo_stats_vty_add_cmds();
	ctrl_vty_init(daemon_context);
	osmo_ss7_init();
	osmo_ss7_vty_init_asp(daemon_context);
	osmo_sccp_vty_init();
	install_settings();
	commands_install();
	if (!read_settings(path))
		return false;
	if (!settings.store || !settings.peers)
		LOGP(DKUNCHROL, LOGL_FATAL, "the configuration %s names no %s\n", path, settings.store ? "peers" : "store");
	return settings.store && settings.peers;
}

bool console_open(void)
{
	return telnet_init_default(daemon_context, NULL, PORT) >= 0;
}
