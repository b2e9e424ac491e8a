/* SPDX-License-Identifier: Apache-2.0 */
#define _GNU_SOURCE
#include "way.h"
#include "unsent.h"

#include <linux/sockios.h>
#include <linux/tcp.h>
#include <netinet/in.h>
#include <osmocom/core/select.h>
#include <osmocom/netif/stream.h>
#include <osmocom/sigtran/osmo_ss7.h>
#include <osmocom/sigtran/sccp_helpers.h>
#include <poll.h>
#include <stdlib.h>
#include <sys/ioctl.h>
#include <sys/socket.h>

enum { MOST_WRITES = 64 };

static const struct stack_user *the_user;
static struct osmo_sccp_instance *sccp;
static struct osmo_sccp_user *sender;

/* the frame that the library was given last, until it has written it; and how many are lost, beside those that were dropped */
static struct unsent *given;
static unsigned long lost;

/* whether there was a way after the last turn, and the library's function for events of that connection */
static bool was_up;
static int (*library_events)(struct osmo_fd *connection, unsigned what);

bool way_is_up(void)
{
	struct osmo_ss7_as *server;

	llist_for_each_entry(server, &osmo_sccp_get_ss7(sccp)->as_list, list)
		if (osmo_ss7_as_active(server))
			return true;
	return false;
}

/* What of the library is connected to the STP. */
static struct osmo_ss7_asp *connected(void)
{
	return llist_first_entry(&osmo_sccp_get_ss7(sccp)->asp_list, struct osmo_ss7_asp, list);
}

static struct osmo_fd *connection(void)
{
	return osmo_stream_cli_get_ofd(connected()->client);
}

static void forget_given(void)
{
	free(given);
	given = NULL;
}

static bool give(const struct stack_frame *frame)
{
	if (osmo_sccp_tx_unitdata(sender, frame->calling, frame->called, frame->octets, (unsigned)frame->len) >= 0)
		return true;
	stack_tell(the_user, "a frame of %zu octets is not sent: the library refused it", frame->len);
	lost++;
	return false;
}

/*
 * Gives the library the oldest frame that waits, if it has nothing to write: then its next write is that of this frame, and it is known which
 * frames are not written when a connection is lost. What the library does not write (it is for our own point code, say, and the library brings
 * it there itself) must not be waited for, since then nothing would go out any more.
 */
static void send_waiting(void)
{
	while (!given && !(connection()->when & OSMO_FD_WRITE) && (given = unsent_take()))
		if (!give(&given->frame) || !(connection()->when & OSMO_FD_WRITE))
			forget_given();
}

/* POLLOUT if a connection takes octets; more, or something else, if it was cut. */
static int state_of(int file)
{
	struct pollfd it = { .fd = file, .events = POLLOUT | POLLRDHUP };

	return poll(&it, 1, 0) > 0 ? it.revents : 0;
}

/* The octets that the other side has acknowledged, since the connection began. (Of TCP alone: 0 of SCTP.) */
static uint64_t acknowledged(int file)
{
	struct tcp_info info = { 0 };
	socklen_t len = sizeof(info);

	return getsockopt(file, IPPROTO_TCP, TCP_INFO, &info, &len) < 0 ? 0 : info.tcpi_bytes_acked;
}

static uint64_t not_yet_acknowledged(int file)
{
	int octets = 0;

	return ioctl(file, SIOCOUTQ, &octets) < 0 ? 0 : (uint64_t)octets;
}

/*
 * Has the library write a frame. False if it was written to an STP that was gone. Its end may stand behind frames that are not yet read, so that the
 * connection looks well; what is written then is not acknowledged, but answered by a reset.
 */
static bool write_one(struct osmo_fd *connection, int file)
{
	uint64_t before = acknowledged(file) + not_yet_acknowledged(file);

	library_events(connection, OSMO_FD_WRITE);
	return !(state_of(file) & ~POLLOUT) || acknowledged(file) > before;
}

/*
 * Stands before the library's own function for events of the connection. That one learns of the end of the connection when it has read all that
 * came before, a frame each time; until then it writes all the same, and what it writes is lost. So a look precedes each write. And it writes a
 * frame each time, where each frame that is read may bring two: so here are more, but not so many that nothing is read meanwhile.
 */
static int read_and_write(struct osmo_fd *connection, unsigned what)
{
	int file = connection->fd;

	if (what & OSMO_FD_READ)
		library_events(connection, OSMO_FD_READ);
	for (int writes = 0; writes < MOST_WRITES && connection->fd == file && connection->when & OSMO_FD_WRITE; writes++) {
		if (state_of(file) != POLLOUT || !write_one(connection, file))
			break;
		forget_given();
		send_waiting();
	}
	return 0;
}

/*
 * The library would keep what it has not written, and write it to the next connection before the STP knows whose that is, so that the STP
 * drops it. So that frame waits once more, and a new client, which has none, connects.
 */
static void connect_again(void)
{
	struct osmo_ss7_asp *process = connected();

	if (given)
		unsent_put_back(given);
	given = NULL;
	osmo_stream_cli_destroy(process->client);
	process->client = NULL;
	osmo_ss7_asp_restart(process);
}

void way_turn(void)
{
	bool is_up = way_is_up();

	if (is_up && !was_up) {
		library_events = connection()->cb;
		connection()->cb = read_and_write;
	}
	if (!is_up && was_up)
		connect_again();
	if (is_up != was_up)
		stack_tell(the_user, "%s, %zu frames wait, %lu lost", is_up ? "up" : "away", way_waiting(), way_lost());
	was_up = is_up;
	if (is_up)
		send_waiting();
}

void way_open(const struct stack_user *user, struct osmo_sccp_instance *instance, struct osmo_sccp_user *from)
{
	the_user = user;
	sccp = instance;
	sender = from;
}

bool way_send(const struct stack_frame *frame)
{
	if (!unsent_add(frame, &the_user->limits))
		return false;
	if (was_up && way_is_up())
		send_waiting();
	return true;
}

size_t way_waiting(void)
{
	return unsent_count() + (given != NULL);
}

unsigned long way_lost(void)
{
	return lost + unsent_dropped();
}

void way_close(void)
{
	lost += way_waiting();
	forget_given();
	while (unsent_count())
		free(unsent_take());
	was_up = false;
}
