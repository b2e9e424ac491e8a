/* SPDX-License-Identifier: Apache-2.0 */
#include "transaction.h"

#include <string.h>

/* tags of Q.773: the messages that have ids, and the two ids */
enum { BEGIN = 0x62, END = 0x64, CONTINUE = 0x65, ABORT = 0x67, ORIGINATING = 0x48, DESTINATION = 0x49 };

/* a place in a message */
struct reader {
	const uint8_t *octets;
	size_t len;
	size_t at;
};

static int next_octet(struct reader *reader)
{
	return reader->at < reader->len ? reader->octets[reader->at++] : -1;
}

/* A length in BER (X.690 8.1.3). The indefinite form counts as all that follows. -1 if there is none. */
static long next_length(struct reader *reader)
{
	int first = next_octet(reader);
	long length = 0;

	if (first < 0x80)
		return first;
	if (first == 0x80)
		return (long)(reader->len - reader->at);
	for (int count = first & 0x7F; count > 0; count--) {
		int octet = next_octet(reader);

		if (octet < 0 || length > 0xFFFF)
			return -1;
		length = length * 256 + octet;
	}
	return length;
}

static void read_id(struct reader *reader, int tag, struct transaction_id *id)
{
	struct reader at_id = *reader;
	long length;

	if (next_octet(&at_id) != tag)
		return;
	length = next_length(&at_id);
	if (length < 1 || length > MAX_ID || (size_t)length > at_id.len - at_id.at)
		return;
	id->len = (size_t)length;
	memcpy(id->octets, at_id.octets + at_id.at, id->len);
	at_id.at += id->len;
	*reader = at_id;
}

void read_transaction(const uint8_t *octets, size_t len, struct transaction *read)
{
	struct reader reader = { .octets = octets, .len = len };
	int tag = next_octet(&reader);

	memset(read, 0, sizeof(*read));
	if ((tag != BEGIN && tag != END && tag != CONTINUE && tag != ABORT) || next_length(&reader) < 0)
		return;
	if (tag == BEGIN || tag == CONTINUE)
		read_id(&reader, ORIGINATING, &read->originating);
	if (tag != BEGIN)
		read_id(&reader, DESTINATION, &read->destination);
}
