/* SPDX-License-Identifier: Apache-2.0 */
/*
 * Where a register lies that loses nothing: a log and images, in a database that makes them safe.
 *
 * The log has rows, numbered from 1 without a gap. A row is the text of one group of events (durable.h). An image is the register as it was
 * after the row with its number; image 0, before the first row, has the text of a records file alone. Each call blocks as long as the
 * database does; they are made one at a time. What goes wrong is told in a line (store_tell).
 */
#ifndef STORE_H
#define STORE_H

#include <stdbool.h>
#include <stddef.h>
#include <stdint.h>

/* The versions of the lines of a log and of the form of an image (CHANGELOG.md) that are read and written. A store with others is refused. */
enum { STORE_LINES_VERSION = 1, STORE_IMAGE_VERSION = 1 };

enum store_answer {
	STORE_DURABLE, /* it is done, and stays */
	STORE_TAKEN,   /* append: this is not the number of the next row: another process leads; put_image: others were faster;
			  append, rows, put_image: the server does not have the row that was seen last */
	STORE_REFUSED, /* the database cannot: a full disk, no permission. A later read tells what is there */
	STORE_NONE,    /* read: there is no such image */
	STORE_STOPPED  /* read, rows: the reader returned false */
};

struct store_image {
	uint64_t seq;
	const uint8_t *records, *image;
	size_t records_len, image_len;
};

/* Gets an image, and then each row after it, in their order, and the same anew if the connection was lost. What it gets is there until it returns. */
struct store_reader {
	bool (*image)(void *context, const struct store_image *image);
	bool (*row)(void *context, uint64_t seq, const uint8_t *lines, size_t len);
	void *context;
};

/* What each database fills in. */
struct store {
	uint32_t start; /* the number of the start with which image 0 is opened */

	/* Adds this row, if it is the next. Only after DURABLE may anything be sent that its events send. */
	enum store_answer (*append)(struct store *store, uint64_t seq, const uint8_t *lines, size_t len);

	/* Gives the reader rows after the one that was read or appended last, whose number this is. None: there are no others now. */
	enum store_answer (*rows)(struct store *store, uint64_t after, const struct store_reader *reader);

	/* Gives the reader the newest image whose number is at most `most`, and the rows after it, all as they are at one moment. */
	enum store_answer (*read)(struct store *store, uint64_t most, const struct store_reader *reader);

	/*
	 * Puts an image that was made from the one with the number `from`, and deletes all that is older than that one, in one step: so two
	 * images that a register was, or can be, restored from are kept, with the rows after the first. Image 0 is made from itself.
	 */
	enum store_answer (*put_image)(struct store *store, const struct store_image *image, uint64_t from);

	void (*close)(struct store *store);
};

/* The words for a store. PostgreSQL is there if HAS_POSTGRESQL is defined. */
#ifdef HAS_POSTGRESQL
#define STORES "sqlite:FILE or postgresql:CONNINFO"
#else
#define STORES "sqlite:FILE"
#endif

/* Opens a store. With may_make one without a register is made if there is none. Null if it cannot be opened. */
struct store *store_open(const char *where, bool may_make);

/* The bodies: a SQLite file, and a database of PostgreSQL by libpq's conninfo. */
struct store *sqlite_open(const char *path, bool may_make);
struct store *postgresql_open(const char *conninfo, bool may_make);

/* For these: whether the versions of lines and images that a store has, or null if it has none, are those that are read here; if not, it is told. */
bool store_has_versions(const char *name, const int64_t *versions);

/* Tells what goes wrong, as printf does: each program in its own way (told.c). The thread of durable.h calls it too. */
void store_tell(const char *format, ...) __attribute__((format(printf, 1, 2)));

#endif
