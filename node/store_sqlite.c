/* SPDX-License-Identifier: Apache-2.0 */
/*
 * A store in a SQLite file. With a write-ahead log and synchronous=FULL a transaction is on the disk when it ends. A statement by itself is a
 * transaction. Nothing but SQLite locks, syncs or recovers the file.
 */
#include "store.h"

#include <sqlite3.h>
#include <stdio.h>
#include <stdlib.h>

/* How long a process waits while another one writes, and how often it tries to switch to the write-ahead log. */
enum { BUSY_MILLISECONDS = 30000, TRY_MILLISECONDS = 20, MAX_TRIES = 500 };

static const char SWITCH[] = "PRAGMA synchronous=FULL; PRAGMA journal_mode=WAL";

/* The number of the start is the time in seconds. */
static const char MAKE[] = "BEGIN IMMEDIATE;"
			   "CREATE TABLE IF NOT EXISTS log(seq INTEGER PRIMARY KEY, lines BLOB NOT NULL);"
			   "CREATE TABLE IF NOT EXISTS image(seq INTEGER PRIMARY KEY, records BLOB NOT NULL, image BLOB NOT NULL);"
			   "CREATE TABLE IF NOT EXISTS kunchrol(lines INTEGER NOT NULL, image INTEGER NOT NULL, start INTEGER NOT NULL);"
			   "INSERT INTO kunchrol SELECT %d, %d, CAST(strftime('%%s') AS INTEGER) WHERE NOT EXISTS (SELECT 1 FROM kunchrol);"
			   "COMMIT";

/* A row with an old number is refused also if that row was deleted meanwhile: the newest image is of a later one. */
static const char APPEND[] = "INSERT INTO log SELECT ?1, ?2 WHERE ?1 = 1 + max(ifnull((SELECT max(seq) FROM log), 0),"
			     " ifnull((SELECT max(seq) FROM image), 0))";

static const char PUT[] = "INSERT OR REPLACE INTO image SELECT ?1, ?2, ?3 WHERE ?1 > ?4 AND EXISTS (SELECT 1 FROM image WHERE seq = ?4)"
			  " OR ?1 = 0 AND NOT EXISTS (SELECT 1 FROM image) AND NOT EXISTS (SELECT 1 FROM log)";

static const char IMAGE[] = "SELECT seq, records, image FROM image WHERE seq <= ? ORDER BY seq DESC LIMIT 1";
static const char ROWS[] = "SELECT seq, lines FROM log WHERE seq > ? ORDER BY seq";

struct sqlite {
	struct store store;
	sqlite3 *db;
	sqlite3_stmt *append, *put, *image, *rows;
};

static enum store_answer refused(struct sqlite *it, const char *what)
{
	store_tell("store: %s: %s (%d)\n", what, sqlite3_errmsg(it->db), sqlite3_extended_errcode(it->db));
	return STORE_REFUSED;
}

static bool is_done(struct sqlite *it, const char *sql)
{
	return !sqlite3_exec(it->db, sql, NULL, NULL, NULL);
}

/* Whether no transaction is open, so that a statement is one by itself. Without memory the last one may not have been ended. */
static bool is_outside(struct sqlite *it)
{
	return sqlite3_get_autocommit(it->db) || is_done(it, "ROLLBACK");
}

static bool has_bound_number(sqlite3_stmt *statement, int place, uint64_t number)
{
	return !sqlite3_bind_int64(statement, place, (sqlite3_int64)number);
}

static bool has_bound_octets(sqlite3_stmt *statement, int place, const uint8_t *octets, size_t len)
{
	return !sqlite3_bind_blob64(statement, place, len ? octets : (const uint8_t *)"", len, SQLITE_STATIC);
}

/* The octets of a column; never null. */
static const uint8_t *octets_of(sqlite3_stmt *statement, int column, size_t *len)
{
	const void *octets = sqlite3_column_blob(statement, column);

	*len = (size_t)sqlite3_column_bytes(statement, column);
	return octets ? octets : (const uint8_t *)"";
}

static enum store_answer sqlite_append(struct store *store, uint64_t seq, const uint8_t *lines, size_t len)
{
	struct sqlite *it = (struct sqlite *)store;
	enum store_answer answer = STORE_REFUSED;

	if (is_outside(it) && has_bound_number(it->append, 1, seq) && has_bound_octets(it->append, 2, lines, len) &&
	    sqlite3_step(it->append) == SQLITE_DONE)
		answer = sqlite3_changes(it->db) ? STORE_DURABLE : STORE_TAKEN;
	else
		refused(it, "a row");
	sqlite3_reset(it->append);
	return answer;
}

static enum store_answer give_image(struct sqlite *it, uint64_t most, const struct store_reader *reader, uint64_t *seq)
{
	struct store_image image;
	int code = has_bound_number(it->image, 1, most) ? sqlite3_step(it->image) : SQLITE_ERROR;

	if (code != SQLITE_ROW)
		return code == SQLITE_DONE ? STORE_NONE : refused(it, "an image");
	*seq = image.seq = (uint64_t)sqlite3_column_int64(it->image, 0);
	image.records = octets_of(it->image, 1, &image.records_len);
	image.image = octets_of(it->image, 2, &image.image_len);
	return reader->image(reader->context, &image) ? STORE_DURABLE : STORE_STOPPED;
}

static enum store_answer give_rows(struct sqlite *it, uint64_t after, const struct store_reader *reader)
{
	int code = has_bound_number(it->rows, 1, after) ? SQLITE_ROW : SQLITE_ERROR;

	while (code == SQLITE_ROW && (code = sqlite3_step(it->rows)) == SQLITE_ROW) {
		size_t len;
		const uint8_t *lines = octets_of(it->rows, 1, &len);

		if (!reader->row(reader->context, (uint64_t)sqlite3_column_int64(it->rows, 0), lines, len))
			return STORE_STOPPED;
	}
	return code == SQLITE_DONE ? STORE_DURABLE : refused(it, "rows");
}

static enum store_answer sqlite_rows(struct store *store, uint64_t after, const struct store_reader *reader)
{
	struct sqlite *it = (struct sqlite *)store;
	enum store_answer answer = is_outside(it) ? give_rows(it, after, reader) : refused(it, "rows");

	sqlite3_reset(it->rows);
	return answer;
}

static enum store_answer sqlite_read(struct store *store, uint64_t most, const struct store_reader *reader)
{
	struct sqlite *it = (struct sqlite *)store;
	uint64_t seq = 0;
	enum store_answer answer = is_outside(it) && is_done(it, "BEGIN") ? give_image(it, most, reader, &seq) : refused(it, "a read");

	if (!answer)
		answer = give_rows(it, seq, reader);
	sqlite3_reset(it->image);
	sqlite3_reset(it->rows);
	is_outside(it);
	return answer;
}

/* Deletes what is older than this image, and ends the transaction. */
static bool is_tidied(struct sqlite *it, uint64_t from)
{
	char sql[160];

	snprintf(sql, sizeof(sql), "DELETE FROM log WHERE seq <= %llu; DELETE FROM image WHERE seq < %llu; COMMIT", (unsigned long long)from,
		 (unsigned long long)from);
	return is_done(it, sql);
}

static enum store_answer sqlite_put_image(struct store *store, const struct store_image *image, uint64_t from)
{
	struct sqlite *it = (struct sqlite *)store;
	enum store_answer answer = STORE_REFUSED;

	if (is_outside(it) && is_done(it, "BEGIN IMMEDIATE") && has_bound_number(it->put, 1, image->seq) &&
	    has_bound_octets(it->put, 2, image->records, image->records_len) && has_bound_octets(it->put, 3, image->image, image->image_len) &&
	    has_bound_number(it->put, 4, from) && sqlite3_step(it->put) == SQLITE_DONE)
		answer = !sqlite3_changes(it->db) ? STORE_TAKEN : is_tidied(it, from) ? STORE_DURABLE : STORE_REFUSED;
	if (answer == STORE_REFUSED)
		refused(it, "an image");
	sqlite3_reset(it->put);
	is_outside(it);
	return answer;
}

static void sqlite_close(struct store *store)
{
	struct sqlite *it = (struct sqlite *)store;

	sqlite3_finalize(it->append);
	sqlite3_finalize(it->put);
	sqlite3_finalize(it->image);
	sqlite3_finalize(it->rows);
	sqlite3_close(it->db);
	free(it);
}

static bool is_prepared(struct sqlite *it, const char *sql, sqlite3_stmt **statement)
{
	return !sqlite3_prepare_v2(it->db, sql, -1, statement, NULL);
}

/* The numbers of the first row that is found. */
static bool has_numbers(struct sqlite *it, const char *sql, int64_t *numbers, int count)
{
	sqlite3_stmt *statement = NULL;
	bool is_found = is_prepared(it, sql, &statement) && sqlite3_step(statement) == SQLITE_ROW;

	for (int column = 0; is_found && column < count; column++)
		numbers[column] = sqlite3_column_int64(statement, column);
	sqlite3_finalize(statement);
	return is_found;
}

/* Whether a transaction is safe when it ends, in this connection. The switch does not wait for another process that is doing the same. */
static bool is_safe(struct sqlite *it)
{
	int64_t is_logged = 0;
	bool is_switched = false;

	for (int tries = 0; tries < MAX_TRIES && !(is_switched = is_done(it, SWITCH)) && sqlite3_errcode(it->db) == SQLITE_BUSY; tries++)
		sqlite3_sleep(TRY_MILLISECONDS);
	return is_switched && has_numbers(it, "SELECT journal_mode = 'wal' FROM pragma_journal_mode", &is_logged, 1) && is_logged;
}

/* Makes the tables, if there is none. */
static bool has_tables(struct sqlite *it)
{
	char sql[sizeof(MAKE) + 20];
	int64_t tables;

	snprintf(sql, sizeof(sql), MAKE, STORE_LINES_VERSION, STORE_IMAGE_VERSION);
	return has_numbers(it, "SELECT count(*) FROM sqlite_master", &tables, 1) && (tables || (is_safe(it) && is_done(it, sql)));
}

/* Whether this is a store, and of the versions that are read here. */
static bool has_versions(struct sqlite *it, const char *path)
{
	int64_t head[3] = { 0 };
	bool is_store = has_numbers(it, "SELECT lines, image, start FROM kunchrol", head, 3);

	if (!is_store)
		refused(it, path);
	it->store.start = (uint32_t)head[2];
	return store_has_versions(path, is_store ? head : NULL);
}

struct store *sqlite_open(const char *path, bool may_make)
{
	struct sqlite *it = calloc(1, sizeof(*it));

	if (!it)
		return NULL;
	it->store = (struct store){ 0, sqlite_append, sqlite_rows, sqlite_read, sqlite_put_image, sqlite_close };
	if (sqlite3_open_v2(path, &it->db, SQLITE_OPEN_READWRITE | (may_make ? SQLITE_OPEN_CREATE : 0), NULL) ||
	    sqlite3_busy_timeout(it->db, BUSY_MILLISECONDS) || (may_make && !has_tables(it)))
		refused(it, path);
	else if (has_versions(it, path)) {
		if (is_safe(it) && is_prepared(it, APPEND, &it->append) && is_prepared(it, PUT, &it->put) &&
		    is_prepared(it, IMAGE, &it->image) && is_prepared(it, ROWS, &it->rows))
			return &it->store;
		refused(it, path);
	}
	sqlite_close(&it->store);
	return NULL;
}
