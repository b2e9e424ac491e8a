/* SPDX-License-Identifier: Apache-2.0 */
/*
 * A store in PostgreSQL. A row is safe when its commit came back without a warning: with a synchronous standby it is on both machines then.
 * Nothing but libpq finds the server, and nothing but the server locks, syncs and replicates.
 *
 * A row that is seen need not be on the standby. If the connection of a commit that waits for the standby is lost, or its wait is cancelled,
 * or the server starts again, the row is there for everybody, and on one machine only. So after a row that was found, and after a commit
 * with a warning, comes a commit of another kind, the barrier: it waits for all that was committed before it.
 */
#define _DEFAULT_SOURCE /* htobe64 */
#include "store.h"

#include <endian.h>
#include <libpq-fe.h>
#include <stdio.h>
#include <stdlib.h>
#include <string.h>
#include <time.h>

/* How long to wait between two tries to connect, and how many rows are asked for at a time by one who follows. */
enum { PAUSE_NANOSECONDS = 50000000, MAX_ROWS = 1000 };

/* A value of PostgreSQL is shorter than a gigabyte. */
enum { MAX_VALUE = 1000000000, MAX_PARAMETERS = 4 };

/* For this session, whatever the server or the user has: a commit waits for the standby, and nothing ends a wait. */
static const char SESSION[] = "SET synchronous_commit = on; SET statement_timeout = 0; SET lock_timeout = 0";

/* The lock is for processes that begin a store at a time. The number of the start is the time in seconds. */
static const char MAKE[] = "BEGIN; SELECT pg_advisory_xact_lock(7100);"
			   "CREATE TABLE IF NOT EXISTS log(seq bigint PRIMARY KEY, lines bytea NOT NULL);"
			   "CREATE TABLE IF NOT EXISTS image(seq bigint PRIMARY KEY, records bytea NOT NULL, image bytea NOT NULL);"
			   "CREATE TABLE IF NOT EXISTS kunchrol(lines integer NOT NULL, image integer NOT NULL, start bigint NOT NULL);"
			   "INSERT INTO kunchrol SELECT %d, %d, extract(epoch FROM now())::bigint WHERE NOT EXISTS (SELECT 1 FROM kunchrol);"
			   "COMMIT";
static const char HAS_NONE[] = "SELECT 1 WHERE coalesce(to_regclass('log'), to_regclass('image'), to_regclass('kunchrol')) IS NULL";
static const char VERSIONS[] = "SELECT lines::bigint, image::bigint, start FROM kunchrol";

/* A row with an old number is refused also if that row was deleted meanwhile: the newest image is of a later one. */
static const char APPEND[] = "INSERT INTO log SELECT $1::bigint, $2::bytea WHERE $1 = 1 + greatest((SELECT max(seq) FROM log),"
			     " (SELECT max(seq) FROM image), 0)";
static const char IS_SAME[] = "SELECT 1 FROM log WHERE seq = $1::bigint AND lines = $2::bytea";
static const char BARRIER[] = "SELECT pg_logical_emit_message(true, 'kunchrol', '')";

/* One image is put at a time. While rows are deleted none is appended: whoever appends then sees the image that took their place. */
static const char PUT_BEGIN[] = "BEGIN; LOCK TABLE image IN SHARE ROW EXCLUSIVE MODE";
static const char PUT[] = "INSERT INTO image SELECT $1::bigint, $2::bytea, $3::bytea WHERE $1 > $4::bigint AND EXISTS (SELECT 1 FROM image"
			  " WHERE seq = $4) OR $1 = 0 AND NOT EXISTS (SELECT 1 FROM image) AND NOT EXISTS (SELECT 1 FROM log)"
			  " ON CONFLICT (seq) DO UPDATE SET records = excluded.records, image = excluded.image";
static const char PUT_END[] = "LOCK TABLE log IN SHARE ROW EXCLUSIVE MODE; DELETE FROM log WHERE seq <= %llu; DELETE FROM image WHERE seq < %llu;"
			      "COMMIT";

static const char READ_BEGIN[] = "BEGIN ISOLATION LEVEL REPEATABLE READ READ ONLY";
static const char IMAGE[] = "SELECT seq, records, image FROM image WHERE seq <= $1::bigint ORDER BY seq DESC LIMIT 1";
static const char ROWS[] = "SELECT seq, lines FROM log WHERE seq >= $1::bigint ORDER BY seq LIMIT $2::bigint";

struct postgresql {
	struct store store;
	PGconn *connection;
	char *where;
	bool is_warned; /* a WARNING came since the last statement began */
	bool is_other;  /* this server does not have the row that was seen last */
	uint64_t seen;  /* the last row that was read or appended, 0 for none, and its text */
	uint8_t *text;
	size_t text_len, text_size;
};

/* What came of a statement. */
enum outcome {
	DONE,
	NOTHING, /* it changed or found nothing, or the number of the row is there */
	LOST,    /* it is done or not, or was put off: to be tried again, with another connection */
	CANNOT   /* the database refuses */
};

struct parameter {
	uint64_t number; /* in the order of the network */
	const uint8_t *octets; /* or null, and the number is meant */
	size_t len;
};

/* ---- statements */

static struct parameter of_number(uint64_t number)
{
	return (struct parameter){ htobe64(number), NULL, sizeof(number) };
}

static struct parameter of_octets(const uint8_t *octets, size_t len)
{
	return (struct parameter){ 0, len ? octets : (const uint8_t *)"", len };
}

static uint64_t number_of(const PGresult *result, int column)
{
	uint64_t number;

	memcpy(&number, PQgetvalue(result, 0, column), sizeof(number));
	return be64toh(number);
}

static const uint8_t *octets_of(const PGresult *result, int column, size_t *len)
{
	*len = (size_t)PQgetlength(result, 0, column);
	return (const uint8_t *)PQgetvalue(result, 0, column);
}

/*
 * Whether a statement may be tried again. Class 57 is an operator's hand, 08 the connection, 40 a transaction that was rolled back, 25006 a
 * server that only reads: libpq looks for another one.
 */
static bool is_passing(const char *state)
{
	return !state || !strncmp(state, "57", 2) || !strncmp(state, "08", 2) || !strncmp(state, "40", 2) || !strcmp(state, "25006");
}

static void tell(struct postgresql *it, const char *what)
{
	store_tell("store: %s: %s", what, PQerrorMessage(it->connection));
}

static enum outcome outcome_of(struct postgresql *it, const PGresult *result, const char *what)
{
	ExecStatusType status = PQresultStatus(result);
	const char *state = PQresultErrorField(result, PG_DIAG_SQLSTATE);

	if (status == PGRES_TUPLES_OK)
		return PQntuples(result) ? DONE : NOTHING;
	if (status == PGRES_COMMAND_OK)
		return strcmp(PQcmdTuples((PGresult *)result), "0") ? DONE : NOTHING;
	if (state && !strcmp(state, "23505"))
		return NOTHING;
	tell(it, what);
	return is_passing(state) ? LOST : CANNOT;
}

static bool is_sent(struct postgresql *it, const char *sql, const struct parameter *given, int count)
{
	static const int binary[MAX_PARAMETERS] = { 1, 1, 1, 1 };
	const char *values[MAX_PARAMETERS];
	int lengths[MAX_PARAMETERS];

	for (int place = 0; place < count; place++) {
		values[place] = (const char *)(given[place].octets ? given[place].octets : (const uint8_t *)&given[place].number);
		lengths[place] = (int)given[place].len;
	}
	it->is_warned = false;
	return PQsendQueryParams(it->connection, sql, count, NULL, values, lengths, binary, 1);
}

/* The result of a statement, of which there is one. */
static PGresult *asked(struct postgresql *it, const char *sql, const struct parameter *given, int count)
{
	PGresult *result = is_sent(it, sql, given, count) ? PQgetResult(it->connection) : NULL, *next;

	while (result && (next = PQgetResult(it->connection)))
		PQclear(next);
	return result;
}

static enum outcome run(struct postgresql *it, const char *what, const char *sql, const struct parameter *given, int count)
{
	PGresult *result = asked(it, sql, given, count);
	enum outcome outcome = outcome_of(it, result, what);

	PQclear(result);
	return outcome;
}

/* Statements without parameters, one after the other up to one that fails. */
static enum outcome run_all(struct postgresql *it, const char *what, const char *sql)
{
	PGresult *result;
	enum outcome outcome;

	it->is_warned = false;
	result = PQexec(it->connection, sql);
	outcome = outcome_of(it, result, what);
	PQclear(result);
	return outcome == NOTHING ? DONE : outcome;
}

/* ---- connections */

static void note_warning(void *context, const PGresult *result)
{
	const char *severity = PQresultErrorField(result, PG_DIAG_SEVERITY_NONLOCALIZED);

	if (!severity || strcmp(severity, "WARNING"))
		return;
	((struct postgresql *)context)->is_warned = true;
	store_tell("store: %s", PQresultErrorMessage(result));
}

/* Whether a server was found that takes writes. */
static bool is_connected(struct postgresql *it)
{
	const char *const words[] = { "fallback_application_name", "dbname", "target_session_attrs", NULL };
	const char *const values[] = { "kunchrol", it->where, "read-write", NULL };

	PQfinish(it->connection);
	it->connection = PQconnectdbParams(words, values, 1);
	PQsetNoticeReceiver(it->connection, note_warning, it);
	return PQstatus(it->connection) == CONNECTION_OK && run_all(it, "a connection", SESSION) == DONE;
}

/* Whether the row that was seen last is there, with its text. If it is, all rows before it are. */
static enum outcome look_back(struct postgresql *it)
{
	const struct parameter given[] = { of_number(it->seen), of_octets(it->text, it->text_len) };

	return it->seen ? run(it, "the last row", IS_SAME, given, 2) : DONE;
}

/* Connects again, however long that takes. The server may be another one, whose log does not go on from the row that was seen last. */
static void connect_again(struct postgresql *it)
{
	const struct timespec pause = { 0, PAUSE_NANOSECONDS };
	enum outcome outcome = LOST;

	for (bool is_told = false; outcome != DONE && outcome != NOTHING;) {
		if (is_connected(it)) {
			outcome = look_back(it);
		} else if (!is_told) {
			tell(it, "waiting for a server");
			is_told = true;
		}
		if (outcome == LOST || outcome == CANNOT)
			nanosleep(&pause, NULL);
	}
	it->is_other = outcome == NOTHING;
	store_tell("store: connected to port %s of %s%s\n", PQport(it->connection), PQhost(it->connection),
		it->is_other ? ", which has another log" : "");
}

/* ---- rows */

static bool has_space(struct postgresql *it, size_t len)
{
	uint8_t *text;

	if (len <= it->text_size)
		return true;
	text = len <= MAX_VALUE ? realloc(it->text, 2 * len) : NULL;
	if (!text)
		return false;
	it->text = text;
	it->text_size = 2 * len;
	return true;
}

/* Notes the row that was seen last. */
static bool has_seen(struct postgresql *it, uint64_t seq, const uint8_t *lines, size_t len)
{
	if (!has_space(it, len))
		return false;
	memcpy(it->text, lines, len);
	it->text_len = len;
	it->seen = seq;
	return true;
}

/* Waits until all that was committed before is where the server's standby has it too. */
static enum outcome pass_barrier(struct postgresql *it)
{
	enum outcome outcome = run(it, "a barrier", BARRIER, NULL, 0);

	return outcome == DONE && it->is_warned ? LOST : outcome;
}

/*
 * Tries once to append a row. If its number is there, the row may be ours, by an earlier try. There is no look before the insert: a backend of a
 * lost connection may put the row there after that look, whereas an insert waits for that backend.
 */
static enum outcome try_to_append(struct postgresql *it, uint64_t seq, const uint8_t *lines, size_t len)
{
	const struct parameter given[] = { of_number(seq), of_octets(lines, len) };
	bool is_outside = PQtransactionStatus(it->connection) == PQTRANS_IDLE; /* so that a statement is a transaction by itself */
	enum outcome outcome = is_outside ? run(it, "a row", APPEND, given, 2) : LOST;
	bool needs_barrier = it->is_warned || outcome == NOTHING;

	if (outcome == NOTHING)
		outcome = run(it, "a row", IS_SAME, given, 2);
	return outcome == DONE && needs_barrier ? pass_barrier(it) : outcome;
}

static enum store_answer postgresql_append(struct store *store, uint64_t seq, const uint8_t *lines, size_t len)
{
	struct postgresql *it = (struct postgresql *)store;
	enum outcome outcome = LOST;

	if (!has_space(it, len)) {
		store_tell("store: a row of %zu octets\n", len);
		return STORE_REFUSED;
	}
	while (!it->is_other && (outcome = try_to_append(it, seq, lines, len)) == LOST)
		connect_again(it);
	if (it->is_other || outcome == NOTHING)
		return STORE_TAKEN;
	return outcome == DONE && has_seen(it, seq, lines, len) ? STORE_DURABLE : STORE_REFUSED;
}

/* Gives a row to the reader, unless its number is known already, and notes it. */
static enum store_answer give_row(struct postgresql *it, const PGresult *result, uint64_t *last, const struct store_reader *reader)
{
	uint64_t seq = number_of(result, 0);
	size_t len;
	const uint8_t *lines = octets_of(result, 1, &len);
	bool is_known = seq == *last;

	if (!has_seen(it, seq, lines, len))
		return STORE_REFUSED;
	*last = seq;
	return is_known || reader->row(reader->context, seq, lines, len) ? STORE_DURABLE : STORE_STOPPED;
}

/* Gives the reader at most so many rows, from the one with the number `last` on. */
static enum outcome give_rows(struct postgresql *it, uint64_t *last, uint64_t most, const struct store_reader *reader, enum store_answer *answer)
{
	const struct parameter given[] = { of_number(*last), of_number(most) };
	enum outcome outcome = LOST;
	PGresult *result;

	if (!is_sent(it, ROWS, given, 2) || !PQsetSingleRowMode(it->connection))
		tell(it, "rows");
	while ((result = PQgetResult(it->connection))) {
		if (PQresultStatus(result) != PGRES_SINGLE_TUPLE)
			outcome = outcome_of(it, result, "rows");
		else if (!*answer)
			*answer = give_row(it, result, last, reader);
		PQclear(result);
	}
	return outcome;
}

static enum store_answer postgresql_rows(struct store *store, uint64_t after, const struct store_reader *reader)
{
	struct postgresql *it = (struct postgresql *)store;
	enum store_answer answer = STORE_DURABLE;
	enum outcome outcome = LOST;

	while (!it->is_other && (outcome = give_rows(it, &after, MAX_ROWS, reader, &answer)) == LOST)
		connect_again(it);
	return it->is_other ? STORE_TAKEN : outcome == CANNOT ? STORE_REFUSED : answer;
}

/* ---- images */

static enum outcome give_image(struct postgresql *it, uint64_t most, const struct store_reader *reader, uint64_t *seq, enum store_answer *answer)
{
	const struct parameter given[] = { of_number(most) };
	PGresult *result = asked(it, IMAGE, given, 1);
	enum outcome outcome = outcome_of(it, result, "an image");
	struct store_image image;

	if (outcome == DONE) {
		*seq = image.seq = number_of(result, 0);
		image.records = octets_of(result, 1, &image.records_len);
		image.image = octets_of(result, 2, &image.image_len);
		*answer = reader->image(reader->context, &image) ? STORE_DURABLE : STORE_STOPPED;
	} else {
		*answer = STORE_NONE;
	}
	PQclear(result);
	return outcome;
}

static enum outcome try_to_read(struct postgresql *it, uint64_t most, const struct store_reader *reader, enum store_answer *answer)
{
	uint64_t seq = 0;
	enum outcome outcome = run_all(it, "a read", READ_BEGIN);

	it->seen = 0;
	it->is_other = false;
	if (outcome == DONE)
		outcome = give_image(it, most, reader, &seq, answer);
	if (outcome == DONE && !*answer)
		outcome = give_rows(it, &seq, INT64_MAX, reader, answer);
	if (outcome != LOST)
		run_all(it, "a read", "ROLLBACK");
	return outcome;
}

static enum store_answer postgresql_read(struct store *store, uint64_t most, const struct store_reader *reader)
{
	struct postgresql *it = (struct postgresql *)store;
	enum store_answer answer = STORE_DURABLE;
	enum outcome outcome;

	while ((outcome = try_to_read(it, most, reader, &answer)) == LOST)
		connect_again(it);
	return outcome == CANNOT ? STORE_REFUSED : answer;
}

static enum outcome try_to_put(struct postgresql *it, const struct store_image *image, uint64_t from)
{
	const struct parameter given[] = { of_number(image->seq), of_octets(image->records, image->records_len),
					   of_octets(image->image, image->image_len), of_number(from) };
	enum outcome outcome = run_all(it, "an image", PUT_BEGIN);
	char sql[sizeof(PUT_END) + 40];

	snprintf(sql, sizeof(sql), PUT_END, (unsigned long long)from, (unsigned long long)from);
	if (outcome == DONE)
		outcome = run(it, "an image", PUT, given, 4);
	if (outcome == DONE)
		outcome = run_all(it, "an image", sql);
	if (outcome == NOTHING || outcome == CANNOT)
		run_all(it, "an image", "ROLLBACK");
	return outcome;
}

static enum store_answer postgresql_put_image(struct store *store, const struct store_image *image, uint64_t from)
{
	struct postgresql *it = (struct postgresql *)store;
	enum outcome outcome = LOST;

	if (image->records_len > MAX_VALUE || image->image_len > MAX_VALUE) {
		store_tell("store: an image of %zu and %zu octets\n", image->records_len, image->image_len);
		return STORE_REFUSED;
	}
	while (!it->is_other && (outcome = try_to_put(it, image, from)) == LOST)
		connect_again(it);
	if (it->is_other || outcome == NOTHING)
		return STORE_TAKEN;
	return outcome == DONE ? STORE_DURABLE : STORE_REFUSED;
}

/* ---- opening */

static void postgresql_close(struct store *store)
{
	struct postgresql *it = (struct postgresql *)store;

	PQfinish(it->connection);
	free(it->where);
	free(it->text);
	free(it);
}

/* Makes the tables, if there is none. */
static bool has_tables(struct postgresql *it)
{
	char sql[sizeof(MAKE) + 20];
	enum outcome outcome = run(it, PQdb(it->connection), HAS_NONE, NULL, 0);

	snprintf(sql, sizeof(sql), MAKE, STORE_LINES_VERSION, STORE_IMAGE_VERSION);
	return outcome == NOTHING || (outcome == DONE && run_all(it, PQdb(it->connection), sql) == DONE);
}

/* Whether this is a store, and of the versions that are read here. */
static bool has_versions(struct postgresql *it)
{
	const char *name = PQdb(it->connection);
	PGresult *result = asked(it, VERSIONS, NULL, 0);
	bool is_store = outcome_of(it, result, name) == DONE;
	int64_t head[3] = { 0 };

	for (int column = 0; is_store && column < 3; column++)
		head[column] = (int64_t)number_of(result, column);
	it->store.start = (uint32_t)head[2];
	PQclear(result);
	return store_has_versions(name, is_store ? head : NULL);
}

struct store *postgresql_open(const char *where, bool may_make)
{
	struct postgresql *it = calloc(1, sizeof(*it));

	if (!it)
		return NULL;
	it->store = (struct store){ 0, postgresql_append, postgresql_rows, postgresql_read, postgresql_put_image, postgresql_close };
	it->where = strdup(where);
	if (!it->where || !is_connected(it))
		tell(it, "no connection");
	else if ((!may_make || has_tables(it)) && has_versions(it))
		return &it->store;
	postgresql_close(&it->store);
	return NULL;
}
