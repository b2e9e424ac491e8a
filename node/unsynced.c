/* SPDX-License-Identifier: Apache-2.0 */
/*
 * Stands between a program and the C library (LD_PRELOAD), and keeps what a disk would have of a store in SQLite if the machine lost its power. What is
 * written goes into the files, which all processes see, as if it was in the machine's memory; and into a list of each file. A sync of a file, by any
 * process, applies its list to a copy of it, which is what the disk has. unsynced.py reads both.
 *
 *   UNSYNCED_STORE         the path of the store; its files are this one, and those whose names end in -wal and -journal besides
 *   UNSYNCED_DISK          a folder: NAME is what the disk has of a file, NAME.list the list; `lock` is locked while something changes
 *   UNSYNCED_MICROSECONDS  how much longer each sync takes, of these files and of any other
 *
 * A list has records: what was done, where, and how many octets follow, as numbers of eight octets; and these octets.
 */
#define _GNU_SOURCE
#include <fcntl.h>
#include <limits.h>
#include <stdint.h>
#include <stdio.h>
#include <stdlib.h>
#include <string.h>
#include <sys/file.h>
#include <sys/syscall.h>
#include <sys/uio.h>
#include <unistd.h>

enum { WRITTEN, CUT, DELETED };

struct record {
	uint64_t kind, at, len;
};

static const char *store, *disk;
static useconds_t delay;

__attribute__((constructor)) static void begin(void)
{
	const char *microseconds = getenv("UNSYNCED_MICROSECONDS");

	store = getenv("UNSYNCED_STORE");
	disk = getenv("UNSYNCED_DISK");
	delay = microseconds ? (useconds_t)strtoul(microseconds, NULL, 10) : 0;
}

static void give_up(const char *name)
{
	perror(name);
	abort();
}

/* The name of a file of the store, or null. */
static const char *name_in_store(const char *path)
{
	static const char *const ends[] = { "", "-wal", "-journal" };
	const size_t len = strlen(store);

	for (size_t at = 0; at < 3 && !strncmp(path, store, len); at++)
		if (!strcmp(path + len, ends[at]))
			return strrchr(path, '/') + 1;
	return NULL;
}

static const char *name_of(int fd, char path[PATH_MAX])
{
	char link[32];
	ssize_t len;

	if (!store)
		return NULL;
	snprintf(link, sizeof(link), "/proc/self/fd/%d", fd);
	len = readlink(link, path, PATH_MAX - 1);
	path[len > 0 ? len : 0] = 0;
	return name_in_store(path);
}

static int opened(const char *name, const char *end, int how)
{
	char *path;
	int fd;

	if (asprintf(&path, "%s/%s%s", disk, name, end) < 0)
		give_up(name);
	fd = open(path, how | O_CREAT | O_CLOEXEC, 0600);
	if (fd < 0)
		give_up(path);
	free(path);
	return fd;
}

/* Locks the disk, until this is closed. */
static int locked(void)
{
	int lock = opened("lock", "", O_RDWR);

	while (flock(lock, LOCK_EX))
		;
	return lock;
}

static void add(const char *name, uint64_t kind, uint64_t at, const void *octets, size_t len)
{
	struct record record = { kind, at, len };
	const struct iovec parts[] = { { &record, sizeof(record) }, { (void *)octets, len } };
	int list = opened(name, ".list", O_WRONLY | O_APPEND);

	if (writev(list, parts, 2) != (ssize_t)(sizeof(record) + len))
		give_up(name);
	close(list);
}

/* Does to the disk's copy what the list has. A file without octets is as good as none. */
static void apply(const char *name)
{
	int list = opened(name, ".list", O_RDWR), copy = opened(name, "", O_WRONLY);
	struct record it;

	while (read(list, &it, sizeof(it)) == sizeof(it)) {
		void *octets = malloc(it.len + 1);

		if (!octets || read(list, octets, it.len) != (ssize_t)it.len)
			give_up(name);
		if (it.kind == WRITTEN ? pwrite(copy, octets, it.len, (off_t)it.at) != (ssize_t)it.len : ftruncate(copy, (off_t)it.at))
			give_up(name);
		free(octets);
	}
	if (ftruncate(list, 0))
		give_up(name);
	close(copy);
	close(list);
}

/* ---- the calls */

static ssize_t write_at(int fd, const void *octets, size_t len, off_t at)
{
	char path[PATH_MAX];
	const char *name = name_of(fd, path);
	int lock = name ? locked() : -1;
	ssize_t done = syscall(SYS_pwrite64, fd, octets, len, at);

	if (name && done > 0)
		add(name, WRITTEN, (uint64_t)at, octets, (size_t)done);
	if (name)
		close(lock);
	return done;
}

ssize_t pwrite(int fd, const void *octets, size_t len, off_t at)
{
	return write_at(fd, octets, len, at);
}

ssize_t pwrite64(int fd, const void *octets, size_t len, off64_t at)
{
	return write_at(fd, octets, len, at);
}

ssize_t write(int fd, const void *octets, size_t len)
{
	char path[PATH_MAX];
	ssize_t done;

	if (!name_of(fd, path))
		return syscall(SYS_write, fd, octets, len);
	done = write_at(fd, octets, len, lseek(fd, 0, SEEK_CUR));
	if (done > 0)
		lseek(fd, done, SEEK_CUR);
	return done;
}

static int cut(int fd, off_t len)
{
	char path[PATH_MAX];
	const char *name = name_of(fd, path);
	int lock = name ? locked() : -1, done = (int)syscall(SYS_ftruncate, fd, len);

	if (name && !done)
		add(name, CUT, (uint64_t)len, "", 0);
	if (name)
		close(lock);
	return done;
}

int ftruncate(int fd, off_t len)
{
	return cut(fd, len);
}

int ftruncate64(int fd, off64_t len)
{
	return cut(fd, len);
}

int unlink(const char *path)
{
	const char *name = store ? name_in_store(path) : NULL;
	int lock = name ? locked() : -1, done = (int)syscall(SYS_unlinkat, AT_FDCWD, path, 0);

	if (name && !done)
		add(name, DELETED, 0, "", 0);
	if (name)
		close(lock);
	return done;
}

static int synced(int fd, long call)
{
	char path[PATH_MAX];
	const char *name = name_of(fd, path);
	int lock;

	if (delay)
		usleep(delay);
	if (!name)
		return (int)syscall(call, fd);
	lock = locked();
	apply(name);
	close(lock);
	return 0;
}

int fsync(int fd)
{
	return synced(fd, SYS_fsync);
}

int fdatasync(int fd)
{
	return synced(fd, SYS_fdatasync);
}
