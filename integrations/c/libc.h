/* The few declarations of the C library that these programs need, so that a compiler without its headers builds them; and the time. */
#ifndef LIBC_H
#define LIBC_H

#include <stddef.h>
#include <stdint.h>

enum { READ_ONLY = 0, MONOTONIC = 1, PROCESSOR = 2, STANDARD_ERROR = 2 };

struct timespec {
	long tv_sec;
	long tv_nsec;
};

int printf(const char *form, ...);
int dprintf(int file, const char *form, ...);
int snprintf(char *text, size_t size, const char *form, ...);
int open(const char *path, int how, ...);
long read(int file, void *room, size_t count);
int close(int file);
long write(int file, const void *from, size_t count);
long lseek(int file, long at, int from);
int ftruncate(int file, long len);
int fsync(int file);
int rename(const char *from, const char *to);
int chdir(const char *path);
int raise(int signal);
int clock_gettime(int clock, struct timespec *now);
void *memcpy(void *to, const void *from, size_t count);
void *memmove(void *to, const void *from, size_t count);
int memcmp(const void *one, const void *other, size_t count);
size_t strlen(const char *text);
int strcmp(const char *one, const char *other);
char *strchr(const char *text, int character);
char *strstr(const char *text, const char *words);
unsigned long long strtoull(const char *text, char **end, int base);

static inline double seconds(int clock)
{
	struct timespec now;

	clock_gettime(clock, &now);
	return (double)now.tv_sec + (double)now.tv_nsec / 1e9;
}

#endif
