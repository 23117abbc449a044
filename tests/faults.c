/* Calls of the C library of which one fails, or each moves a byte. faults.py builds it and loads it before a program.

   FAULT is `CALL ERROR N`: the call of this number, from 1, fails by this error; where ERROR is 0, each moves one byte
   at most. CALL is `memory`, `read`, `write` or `open`. SHORT is how many bytes each read and each write moves at most.
   With SWALLOW what is written once a call has failed is lost. How many calls of each there were, and the peak memory in
   KiB, is written to the file that COUNTS names. */
#define _GNU_SOURCE
#include <errno.h>
#include <fcntl.h>
#include <stdarg.h>
#include <stdio.h>
#include <stdlib.h>
#include <string.h>
#include <sys/syscall.h>
#include <unistd.h>

enum call { MEMORY, READ, WRITE, OPEN, CALLS };

static const char *const names[CALLS] = { "memory", "read", "write", "open" };
static long counts[CALLS], number;
static size_t most = -1;
static int swallows, is_over;
static int error, which = CALLS;

void *__libc_malloc(size_t);
void *__libc_calloc(size_t, size_t);
void *__libc_realloc(void *, size_t);

__attribute__((constructor)) static void begin(void)
{
	char name[16];
	const char *fault = getenv("FAULT"), *is_short = getenv("SHORT");
	if (is_short)
		most = atol(is_short);
	swallows = getenv("SWALLOW") != NULL;
	if (fault && sscanf(fault, "%15s %d %ld", name, &error, &number) == 3)
		for (which = 0; which < CALLS && strcmp(name, names[which]) != 0; which++)
			;
}

/* The peak memory of this process in KiB. */
static long peak(void)
{
	char text[4096];
	int file = syscall(SYS_openat, AT_FDCWD, "/proc/self/status", O_RDONLY);
	long length = syscall(SYS_read, file, text, sizeof text - 1);
	text[length > 0 ? length : 0] = 0;
	const char *found = strstr(text, "VmHWM:");
	return found ? atol(found + 6) : 0;
}

__attribute__((destructor)) static void end(void)
{
	char text[128];
	const char *path = getenv("COUNTS");
	int file = path ? syscall(SYS_openat, AT_FDCWD, path, O_WRONLY | O_CREAT | O_TRUNC, 0600) : -1;
	int length = snprintf(text, sizeof text, "%ld %ld %ld %ld %ld\n",
		counts[MEMORY], counts[READ], counts[WRITE], counts[OPEN], peak());
	if (file >= 0 && syscall(SYS_write, file, text, length) != length)
		_exit(127);
}

/* Whether this call is the one that fails. */
static int fails(enum call call)
{
	int is_it = ++counts[call] == number && call == which && error != 0;
	if (is_it) {
		errno = error;
		is_over = 1;
	}
	return is_it;
}

/* How many of so many bytes it may move. */
static size_t room(enum call call, size_t size)
{
	size_t limit = call == which && error == 0 ? 1 : most;
	return size < limit ? size : limit;
}

void *malloc(size_t size) { return fails(MEMORY) ? NULL : __libc_malloc(size); }

void *calloc(size_t count, size_t size) { return fails(MEMORY) ? NULL : __libc_calloc(count, size); }

void *realloc(void *old, size_t size) { return fails(MEMORY) ? NULL : __libc_realloc(old, size); }

ssize_t read(int file, void *bytes, size_t size)
{
	return fails(READ) ? -1 : syscall(SYS_read, file, bytes, room(READ, size));
}

ssize_t write(int file, const void *bytes, size_t size)
{
	if (swallows && is_over && file == STDOUT_FILENO)
		return size;
	return fails(WRITE) ? -1 : syscall(SYS_write, file, bytes, room(WRITE, size));
}

/* `mode` counts only where a file is made. */
int open(const char *path, int flags, ...)
{
	va_list more;
	va_start(more, flags);
	int mode = va_arg(more, int);
	va_end(more);
	return fails(OPEN) ? -1 : syscall(SYS_openat, AT_FDCWD, path, flags, mode);
}
