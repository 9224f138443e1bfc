/*
 * Writes down the calls by which a program changes its files, and fails one of them.
 *
 * Loaded before the program (LD_PRELOAD). Each write at a place, each truncation and each sync is counted, from 1, and
 * appended as a line to the file that CALLS names: `write PLACE COUNT`, `cut LENGTH`, `sync` or `sync folder`. FAIL=N makes
 * the Nth of them fail before it does anything; its line ends in ` failed`. FAIL=N.. fails all from that one on. Where RENAMES
 * is set, a file that gets another name counts, too: `rename`.
 */
#define _GNU_SOURCE
#include <dlfcn.h>
#include <errno.h>
#include <fcntl.h>
#include <stdio.h>
#include <stdlib.h>
#include <string.h>
#include <sys/stat.h>
#include <unistd.h>

static long calls;

/* Notes a call down, and tells whether it has to fail. */
static int
is_failed(const char *call)
{
	const char *fail = getenv("FAIL"), *path = getenv("CALLS");
	long number = fail == NULL ? 0 : atol(fail);
	int failed, fd;
	char line[128];
	int size;

	calls++;
	failed = number != 0 && (strstr(fail, "..") == NULL ? calls == number : calls >= number);
	size = snprintf(line, sizeof line, "%s%s\n", call, failed ? " failed" : "");
	if (path != NULL && (fd = open(path, O_WRONLY | O_CREAT | O_APPEND, 0600)) != -1) {
		if (write(fd, line, (size_t)size) != size)
			abort();
		close(fd);
	}
	errno = EIO;
	return failed;
}

ssize_t
pwrite(int fd, const void *bytes, size_t count, off_t place)
{
	static ssize_t (*next)(int, const void *, size_t, off_t);
	char call[96];

	if (next == NULL)
		next = (ssize_t (*)(int, const void *, size_t, off_t))dlsym(RTLD_NEXT, "pwrite");
	snprintf(call, sizeof call, "write %lld %zu", (long long)place, count);
	return is_failed(call) ? -1 : next(fd, bytes, count, place);
}

ssize_t
pwrite64(int fd, const void *bytes, size_t count, off_t place)
{
	return pwrite(fd, bytes, count, place);
}

int
ftruncate(int fd, off_t length)
{
	static int (*next)(int, off_t);
	char call[96];

	if (next == NULL)
		next = (int (*)(int, off_t))dlsym(RTLD_NEXT, "ftruncate");
	snprintf(call, sizeof call, "cut %lld", (long long)length);
	return is_failed(call) ? -1 : next(fd, length);
}

int
ftruncate64(int fd, off_t length)
{
	return ftruncate(fd, length);
}

int
fsync(int fd)
{
	static int (*next)(int);
	struct stat found;

	if (next == NULL)
		next = (int (*)(int))dlsym(RTLD_NEXT, "fsync");
	if (fstat(fd, &found) == 0 && S_ISDIR(found.st_mode))
		return is_failed("sync folder") ? -1 : next(fd);
	return is_failed("sync") ? -1 : next(fd);
}

int
rename(const char *old, const char *new)
{
	static int (*next)(const char *, const char *);

	if (next == NULL)
		next = (int (*)(const char *, const char *))dlsym(RTLD_NEXT, "rename");
	return getenv("RENAMES") != NULL && is_failed("rename") ? -1 : next(old, new);
}

/* A sync of the bytes alone doesn't bring a new length to the disk. */
int
fdatasync(int fd)
{
	static int (*next)(int);

	if (next == NULL)
		next = (int (*)(int))dlsym(RTLD_NEXT, "fdatasync");
	return is_failed("sync of bytes") ? -1 : next(fd);
}
