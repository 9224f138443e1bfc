/*
 * Makes a disk bad for a program: changes of files below a folder fail, while a file says so.
 *
 * Loaded before the program (LD_PRELOAD). DISK names the folder. While the file that BAD names is there, each call that
 * changes something below the folder fails with the error whose number is the file's text, before it does anything.
 */
#define _GNU_SOURCE
#include <dlfcn.h>
#include <errno.h>
#include <fcntl.h>
#include <limits.h>
#include <stdarg.h>
#include <stdio.h>
#include <stdlib.h>
#include <string.h>
#include <sys/stat.h>
#include <sys/syscall.h>
#include <sys/uio.h>
#include <unistd.h>

#define NEXT(name) ((__typeof__(&name))dlsym(RTLD_NEXT, #name))

/* The number of the error, or 0 as long as the disk is good. */
static int
bad(void)
{
	const char *path = getenv("BAD");
	char text[16];
	ssize_t size;
	int fd;

	if (path == NULL || (fd = (int)syscall(SYS_openat, AT_FDCWD, path, O_RDONLY | O_CLOEXEC)) == -1)
		return 0;
	size = syscall(SYS_read, fd, text, sizeof text - 1);
	syscall(SYS_close, fd);
	text[size > 0 ? size : 0] = '\0';
	return atoi(text);
}

static int
is_below(const char *path)
{
	const char *folder = getenv("DISK");

	return folder != NULL && strncmp(path, folder, strlen(folder)) == 0;
}

/* Whether a call on this path has to fail; then errno is set. */
static int
fails_at(int folder, const char *path)
{
	const int saved = errno;
	char link[64], place[PATH_MAX + 1];
	ssize_t size;
	int error = bad();

	if (error != 0 && path[0] != '/') {
		snprintf(link, sizeof link, folder == AT_FDCWD ? "/proc/self/cwd" : "/proc/self/fd/%d", folder);
		size = readlink(link, place, sizeof place - 1);
		place[size > 0 ? size : 0] = '\0';
		path = place;
	}
	if (error == 0 || !is_below(path)) {
		errno = saved;
		return 0;
	}
	errno = error;
	return 1;
}

/* The same, of an open file. */
static int
fails(int fd)
{
	const int saved = errno;
	char link[64], place[PATH_MAX + 1];
	ssize_t size;
	int error = bad();

	if (error == 0)
		return 0;
	snprintf(link, sizeof link, "/proc/self/fd/%d", fd);
	size = readlink(link, place, sizeof place - 1);
	place[size > 0 ? size : 0] = '\0';
	errno = is_below(place) ? error : saved;
	return is_below(place);
}

#define CHANGES (O_WRONLY | O_RDWR | O_CREAT | O_TRUNC | O_APPEND)

#define OPEN(name)                                                                                                             \
	int name(const char *path, int flags, ...)                                                                             \
	{                                                                                                                      \
		va_list more;                                                                                                  \
		mode_t mode;                                                                                                   \
		va_start(more, flags);                                                                                         \
		mode = (flags & (O_CREAT | O_TMPFILE)) != 0 ? va_arg(more, mode_t) : 0;                                        \
		va_end(more);                                                                                                  \
		return (flags & CHANGES) != 0 && fails_at(AT_FDCWD, path) ? -1 : NEXT(name)(path, flags, mode);                \
	}
#define OPENAT(name)                                                                                                           \
	int name(int folder, const char *path, int flags, ...)                                                                 \
	{                                                                                                                      \
		va_list more;                                                                                                  \
		mode_t mode;                                                                                                   \
		va_start(more, flags);                                                                                         \
		mode = (flags & (O_CREAT | O_TMPFILE)) != 0 ? va_arg(more, mode_t) : 0;                                        \
		va_end(more);                                                                                                  \
		return (flags & CHANGES) != 0 && fails_at(folder, path) ? -1 : NEXT(name)(folder, path, flags, mode);          \
	}
/* a call on an open file, and calls on one path or two */
#define ON_FILE(type, name, given, passed)                                                                                     \
	type name given { return fails(fd) ? -1 : NEXT(name) passed; }
#define ON_PATH(name, folder, path, given, passed)                                                                             \
	int name given { return fails_at(folder, path) ? -1 : NEXT(name) passed; }

OPEN(open)
OPEN(open64)
OPENAT(openat)
OPENAT(openat64)
ON_FILE(ssize_t, write, (int fd, const void *bytes, size_t size), (fd, bytes, size))
ON_FILE(ssize_t, writev, (int fd, const struct iovec *parts, int count), (fd, parts, count))
ON_FILE(ssize_t, pwrite, (int fd, const void *bytes, size_t size, off_t at), (fd, bytes, size, at))
ON_FILE(ssize_t, pwrite64, (int fd, const void *bytes, size_t size, off64_t at), (fd, bytes, size, at))
ON_FILE(int, ftruncate, (int fd, off_t size), (fd, size))
ON_FILE(int, ftruncate64, (int fd, off64_t size), (fd, size))
ON_FILE(int, fsync, (int fd), (fd))
ON_FILE(int, fdatasync, (int fd), (fd))
ON_FILE(int, futimens, (int fd, const struct timespec times[2]), (fd, times))
ON_PATH(mkdir, AT_FDCWD, path, (const char *path, mode_t mode), (path, mode))
ON_PATH(mkdirat, folder, path, (int folder, const char *path, mode_t mode), (folder, path, mode))
ON_PATH(mkfifo, AT_FDCWD, path, (const char *path, mode_t mode), (path, mode))
ON_PATH(rmdir, AT_FDCWD, path, (const char *path), (path))
ON_PATH(unlink, AT_FDCWD, path, (const char *path), (path))
ON_PATH(unlinkat, folder, path, (int folder, const char *path, int flags), (folder, path, flags))
ON_PATH(link, AT_FDCWD, path, (const char *old, const char *path), (old, path))
ON_PATH(linkat, folder, path, (int from, const char *old, int folder, const char *path, int flags), (from, old, folder, path, flags))
ON_PATH(symlink, AT_FDCWD, path, (const char *old, const char *path), (old, path))
ON_PATH(rename, AT_FDCWD, path, (const char *old, const char *path), (old, path))
ON_PATH(renameat, folder, path, (int from, const char *old, int folder, const char *path), (from, old, folder, path))
ON_PATH(utimensat, folder, path, (int folder, const char *path, const struct timespec times[2], int flags), (folder, path, times, flags))
