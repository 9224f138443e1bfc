/*
 * Refuses one allocation of a program, so that its answer to want of memory can be seen, and adds up what all of them
 * ask for.
 *
 * Loaded before the program (LD_PRELOAD). REFUSE=N makes the Nth request for memory fail, counted from 1; each other
 * one goes on to the C library. Where a request was refused, the file that REFUSED names is made, so that the one who
 * counts N up knows when a run met no refusal. When the program exits, the file that ASKED names says how many bytes
 * its requests were for, all together.
 */
#define _GNU_SOURCE
#include <dlfcn.h>
#include <errno.h>
#include <fcntl.h>
#include <stddef.h>
#include <stdio.h>
#include <stdlib.h>
#include <unistd.h>

static long requests;
static long refused = -1;
static unsigned long asked;

__attribute__((destructor)) static void
tell_asked(void)
{
	const char *place = getenv("ASKED");
	const unsigned long bytes = asked;
	FILE *file;

	if (place == NULL || (file = fopen(place, "w")) == NULL)
		return;
	fprintf(file, "%lu\n", bytes);
	fclose(file);
}

static int
is_refused(size_t size)
{
	const char *mark;
	int fd;

	if (refused == -1) {
		const char *number = getenv("REFUSE");

		refused = number == NULL ? 0 : atol(number);
	}
	asked += size;
	if (++requests != refused)
		return 0;
	mark = getenv("REFUSED");
	if (mark != NULL && (fd = open(mark, O_WRONLY | O_CREAT, 0600)) != -1)
		close(fd);
	errno = ENOMEM;
	return 1;
}

void *
malloc(size_t size)
{
	static void *(*next)(size_t);

	if (next == NULL)
		next = (void *(*)(size_t))dlsym(RTLD_NEXT, "malloc");
	return is_refused(size) ? NULL : next(size);
}

void *
calloc(size_t count, size_t size)
{
	static void *(*next)(size_t, size_t);

	if (next == NULL)
		next = (void *(*)(size_t, size_t))dlsym(RTLD_NEXT, "calloc");
	return is_refused(count * size) ? NULL : next(count, size);
}

void *
realloc(void *old, size_t size)
{
	static void *(*next)(void *, size_t);

	if (next == NULL)
		next = (void *(*)(void *, size_t))dlsym(RTLD_NEXT, "realloc");
	return is_refused(size) ? NULL : next(old, size);
}

void *
aligned_alloc(size_t alignment, size_t size)
{
	static void *(*next)(size_t, size_t);

	if (next == NULL)
		next = (void *(*)(size_t, size_t))dlsym(RTLD_NEXT, "aligned_alloc");
	return is_refused(size) ? NULL : next(alignment, size);
}

int
posix_memalign(void **place, size_t alignment, size_t size)
{
	static int (*next)(void **, size_t, size_t);

	if (next == NULL)
		next = (int (*)(void **, size_t, size_t))dlsym(RTLD_NEXT, "posix_memalign");
	return is_refused(size) ? ENOMEM : next(place, alignment, size);
}
