/*
 * Makes the turns of a long time short, and counts them.
 *
 * Loaded before a node (LD_PRELOAD) whose turns wait by naps, after each of which they look for a datagram. A nap ends at once, and
 * the clock that only goes forward is as much further as if it had lasted. The file that LOOKS names has how often the node looked
 * so far, in eight bytes as the machine has them.
 */
#define _GNU_SOURCE
#include <dlfcn.h>
#include <fcntl.h>
#include <stdint.h>
#include <stdlib.h>
#include <sys/mman.h>
#include <sys/socket.h>
#include <time.h>
#include <unistd.h>

static volatile uint64_t *looks;
/* how long all naps were, in nanoseconds */
static uint64_t napped;

__attribute__((constructor)) static void
begin(void)
{
	const char *path = getenv("LOOKS");
	void *page;
	int fd;

	if (path == NULL || (fd = open(path, O_RDWR | O_CREAT, 0600)) == -1)
		return;
	if (ftruncate(fd, sizeof *looks) == -1)
		abort();
	page = mmap(NULL, sizeof *looks, PROT_READ | PROT_WRITE, MAP_SHARED, fd, 0);
	if (page == MAP_FAILED)
		abort();
	close(fd);
	looks = page;
}

ssize_t
recvfrom(int fd, void *restrict bytes, size_t size, int flags, struct sockaddr *restrict from, socklen_t *restrict length)
{
	static ssize_t (*next)(int, void *, size_t, int, struct sockaddr *, socklen_t *);

	if (next == NULL)
		next = (ssize_t (*)(int, void *, size_t, int, struct sockaddr *, socklen_t *))dlsym(RTLD_NEXT, "recvfrom");
	if (looks != NULL)
		++*looks;
	return next(fd, bytes, size, flags, from, length);
}

int
nanosleep(const struct timespec *asked, struct timespec *left)
{
	static int (*next)(const struct timespec *, struct timespec *);

	if (next == NULL)
		next = (int (*)(const struct timespec *, struct timespec *))dlsym(RTLD_NEXT, "nanosleep");
	if (looks == NULL)
		return next(asked, left);
	napped += (uint64_t)asked->tv_sec * 1000000000 + (uint64_t)asked->tv_nsec;
	return 0;
}

int
clock_gettime(clockid_t clock, struct timespec *time)
{
	static int (*next)(clockid_t, struct timespec *);
	int answer;

	if (next == NULL)
		next = (int (*)(clockid_t, struct timespec *))dlsym(RTLD_NEXT, "clock_gettime");
	answer = next(clock, time);
	if (answer == 0 && clock == CLOCK_MONOTONIC && looks != NULL) {
		uint64_t passed = napped + (uint64_t)time->tv_nsec;

		time->tv_sec += (time_t)(passed / 1000000000);
		time->tv_nsec = (long)(passed % 1000000000);
	}
	return answer;
}
