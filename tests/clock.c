/*
 * Makes the clocks of a program wrong.
 *
 * Loaded before the program (LD_PRELOAD). The file that CLOCK names has nine numbers of eight bytes, as the machine has
 * them: a count, which is odd while the others change; then for the clock of the day, and for those that only go
 * forward: a time in nanoseconds, what the program is to read then, and how fast its clock runs, in thousandths. The
 * last two mean nothing.
 *
 * A program that waits until a time of its clock is woken when the machine's clock has the time that this one shows then.
 */
#define _GNU_SOURCE
#include <dlfcn.h>
#include <fcntl.h>
#include <pthread.h>
#include <semaphore.h>
#include <stdint.h>
#include <stdlib.h>
#include <sys/mman.h>
#include <time.h>
#include <unistd.h>

#define SECOND 1000000000

/* A clock as it is now. */
struct clock {
	int64_t since, shown, speed;
};

static volatile int64_t *numbers;

__attribute__((constructor)) static void
begin(void)
{
	const char *path = getenv("CLOCK");
	void *page;
	int fd;

	if (path == NULL || (fd = open(path, O_RDONLY)) == -1)
		return;
	page = mmap(NULL, 9 * sizeof *numbers, PROT_READ, MAP_SHARED, fd, 0);
	if (page == MAP_FAILED)
		abort();
	close(fd);
	numbers = page;
}

static struct clock
clock_of(clockid_t clock)
{
	const int first = clock == CLOCK_REALTIME || clock == CLOCK_REALTIME_COARSE ? 1 : 4;
	struct clock found;
	int64_t count;

	do {
		count = numbers[0];
		found.since = numbers[first];
		found.shown = numbers[first + 1];
		found.speed = numbers[first + 2];
	} while (count % 2 != 0 || count != numbers[0]);
	return found;
}

/* A span times one speed over another. Its nanoseconds times a thousand might have no room. */
static int64_t
scaled(int64_t span, int64_t speed, int64_t over)
{
	return span / over * speed + span % over * speed / over;
}

static int64_t
joined(const struct timespec *time)
{
	return (int64_t)time->tv_sec * SECOND + time->tv_nsec;
}

static struct timespec
split(int64_t time)
{
	struct timespec found = {0, 0};

	if (time > 0) {
		found.tv_sec = time / SECOND;
		found.tv_nsec = time % SECOND;
	}
	return found;
}

/* When the machine's clock is at the time that the program means. */
static struct timespec
real(clockid_t clock, const struct timespec *meant)
{
	const struct clock it = clock_of(clock);

	return split(it.since + scaled(joined(meant) - it.shown, 1000, it.speed));
}

static int
is_changed(clockid_t clock)
{
	return numbers != NULL && clock != CLOCK_PROCESS_CPUTIME_ID && clock != CLOCK_THREAD_CPUTIME_ID;
}

int
clock_gettime(clockid_t clock, struct timespec *time)
{
	static int (*next)(clockid_t, struct timespec *);
	int answer;

	if (next == NULL)
		next = (int (*)(clockid_t, struct timespec *))dlsym(RTLD_NEXT, "clock_gettime");
	answer = next(clock, time);
	if (answer == 0 && is_changed(clock)) {
		const struct clock it = clock_of(clock);

		*time = split(it.shown + scaled(joined(time) - it.since, it.speed, 1000));
	}
	return answer;
}

int
clock_nanosleep(clockid_t clock, int flags, const struct timespec *time, struct timespec *left)
{
	static int (*next)(clockid_t, int, const struct timespec *, struct timespec *);
	struct timespec until;

	if (next == NULL)
		next = (int (*)(clockid_t, int, const struct timespec *, struct timespec *))dlsym(RTLD_NEXT, "clock_nanosleep");
	if (flags == TIMER_ABSTIME && is_changed(clock)) {
		until = real(clock, time);
		time = &until;
	}
	return next(clock, flags, time, left);
}

int
sem_clockwait(sem_t *restrict semaphore, clockid_t clock, const struct timespec *restrict time)
{
	static int (*next)(sem_t *, clockid_t, const struct timespec *);
	struct timespec until;

	if (next == NULL)
		next = (int (*)(sem_t *, clockid_t, const struct timespec *))dlsym(RTLD_NEXT, "sem_clockwait");
	if (is_changed(clock)) {
		until = real(clock, time);
		time = &until;
	}
	return next(semaphore, clock, time);
}

/* The clock of a condition isn't known here: it is the one to which the time is nearer. */
int
pthread_cond_timedwait(pthread_cond_t *restrict condition, pthread_mutex_t *restrict mutex, const struct timespec *restrict time)
{
	static int (*next)(pthread_cond_t *, pthread_mutex_t *, const struct timespec *);
	struct timespec day, forward, until;

	if (next == NULL)
		next = (int (*)(pthread_cond_t *, pthread_mutex_t *, const struct timespec *))dlvsym(RTLD_NEXT, "pthread_cond_timedwait",
		    "GLIBC_2.3.2");
	if (numbers != NULL) {
		clock_gettime(CLOCK_REALTIME, &day);
		clock_gettime(CLOCK_MONOTONIC, &forward);
		until = real(llabs(joined(time) - joined(&day)) < llabs(joined(time) - joined(&forward)) ? CLOCK_REALTIME : CLOCK_MONOTONIC, time);
		time = &until;
	}
	return next(condition, mutex, time);
}
