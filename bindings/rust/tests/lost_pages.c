/* A disk that loses what was not synced, for the example durable. LOST_PAGES is the absolute path of a log, whose copies are <log> and
   <log>.copy.

   A sync of a copy only writes the copy's size to <copy>.synced, and a sync of its folder makes <copy>.named. After a power failure the
   example cuts the copy to that size, or removes it if it has no name yet. A sync takes up to a millisecond, so that kills meet it. With
   DIE_AT_SYNC, the process kills itself in the sync of this number, before it takes effect: the other copy may be synced or not.

   cc -shared -fPIC -o lost_pages.so lost_pages.c, and run the example with LD_PRELOAD=lost_pages.so */
#define _GNU_SOURCE
#include <fcntl.h>
#include <limits.h>
#include <signal.h>
#include <stdint.h>
#include <stdio.h>
#include <stdlib.h>
#include <string.h>
#include <sys/stat.h>
#include <time.h>
#include <unistd.h>

/* Writes the number to the file <copy><suffix>. */
static void note(const char *copy, const char *suffix, uint64_t number)
{
	char path[PATH_MAX];
	snprintf(path, sizeof path, "%s%s", copy, suffix);
	int fd = open(path, O_WRONLY | O_CREAT, 0600);
	if (fd < 0 || pwrite(fd, &number, sizeof number, 0) != sizeof number)
		abort();
	close(fd);
}

static int synced(int fd)
{
	static int syncs;
	const char *log = getenv("LOST_PAGES"), *last = getenv("DIE_AT_SYNC");
	char link[64], path[PATH_MAX], copy[PATH_MAX];
	snprintf(link, sizeof link, "/proc/self/fd/%d", fd);
	ssize_t length = readlink(link, path, sizeof path - 1);
	struct stat status;
	if (!log || length < 0 || fstat(fd, &status))
		abort();
	path[length] = 0;
	struct timespec now;
	clock_gettime(CLOCK_MONOTONIC, &now);
	usleep(now.tv_nsec / 64 % 1000);
	if (last && __atomic_add_fetch(&syncs, 1, __ATOMIC_SEQ_CST) == atoi(last))
		kill(getpid(), SIGKILL);
	int is_folder = !strncmp(path, log, length) && log[length] == '/' && !strchr(log + length + 1, '/');
	for (int number = 0; number < 2; number++) {
		snprintf(copy, sizeof copy, "%s%s", log, number ? ".copy" : "");
		if (!strcmp(path, copy))
			note(copy, ".synced", status.st_size);
		else if (is_folder && !access(copy, F_OK))
			note(copy, ".named", 1);
	}
	return 0;
}

int fsync(int fd)
{
	return synced(fd);
}

int fdatasync(int fd)
{
	return synced(fd);
}
