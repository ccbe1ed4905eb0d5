/* A library that makes allocations fail in the program that preloads it (.ci/failed-allocations).

   If FAIL_NTH is N, the Nth allocation fails. Allocations are counted from 1, in all threads together, from the start of this library.
   The dynamic linker's own allocations come before the start, and all those of main and of threads come after it. An allocation is a call
   of malloc, calloc, realloc, aligned_alloc, posix_memalign or memalign. After an allocation of FAIL_ALL bytes, which succeeds, all
   allocations of this thread fail until one of FAIL_NONE bytes. Other threads are not affected, so their order makes no difference.
   FAIL_TELL is a file descriptor, to which the library writes single bytes: "l" when it starts, "r" when it fails the Nth allocation, and
   "a" when all allocations of a thread begin to fail. */
#include <errno.h>
#include <stdlib.h>
#include <unistd.h>

enum { FAIL_ALL = 1000003, FAIL_NONE = 1000033 };

void *__libc_malloc(size_t), *__libc_calloc(size_t, size_t), *__libc_realloc(void *, size_t), *__libc_memalign(size_t, size_t);

static long nth, count;
static int tell = -1;
static _Thread_local int all;

static void tell_of(const char *what)
{
	if (tell >= 0 && write(tell, what, 1) != 1)
		abort();
}

__attribute__((constructor)) static void start(void)
{
	const char *number = getenv("FAIL_NTH"), *to = getenv("FAIL_TELL");
	tell = to ? atoi(to) : -1;
	tell_of("l");
	__atomic_store_n(&nth, number ? atol(number) : 0, __ATOMIC_SEQ_CST);
}

static int is_refused(size_t size)
{
	if (size == FAIL_ALL || size == FAIL_NONE) {
		if (size == FAIL_ALL && !all)
			tell_of("a");
		all = size == FAIL_ALL;
		return 0;
	}
	if (!all) {
		long target = __atomic_load_n(&nth, __ATOMIC_SEQ_CST);
		if (!target || __atomic_add_fetch(&count, 1, __ATOMIC_SEQ_CST) != target)
			return 0;
		tell_of("r");
	}
	errno = ENOMEM;
	return 1;
}

void *malloc(size_t size) { return is_refused(size) ? NULL : __libc_malloc(size); }
void *calloc(size_t n, size_t size) { return is_refused(n * size) ? NULL : __libc_calloc(n, size); }
void *realloc(void *it, size_t size) { return is_refused(size) ? NULL : __libc_realloc(it, size); }
void *memalign(size_t align, size_t size) { return is_refused(size) ? NULL : __libc_memalign(align, size); }
void *aligned_alloc(size_t align, size_t size) { return memalign(align, size); }

int posix_memalign(void **to, size_t align, size_t size)
{
	void *it = memalign(align, size);
	if (!it)
		return ENOMEM;
	*to = it;
	return 0;
}
