/* Tests the allocation functions of alloc.c. The linker wraps those of the C library, so that each can be made to fail and is counted:
   link with -Wl,--wrap=malloc,--wrap=realloc,--wrap=free. Prints the line of the first claim that is wrong, and then exits with status 1. */
#include "../nw_alloc.h"
#include <stdint.h>
#include <stdio.h>
#include <stdlib.h>
#include <string.h>

#define CLAIM(it) ((it) ? (void)0 : wrong(__LINE__, #it))

void *__real_malloc(size_t n);
void *__real_realloc(void *at, size_t n);
void __real_free(void *at);

/* Whether the C library has no memory, and what it was asked for last. */
static bool no_memory;
static int mallocs, reallocs, frees;
static size_t asked;
static void *freed;

static void wrong(int line, const char *claim)
{
	fprintf(stderr, "line %d: not so: %s\n", line, claim);
	_Exit(1);
}

void *__wrap_malloc(size_t n)
{
	mallocs++;
	asked = n;
	return no_memory ? NULL : __real_malloc(n);
}

void *__wrap_realloc(void *at, size_t n)
{
	reallocs++;
	asked = n;
	return no_memory ? NULL : __real_realloc(at, n);
}

void __wrap_free(void *at)
{
	frees++;
	freed = at;
	__real_free(at);
}

int main(void)
{
	static const size_t sizes[] = {1, 7, 8, 100, 5000, 1000000}, aligns[] = {1, 2, 4, 8, 16}, huge[] = {(size_t)1 << 32, SIZE_MAX / 2};
	size_t i, j, k;
	nw_room small = nw_mem_alloc(8, 8);
	for (i = 0; i < sizeof sizes / sizeof *sizes; i++)
		for (j = 0; j < sizeof aligns / sizeof *aligns; j++) {
			int before = frees;
			nw_room room = nw_mem_alloc(sizes[i], aligns[j]), other;
			CLAIM(room.is_there && room.at && asked >= sizes[i]);
			CLAIM((size_t)room.at % aligns[j] == 0);
			memset(room.at, 7, sizes[i]);

			no_memory = true;
			other = nw_mem_realloc(room.at, sizes[i], 2 * sizes[i], aligns[j]);
			CLAIM(!other.is_there && other.at && frees == before);
			other = nw_mem_alloc(sizes[i], aligns[j]);
			CLAIM(!other.is_there && other.at);
			other = nw_mem_alloc(0, aligns[j]);
			CLAIM(!other.is_there && other.at);
			no_memory = false;
			for (k = 0; k < sizes[i]; k++)
				CLAIM(((char *)room.at)[k] == 7);

			room = nw_mem_realloc(room.at, sizes[i], 3 * sizes[i], aligns[j]);
			CLAIM(room.is_there && room.at && asked >= 3 * sizes[i] && frees == before);
			for (k = 0; k < sizes[i]; k++)
				CLAIM(((char *)room.at)[k] == 7);
			memset(room.at, 8, 3 * sizes[i]);
			/* realloc of the C library may free an allocation that gets no bytes. */
			room = nw_mem_realloc(room.at, 0, 0, aligns[j]);
			CLAIM(room.is_there && room.at && asked > 0);
			nw_mem_dealloc(room.at);
			CLAIM(frees == before + 1 && freed == room.at);

			room = nw_mem_alloc(0, aligns[j]);
			CLAIM(room.is_there && room.at && asked > 0);
			nw_mem_dealloc(room.at);
			CLAIM(frees == before + 2 && freed == room.at);
		}
	/* What no memory has room for is asked for as it is. */
	no_memory = true;
	for (i = 0; i < sizeof huge / sizeof *huge; i++) {
		CLAIM(!nw_mem_alloc(huge[i], 8).is_there && asked == huge[i]);
		CLAIM(!nw_mem_realloc(small.at, 8, huge[i], 8).is_there && asked == huge[i]);
	}
	CLAIM(mallocs == 4 * 30 + 3 && reallocs == 3 * 30 + 2 && frees == 2 * 30);
	nw_mem_dealloc(small.at);
	puts("alloc.c does what nw_alloc.h says");
	return 0;
}
