/* nw_alloc.h: the three allocation functions that libnw.a calls. alloc.c has them over those of the C library. To use others, define
   functions with these names and signatures in your program, and do not link alloc.c. In an installed libnw.a, yours take the place of
   those in the archive; libnw.so always uses its own.

   - They allocate n bytes, aligned to `align`, which divides 16. n may be 0.
   - is_there says whether there is room. The returned pointer is never NULL, even if there is none.
   - nw_mem_realloc keeps the first `kept` bytes of the old block, of which the library uses no more. If it fails, the old block stays.
   - nw_mem_dealloc frees what one of the others returned.
   - Any thread may call them. */
#ifndef NW_ALLOC_H
#define NW_ALLOC_H
#include <stdbool.h>
#include <stddef.h>

#ifdef __cplusplus
extern "C" {
#endif

/* The result of an allocation: whether there is room, and where. */
typedef struct {
	bool is_there;
	void *at;
} nw_room;

nw_room nw_mem_alloc(size_t n, size_t align);
nw_room nw_mem_realloc(void *at, size_t kept, size_t n, size_t align);
void nw_mem_dealloc(void *at);

#ifdef __cplusplus
}
#endif
#endif
