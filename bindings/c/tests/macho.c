/* Lets a C program for Linux call a shared library for macOS on the same processor: the functions of nw.h, in the file NW_DYLIB. Before
   main it maps the library, gives it the functions that it needs from this program, and writes the addresses of its functions into a table.
   The functions of nw.h jump through this table (.ci/elsewhere.py). So the machine code for macOS runs over Linux's C library. This shows
   nothing about macOS itself, such as its loader and code signing.

   The library is linked with -no_fixup_chains, so all of its pointers are in sections of symbol pointers. */
#define _GNU_SOURCE
#include "nw_alloc.h"
#include <fcntl.h>
#include <stdint.h>
#include <stdio.h>
#include <stdlib.h>
#include <string.h>
#include <sys/mman.h>
#include <sys/stat.h>

/* The tables of the functions of nw.h. */
extern const char *const nw_names[];
extern void *nw_places[];
extern const uint64_t nw_count;

/* The parts of the format Mach-O that are read here. */
enum { MAGIC = 0xfeedfacf, SYMBOLS = 2, INDIRECT = 0xb, SEGMENT = 0x19, POINTERS = 6, LAZY_POINTERS = 7, IN_SECTION = 0xe, NO_SYMBOL = 0xc0000000 };
struct header { uint32_t magic, cpu[2], kind, commands, size, flags, reserved; };
struct command { uint32_t kind, size; };
struct segment { struct command c; char name[16]; uint64_t at, size, offset, length; uint32_t most, rights, sections, flags; };
struct section { char name[16], segment[16]; uint64_t at, size; uint32_t offset, align, relocations[2], flags, first, reserved[2]; };
struct symbols { struct command c; uint32_t offset, count, strings, size; };
struct indirect { struct command c; uint32_t others[12], offset, count, more[4]; };
struct symbol { uint32_t name; uint8_t kind, section; uint16_t more; uint64_t at; };

static const uint8_t *file;
static uint8_t *base;
static const struct symbols *symbols;
static const struct indirect *indirect;

static void fail(const char *what, const char *which)
{
	fprintf(stderr, "macho: %s %s\n", what, which);
	exit(9);
}

static void zero(void *at, size_t n)
{
	memset(at, 0, n);
}

/* The program's function for this symbol. The library calls nothing before it is loaded, so it needs no binder. */
static void *given(const char *name)
{
	static const struct { const char *name; void *at; } functions[] = {
		{"_memcpy", (void *)memcpy}, {"_memmove", (void *)memmove}, {"_memset", (void *)memset}, {"_bzero", (void *)zero},
		{"___bzero", (void *)zero}, {"_nw_mem_alloc", (void *)nw_mem_alloc}, {"_nw_mem_realloc", (void *)nw_mem_realloc},
		{"_nw_mem_dealloc", (void *)nw_mem_dealloc}, {"dyld_stub_binder", NULL},
	};
	for (size_t i = 0; i < sizeof functions / sizeof *functions; i++)
		if (!strcmp(functions[i].name, name))
			return functions[i].at;
	fail("the program has no function", name);
	return NULL;
}

static const struct symbol *symbol(uint32_t index)
{
	return (const struct symbol *)(file + symbols->offset) + index;
}

static const char *name_of(const struct symbol *s)
{
	return (const char *)file + symbols->strings + s->name;
}

/* Calls a function for each command of this kind. */
static void each(uint32_t kind, void (*take)(const struct command *))
{
	const struct header *header = (const struct header *)file;
	const struct command *c = (const struct command *)(header + 1);
	for (uint32_t i = 0; i < header->commands; i++, c = (const struct command *)((const uint8_t *)c + c->size))
		if (c->kind == kind)
			take(c);
}

static uint64_t end;

static void measure(const struct command *c)
{
	const struct segment *s = (const struct segment *)c;
	if (s->at + s->size > end)
		end = s->at + s->size;
}

static void take_symbols(const struct command *c)
{
	symbols = (const struct symbols *)c;
}

static void take_indirect(const struct command *c)
{
	indirect = (const struct indirect *)c;
}

static void copy(const struct command *c)
{
	const struct segment *s = (const struct segment *)c;
	memcpy(base + s->at, file + s->offset, s->length);
}

/* Fills the pointers of a section. No other section of data may have content, except one word of the linker: it could have pointers. */
static void fill(const struct section *s)
{
	const uint32_t *numbers = (const uint32_t *)(file + indirect->offset) + s->first, kind = s->flags & 0xff;
	int is_pointers = kind == POINTERS || kind == LAZY_POINTERS;
	if (!is_pointers && strncmp(s->segment, "__TEXT", 16) && s->size > sizeof(void *))
		fail("data in", s->name);
	for (uint64_t i = 0; is_pointers && i < s->size / sizeof(void *); i++)
		if (!(numbers[i] & NO_SYMBOL))
			((void **)(base + s->at))[i] = given(name_of(symbol(numbers[i])));
}

static void bind(const struct command *c)
{
	const struct segment *s = (const struct segment *)c;
	for (uint32_t i = 0; i < s->sections; i++)
		fill((const struct section *)(s + 1) + i);
}

static void protect(const struct command *c)
{
	const struct segment *s = (const struct segment *)c;
	int rights = (s->rights & 1 ? PROT_READ : 0) | (s->rights & 2 ? PROT_WRITE : 0) | (s->rights & 4 ? PROT_EXEC : 0);
	if (mprotect(base + s->at, s->size, rights))
		fail("no rights for", s->name);
}

__attribute__((constructor)) static void load(void)
{
	const char *path = getenv("NW_DYLIB");
	int opened = open(path ? path : "", O_RDONLY);
	struct stat about;
	if (opened < 0 || fstat(opened, &about))
		fail("no file", path ? path : "NW_DYLIB");
	file = mmap(NULL, (size_t)about.st_size, PROT_READ, MAP_PRIVATE, opened, 0);
	if (file == MAP_FAILED || ((const struct header *)file)->magic != MAGIC)
		fail("no library for macOS:", path);
	each(SEGMENT, measure);
	each(SYMBOLS, take_symbols);
	each(INDIRECT, take_indirect);
	base = mmap(NULL, end, PROT_READ | PROT_WRITE, MAP_PRIVATE | MAP_ANONYMOUS, -1, 0);
	if (base == MAP_FAILED || !symbols || !indirect)
		fail("cannot map", path);
	each(SEGMENT, copy);
	each(SEGMENT, bind);
	each(SEGMENT, protect);
	__builtin___clear_cache((char *)base, (char *)base + end);
	uint64_t found = 0;
	for (uint32_t i = 0; i < symbols->count; i++)
		for (uint64_t k = 0; k < nw_count; k++)
			if ((symbol(i)->kind & IN_SECTION) == IN_SECTION && name_of(symbol(i))[0] == '_' && !strcmp(name_of(symbol(i)) + 1, nw_names[k])) {
				nw_places[k] = base + symbol(i)->at;
				found++;
			}
	if (found != nw_count)
		fail("not all functions are in", path);
}
