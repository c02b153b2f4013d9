/* Refuses one call for memory of the program that it is preloaded into.
 *
 * REFUSE_CALL is the number of the call, from 1. Counted are the calls of malloc, calloc, realloc,
 * reallocarray, aligned_alloc and posix_memalign that come from the code of the program itself, in
 * their order and from its start on. Those of the loader and of the C library are let through.
 * Where the call is refused, the file that REFUSE_MARK names is created.
 *
 * A program built by `rt` calls malloc and realloc alone. The names __libc_.. are glibc's.
 */
#define _GNU_SOURCE
#include <errno.h>
#include <fcntl.h>
#include <link.h>
#include <stdint.h>
#include <stdlib.h>
#include <unistd.h>

extern void *__libc_malloc(size_t);
extern void *__libc_calloc(size_t, size_t);
extern void *__libc_realloc(void *, size_t);
extern void *__libc_memalign(size_t, size_t);

/* where the code of the program lies; nowhere until the loader is done */
static uintptr_t code_begin, code_end;
static unsigned long calls, refused_call;

/* The program comes first, before the libraries. */
static int find_code(struct dl_phdr_info *info, size_t size, void *unused) {
  (void)size;
  (void)unused;
  for (int i = 0; i < info->dlpi_phnum; i++) {
    const ElfW(Phdr) *part = &info->dlpi_phdr[i];
    if (part->p_type == PT_LOAD && (part->p_flags & PF_X)) {
      code_begin = info->dlpi_addr + part->p_vaddr;
      code_end = code_begin + part->p_memsz;
    }
  }
  return 1;
}

__attribute__((constructor)) static void begin(void) {
  const char *number = getenv("REFUSE_CALL");
  refused_call = number ? strtoul(number, NULL, 10) : 0;
  dl_iterate_phdr(find_code, NULL);
}

static int is_refused(void *caller) {
  uintptr_t place = (uintptr_t)caller;
  if (place < code_begin || place >= code_end || ++calls != refused_call) return 0;
  const char *mark = getenv("REFUSE_MARK");
  if (mark) close(open(mark, O_CREAT | O_WRONLY, 0600));
  errno = ENOMEM;
  return 1;
}

#define IS_REFUSED is_refused(__builtin_return_address(0))

void *malloc(size_t size) { return IS_REFUSED ? NULL : __libc_malloc(size); }

void *calloc(size_t count, size_t size) { return IS_REFUSED ? NULL : __libc_calloc(count, size); }

void *realloc(void *old, size_t size) { return IS_REFUSED ? NULL : __libc_realloc(old, size); }

void *reallocarray(void *old, size_t count, size_t size) {
  size_t bytes;
  if (IS_REFUSED) return NULL;
  if (__builtin_mul_overflow(count, size, &bytes)) {
    errno = ENOMEM;
    return NULL;
  }
  return __libc_realloc(old, bytes);
}

void *aligned_alloc(size_t alignment, size_t size) {
  return IS_REFUSED ? NULL : __libc_memalign(alignment, size);
}

int posix_memalign(void **block, size_t alignment, size_t size) {
  void *found = IS_REFUSED ? NULL : __libc_memalign(alignment, size);
  if (!found) return ENOMEM;
  *block = found;
  return 0;
}
