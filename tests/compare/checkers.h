/* What the driver tells a checker of memory that it runs under (tools/sanitize): that bytes may not even be read (FORBID), that they may be
 * read and written but count as never written (LEND), that they are as any others (ALLOW). Without a checker nothing is told. */
#if defined UNDER_VALGRIND
#include <valgrind/memcheck.h>
#define FORBID(at, len) VALGRIND_MAKE_MEM_NOACCESS(at, len)
#define LEND(at, len) VALGRIND_MAKE_MEM_UNDEFINED(at, len)
#define ALLOW(at, len) VALGRIND_MAKE_MEM_DEFINED(at, len)
#elif defined UNDER_ASAN /* it goes by eight bytes, and doesn't know what was never written */
#include <sanitizer/asan_interface.h>
#define FORBID(at, len) ASAN_POISON_MEMORY_REGION(at, len)
#define LEND(at, len) ASAN_UNPOISON_MEMORY_REGION(at, len)
#define ALLOW(at, len) ASAN_UNPOISON_MEMORY_REGION(at, len)
#else
#define FORBID(at, len) ((void)0)
#define LEND(at, len) ((void)0)
#define ALLOW(at, len) ((void)0)
#endif
