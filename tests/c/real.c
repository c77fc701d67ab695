/* For tests that count or refuse allocations, where the linker has no --wrap or would wrap the C library, too: the library
 * is compiled with -Dmalloc=__wrap_malloc and so on, and the tests get the functions of the C library from here. With
 * -DNO_FREE the test has no function in place of free. */
#include <stdlib.h>

void *__real_malloc(size_t size);
void *__real_realloc(void *block, size_t size);
void __real_free(void *block);
void __wrap_free(void *block);

void *__real_malloc(size_t size) { return malloc(size); }
void *__real_realloc(void *block, size_t size) { return realloc(block, size); }
void __real_free(void *block) { free(block); }
#ifdef NO_FREE
void __wrap_free(void *block) { free(block); }
#endif
