/* The functions that take memory, which a test has in place of the system's, and the system's own. A test that includes this is linked with
 * -Wl,--wrap=malloc,--wrap=realloc,--wrap=free. */
#ifndef WRAPPED_H
#define WRAPPED_H

#include <stddef.h>

void *__real_malloc(size_t len);
void *__real_realloc(void *old, size_t len);
void __real_free(void *old);
void *__wrap_malloc(size_t len);
void *__wrap_realloc(void *old, size_t len);
void __wrap_free(void *old);

#endif
