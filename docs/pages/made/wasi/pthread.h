/* A page has no threads: none can be created, as if memory ran out. */
#include <errno.h>
#include <stddef.h>
typedef int pthread_attr_t;
typedef unsigned long pthread_t;
static inline int pthread_attr_init(pthread_attr_t *attributes) { *attributes = 0; return 0; }
static inline int pthread_attr_setguardsize(pthread_attr_t *attributes, size_t size) { (void)attributes; (void)size; return 0; }
static inline int pthread_attr_destroy(pthread_attr_t *attributes) { (void)attributes; return 0; }
static inline int pthread_create(pthread_t *thread, pthread_attr_t *attributes, void *(*run)(void *), void *with)
{
	(void)thread;
	(void)attributes;
	(void)run;
	(void)with;
	return EAGAIN;
}
static inline int pthread_join(pthread_t thread, void **result) { (void)thread; (void)result; return 0; }
static inline int pthread_detach(pthread_t thread) { (void)thread; return 0; }
static inline pthread_t pthread_self(void) { return 1; }
