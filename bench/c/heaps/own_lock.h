/* The mutex of a heap by the calls of TLSF 2.4: with -DTLSF_USE_LOCKS=1 the calls of the one pool that was opened last are under it, as they
 * are in TLSF 2.4. */
#if TLSF_USE_LOCKS
#include <pthread.h>
static pthread_mutex_t own_lock = PTHREAD_MUTEX_INITIALIZER;
#define ACQUIRE pthread_mutex_lock(&own_lock)
#define LEAVE pthread_mutex_unlock(&own_lock)
#else
#define ACQUIRE ((void)0)
#define LEAVE ((void)0)
#endif
