/* What tools/fromc knows of <assert.h>. Without NDEBUG the call is built in. */
#undef assert
#ifdef NDEBUG
#define assert(condition) ((void)0)
#else
void assert(_Bool);
#endif
#ifndef static_assert
#define static_assert _Static_assert
#endif
