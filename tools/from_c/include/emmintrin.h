/* What tools/fromc knows of <emmintrin.h>. */
#include <xmmintrin.h>
#define _mm_mfence() __atomic_thread_fence(__ATOMIC_SEQ_CST)
#define _mm_lfence() __atomic_thread_fence(__ATOMIC_ACQUIRE)
