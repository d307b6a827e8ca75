/* What tools/fromc knows of <xmmintrin.h>. */
#ifndef FROM_C_XMMINTRIN_H
#define FROM_C_XMMINTRIN_H
#define _mm_pause() __builtin_ia32_pause()
#define _mm_sfence() __atomic_thread_fence(__ATOMIC_RELEASE)
#endif
