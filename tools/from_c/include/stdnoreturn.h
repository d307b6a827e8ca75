/* <stdnoreturn.h> */
#ifndef FROM_C_STDNORETURN_H
#define FROM_C_STDNORETURN_H
#define noreturn _Noreturn
#endif
