/* <stdalign.h> */
#ifndef FROM_C_STDALIGN_H
#define FROM_C_STDALIGN_H
#define alignas _Alignas
#define alignof _Alignof
#endif
