/* <stdbool.h> */
#ifndef FROM_C_STDBOOL_H
#define FROM_C_STDBOOL_H
#define bool _Bool
#define true 1
#define false 0
#endif
