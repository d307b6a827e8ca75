/* What tools/fromc knows of <unistd.h>. The calls are built in. */
unsigned sleep(unsigned);
int usleep(unsigned);
long syscall(long, ...);
