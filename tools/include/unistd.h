/* See stdint.h. */
#include <stddef.h>
typedef long ssize_t;
ssize_t read(int file, void *to, size_t n);
ssize_t write(int file, const void *from, size_t n);
int fsync(int file);
int close(int file);
