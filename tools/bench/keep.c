#include <stddef.h>
#include <stdbool.h>
bool bench_order(bool big) { return big; }
size_t bench_length(size_t length) { return length; }
void bench_keep(unsigned char *bytes, size_t length) { (void)bytes; (void)length; }
