/* The same rounds with lwIP's pbufs: a chain of 1,500 octets in POOL is made, gets a second owner, is cut, and is given up twice.
   The word is how many chains; it prints the nanoseconds, and how many pbufs ended. */
#include <stdio.h>
#include <stdlib.h>
#include <string.h>
#include <time.h>
#include "lwip/mem.h"
#include "lwip/memp.h"
#include "lwip/pbuf.h"
#include "lwip/sys.h"

static u8_t octets[1500];

int main(int count, char **words) {
  unsigned long chains = count > 1 ? strtoul(words[1], NULL, 10) : 1, ended = 0;
  struct timespec start, end;
  memset(octets, 0xa5, sizeof octets);
#ifdef THREADS
  sys_init();
#endif
  mem_init();
  memp_init();
  clock_gettime(CLOCK_MONOTONIC, &start);
  for (unsigned long i = 0; i < chains; i++) {
    struct pbuf *p = pbuf_alloc(PBUF_RAW, sizeof octets, PBUF_POOL);
    if (p == NULL) return 1;
    pbuf_take(p, octets, sizeof octets);
    pbuf_ref(p);
    pbuf_remove_header(p, 40);
    ended += pbuf_free(p);
    ended += pbuf_free(p);
  }
  clock_gettime(CLOCK_MONOTONIC, &end);
  printf("%lld %lu\n", (end.tv_sec - start.tv_sec) * 1000000000LL + end.tv_nsec - start.tv_nsec, ended);
  return 0;
}
