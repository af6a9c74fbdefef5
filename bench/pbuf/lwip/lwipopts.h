/* lwIP's pbufs alone, with the sizes that the program has: 256 of POOL, of 512 octets each. No assertions. One thread and no locks; with THREADS, what
   lwIP does where threads share its pbufs: each step on a pool or a count is taken under a lock of its port. */
#ifdef THREADS
#define NO_SYS 0
#define SYS_LIGHTWEIGHT_PROT 1
#define LWIP_TCPIP_CORE_LOCKING 0
#else
#define NO_SYS 1
#define SYS_LIGHTWEIGHT_PROT 0
#endif
#define LWIP_NOASSERT 1
#define LWIP_TCP 0
#define LWIP_UDP 0
#define LWIP_RAW 0
#define LWIP_ICMP 0
#define LWIP_ARP 0
#define LWIP_NETCONN 0
#define LWIP_SOCKET 0
#define LWIP_STATS 0
#define IP_REASSEMBLY 0
#define IP_FRAG 0
#define MEM_ALIGNMENT 8
#define PBUF_POOL_SIZE 256
#define PBUF_POOL_BUFSIZE 512
