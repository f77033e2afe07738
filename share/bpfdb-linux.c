/* Linux's helpers and kinds of maps, as functions of BPF: `bpfdb link --with bpfdb-linux.o` links a program with those
   that it calls. docs/LINUX.md says what each does, and where Linux does otherwise.

     clang -target bpf -mcpu=v3 -O2 -g -c bpfdb-linux.c -o bpfdb-linux.o

   With -DBPFDB_PART=NAME the object is a part of the library: the helper NAME, and what that calls. bpfdb joins parts
   where it joins the library by itself (docs/LINUX.md).

   What it keeps lies in six maps of the machine: `.data.world` with the world and where the heap has got to, three maps
   of heap, `.bss.output`, `.data.network`; a program has those that it reaches. What helpers have in common is inlined,
   but for what is long and seldom called (SHARED): so a helper takes one of the machine's eight frames, or two.

   The machine needs no alignment: where bytes are read eight at a time, they may lie anywhere. */
#include "bpfdb-linux.h"
#include "bpfdb-linux/base.h"
#include "bpfdb-linux/heap.h"
#include "bpfdb-linux/nodes.h"
#include "bpfdb-linux/tables.h"
#include "bpfdb-linux/tries.h"
#include "bpfdb-linux/output.h"
#include "bpfdb-linux/packet.h"
#include "bpfdb-linux/network.h"

#include "bpfdb-linux/maps.c"
#include "bpfdb-linux/queues.c"
#include "bpfdb-linux/reads.c"
#include "bpfdb-linux/world.c"
#include "bpfdb-linux/events.c"
#include "bpfdb-linux/texts.c"
#include "bpfdb-linux/stacks.c"
#include "bpfdb-linux/packets.c"
#include "bpfdb-linux/sums.c"
#include "bpfdb-linux/storage.c"
#include "bpfdb-linux/numbers.c"
#include "bpfdb-linux/dynptrs.c"
#include "bpfdb-linux/headers.c"
#include "bpfdb-linux/interfaces.c"
#include "bpfdb-linux/tunnels.c"
#include "bpfdb-linux/sockets.c"
#if HAS_DATA
#include "bpfdb-linux/differs.c"
#endif

#ifdef BPFDB_PART
extern __typeof__(BPFDB_PART) BPFDB_PART;
#endif
#ifdef BPFDB_SHARED
/* (clang calls these by itself) */
extern __typeof__(memcmp) memcmp;
extern __typeof__(memcpy) memcpy;
extern __typeof__(memmove) memmove;
extern __typeof__(memset) memset;
#endif
