/* A driver in C whose DriverEntry calls some of the functions that docs/IMPORTS.md lists, and
 * looks at what they answer. `examples/build-entry.sh entry.sys` builds it with MinGW's compiler,
 * and `run0 entry.sys entry.log` runs it. It needs no header of a DDK: the prototypes below have
 * the words and the conventions of the table in docs/IMPORTS.md.
 *
 * DriverEntry returns 0 where each answer is as that page says. Else it returns 0xE0000000 and
 * the number of the first step that went otherwise; the log's last line, `leave`, shows it.
 */

#define IMPORT __declspec(dllimport)

typedef int NTSTATUS;
typedef unsigned char UCHAR;
typedef unsigned short USHORT;
typedef unsigned int ULONG;

/* NDIS_SPIN_LOCK: eight bytes on x86. */
typedef struct { ULONG lock; ULONG level; } SpinLock;

/* NDIS.SYS: the callee takes its words off the stack. */
IMPORT NTSTATUS __stdcall NdisAllocateMemoryWithTag(void **address, ULONG length, ULONG tag);
IMPORT void __stdcall NdisFreeMemory(void *address, ULONG length, ULONG flags);
IMPORT void __stdcall NdisMSleep(ULONG microseconds);
IMPORT void __stdcall NdisAllocateSpinLock(SpinLock *lock);
IMPORT void __stdcall NdisAcquireSpinLock(SpinLock *lock);
IMPORT void __stdcall NdisReleaseSpinLock(SpinLock *lock);
IMPORT void __stdcall NdisFreeSpinLock(SpinLock *lock);

/* HAL.dll: ports, and levels, whose one word stands in a register. */
IMPORT UCHAR __stdcall READ_PORT_UCHAR(ULONG port);
IMPORT USHORT __stdcall READ_PORT_USHORT(ULONG port);
IMPORT void __stdcall KeStallExecutionProcessor(ULONG microseconds);
IMPORT UCHAR __fastcall KfRaiseIrql(UCHAR level);
IMPORT void __fastcall KfLowerIrql(UCHAR level);

/* ntoskrnl.exe: the caller takes the words off. */
IMPORT void *__cdecl memset(void *to, int value, ULONG count);
IMPORT void *__cdecl memcpy(void *to, const void *from, ULONG count);
IMPORT ULONG __cdecl DbgPrint(const char *format, ...);

enum { BLOCK = 256, TAG = 0x6F6D6544, PORT = 0x300, PASSIVE_LEVEL = 0, DISPATCH_LEVEL = 2 };

/* A word that holds an address: the image is moved, so this is one of its relocations. */
static const char *volatile greeting = "entry.c: step %u\n";

/* One block of memory: filled, read again, and its first half copied over its second. */
static int memory_keeps_bytes(UCHAR *block)
{
    ULONG sum = 0;

    if (memset(block, 0x5A, BLOCK) != block)
        return 0;
    for (ULONG i = 0; i < BLOCK / 2; i++)
        block[i] = (UCHAR)i;
    memcpy(block + BLOCK / 2, block, BLOCK / 2);
    for (ULONG i = 0; i < BLOCK; i++)
        sum += block[i];
    return sum == 2 * (127 * 128 / 2);
}

/* With no adapter no card answers, so that a port reads all ones. */
static int ports_are_empty(void)
{
    return READ_PORT_UCHAR(PORT) == 0xFF && READ_PORT_USHORT(PORT + 0x10) == 0xFFFF;
}

/* Up to DISPATCH_LEVEL and down again, by hand and then by a lock. */
static int levels_come_back(void)
{
    SpinLock lock;
    UCHAR old = KfRaiseIrql(DISPATCH_LEVEL);
    UCHAR raised;

    KeStallExecutionProcessor(20);
    KfLowerIrql(old);

    NdisAllocateSpinLock(&lock);
    NdisAcquireSpinLock(&lock);
    raised = KfRaiseIrql(DISPATCH_LEVEL);
    NdisReleaseSpinLock(&lock);
    NdisFreeSpinLock(&lock);
    return old == PASSIVE_LEVEL && raised == DISPATCH_LEVEL;
}

NTSTATUS __stdcall DriverEntry(void *driver_object, void *registry_path)
{
    void *block = 0;
    ULONG bad = 0;

    (void)driver_object;
    (void)registry_path;
    if (NdisAllocateMemoryWithTag(&block, BLOCK, TAG) != 0 || block == 0)
        return (NTSTATUS)0xE0000001;
    if (!memory_keeps_bytes(block))
        bad = 2;
    else if (!ports_are_empty())
        bad = 3;
    else if (!levels_come_back())
        bad = 4;
    DbgPrint(greeting, bad);
    NdisMSleep(50);
    NdisFreeMemory(block, BLOCK, 0);
    return bad == 0 ? 0 : (NTSTATUS)(0xE0000000 + bad);
}
