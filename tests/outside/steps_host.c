/* Runs one instruction a record on this machine's processor, as a 32-bit program without a C library.
 * Standard input: records of 64 bytes: the code's length, 11 bytes of code, EAX ECX EDX EBX EBP ESI EDI, EFLAGS, 16 bytes of memory at
 * DATA + 0x100, ESP. Where the first byte is 0, it is a program: bytes 2 and 3 are its length, and its code is in 2048 bytes behind the
 * record. Standard output: 60 bytes each: whether it faulted, the seven registers, EFLAGS, the 16 bytes, ESP, and whether it
 * went to CODE + 0x80 in place of the next instruction. */
typedef unsigned int word;
typedef unsigned char byte;
#define DATA 0x20000000u
#define CODE 0x30000000u

word before[8], before_flags, after[8], after_flags, own_esp, faulted, taken, back;

static int call_system(int n, int a, int b, int c, int d) {
    int result;
    __asm__ volatile("int $0x80" : "=a"(result) : "a"(n), "b"(a), "c"(b), "d"(c), "S"(d) : "memory");
    return result;
}

void run(void);
void on_fault(void);
__asm__(
    ".globl run\nrun:\n pushal\n movl %esp, own_esp\n movl $behind, back\n pushl before_flags\n popfl\n"
    " movl before, %eax\n movl before+4, %ecx\n movl before+8, %edx\n movl before+12, %ebx\n movl before+16, %ebp\n"
    " movl before+20, %esi\n movl before+24, %edi\n movl before+28, %esp\n jmp 0x30000000\n"
    "behind:\n movl %eax, after\n movl %ecx, after+4\n movl %edx, after+8\n movl %ebx, after+12\n movl %ebp, after+16\n"
    " movl %esi, after+20\n movl %edi, after+24\n movl %esp, after+28\n movl own_esp, %esp\n pushfl\n popl after_flags\n cld\n popal\n ret\n"
    ".globl on_fault\non_fault:\n movl $1, faulted\n movl own_esp, %esp\n cld\n popal\n ret\n");

struct mapping { word address, length, protection, flags; int file; word offset; };
static struct { void *handler; word flags; void *restorer; word mask[2]; } action;
static struct { void *base; int flags; word size; } stack;
static byte record[64], answer[60], room[65536];

static byte program[2048];

static int read_all(byte *at, int size) {
    int count = 0;
    while (count < size) {
        int n = call_system(3, 0, (int)(at + count), size - count, 0);
        if (n <= 0) return 0;
        count += n;
    }
    return 1;
}

static void put_return(byte *at) {
    at[0] = 0xFF; at[1] = 0x25; *(word *)(at + 2) = (word)&back;
}

void _start(void) {
    struct mapping data = {DATA, 0x1000, 3, 0x32, -1, 0}, code = {CODE, 0x1000, 7, 0x32, -1, 0};
    call_system(90, (int)&data, 0, 0, 0);
    call_system(90, (int)&code, 0, 0, 0);
    action.handler = (void *)on_fault;
    stack.base = room; stack.size = sizeof room;
    call_system(186, (int)&stack, 0, 0, 0);
    action.flags = 0x48000000;
    call_system(174, 8, (int)&action, 0, 8);
    byte *d = (byte *)DATA, *c = (byte *)CODE;
    while (read_all(record, 64)) {
        int n = record[0];
        c[0x80] = 0xC7; c[0x81] = 0x05; *(word *)(c + 0x82) = (word)&taken; *(word *)(c + 0x86) = 1;
        put_return(c + 0x8A);
        byte *from = record + 1;
        if (n == 0) {
            n = record[2] + 256 * record[3];
            from = program;
            if (!read_all(program, sizeof program)) break;
        }
        for (int i = 0; i < n; i++) c[i] = from[i];
        put_return(c + n);
        for (int i = 0; i < 7; i++) before[i] = *(word *)(record + 12 + 4 * i);
        before_flags = *(word *)(record + 40);
        before[7] = *(word *)(record + 60);
        for (int i = 0; i < 0x1000; i++) d[i] = 0;
        for (int i = 0; i < 16; i++) d[0x100 + i] = record[44 + i];
        faulted = 0; taken = 0;
        run();
        *(word *)answer = faulted;
        for (int i = 0; i < 7; i++) *(word *)(answer + 4 + 4 * i) = after[i];
        *(word *)(answer + 32) = after_flags;
        for (int i = 0; i < 16; i++) answer[36 + i] = d[0x100 + i];
        *(word *)(answer + 52) = after[7];
        *(word *)(answer + 56) = taken;
        call_system(4, 1, (int)answer, 60, 0);
    }
    call_system(1, 0, 0, 0, 0);
}
