/* A program for rv32i to disassemble: it has each of the forty instructions at least once.
   compare_objdump.sh and bench_decode.sh compile it. */

typedef unsigned char u8;
typedef unsigned short u16;
typedef unsigned int u32;
typedef signed char i8;
typedef signed short i16;
typedef signed int i32;

struct record {
    i8 tag;
    u8 flags;
    i16 delta;
    u16 size;
    i32 total;
    struct record *next;
};

static u32 table[256];
volatile u32 sink;

static void fill_table(void) {
    for (u32 i = 0; i < 256; i++) {
        u32 c = i;
        for (int k = 0; k < 8; k++)
            c = c & 1 ? 0xedb88320u ^ (c >> 1) : c >> 1;
        table[i] = c;
    }
}

u32 checksum(const u8 *bytes, u32 length) {
    u32 c = ~0u;
    fill_table();
    for (u32 i = 0; i < length; i++)
        c = table[(c ^ bytes[i]) & 0xff] ^ (c >> 8);
    return ~c;
}

void sort(i32 *items, i32 count) {
    for (i32 i = 1; i < count; i++) {
        i32 item = items[i];
        i32 k = i;
        while (k > 0 && items[k - 1] > item) {
            items[k] = items[k - 1];
            k--;
        }
        items[k] = item;
    }
}

i32 walk(struct record *r) {
    i32 sum = 0;
    for (; r; r = r->next) {
        if (r->flags & 4)
            sum += r->tag - r->delta;
        else if (r->size > 1000u)
            sum -= r->total >> 3;
        else
            sum ^= (i32)(r->size << 7) | 0x55;
        r->total = sum;
        r->size = (u16)sum;
        r->flags = (u8)(sum >> 4);
    }
    return sum;
}

u32 product(u32 a, u32 b) {
    u32 p = 0;
    while (b) {
        if (b & 1)
            p += a;
        a <<= 1;
        b >>= 1;
    }
    return p;
}

i32 compared(i32 a, i32 b, u32 c, u32 d) {
    return (a < b) + (c < d) + (a < 7) + (c < 9u) + (a >> (b & 31)) + (i32)(c >> (d & 31)) + (a << (b & 31));
}

int apply(int (*f)(int), int n) {
    return f(n) + f(n + 1);
}

void each_instruction(void) {
    __asm__ volatile(
        "lui t0, 0xfffff\n auipc t1, 0x12345\n"
        "slti t2, t0, -5\n sltiu t3, t1, 2047\n xori t4, t5, -2048\n ori t6, s11, 1365\n andi s10, s9, -1\n"
        "slli s8, s7, 31\n srli s6, s5, 1\n srai s4, s3, 17\n addi s2, a7, 0\n"
        "add a6, a5, a4\n sub a3, a2, a1\n sll a0, tp, gp\n slt t0, t1, t2\n sltu t0, t1, t2\n"
        "xor t0, t1, t2\n srl t0, t1, t2\n sra t0, t1, t2\n or t0, t1, t2\n and t0, t1, t2\n"
        "lb t0, -1(sp)\n lh t0, -2048(sp)\n lw t0, 2047(sp)\n lbu t0, 0(s0)\n lhu t0, 6(ra)\n"
        "sb t0, -1(sp)\n sh t0, -2048(sp)\n sw t0, 2047(sp)\n"
        "1: beq t0, t1, 1b\n bne t0, t1, 1b\n blt t0, t1, 2f\n bge t0, t1, 2f\n 2: bltu t0, t1, 1b\n bgeu t0, t1, 2b\n"
        "jal t0, 1b\n jal zero, 2b\n jalr t0, -8(t1)\n jalr zero, 4(t1)\n"
        "fence\n fence rw, w\n ecall\n ebreak\n");
}

int main(void) {
    static i32 items[16] = {3, -1, 4, 1, -5, 9, 2, 6};
    struct record last = {-1, 4, 5, 6, 7, 0};
    struct record first = {1, 0, 3, 2000, 5, &last};
    sort(items, 16);
    sink = checksum((const u8 *)items, sizeof items) + product(12345, 678);
    sink += (u32)walk(&first) + (u32)compared(items[0], items[1], sink, 5);
    each_instruction();
    return (int)sink;
}
