/* The same work as a plain loop, to measure beside jet: it replays the guest of this folder twice, the second time
 * with a label per register lane and byte of memory, and prints where each written byte came from. It knows just the
 * instructions that the guest has, keeps one label and no sets, and checks nothing. */
#include <stdint.h>
#include <stdio.h>
#include <stdlib.h>
#include <string.h>

enum { BASE = 0xf000, SIZE = 6 * 4096 };
static uint8_t memory[SIZE];
static uint32_t x[32], label[SIZE], lane[32][4];

static uint32_t word(uint32_t a)
{
    uint32_t w;
    memcpy(&w, memory + a - BASE, 4);
    return w;
}

static void run(const uint8_t *input, int taint)
{
    uint32_t pc = 0x10000;
    for (;;) {
        uint32_t w = word(pc), rd = w >> 7 & 31, a = w >> 15 & 31, b = w >> 20 & 31, next = pc + 4;
        int32_t imm = (int32_t)w >> 20;
        switch (w & 127) {
        case 0x37: x[rd] = w & 0xfffff000; if (taint) memset(lane[rd], 0, 16); break;
        case 0x13:
            x[rd] = x[a] + imm;
            if (taint) {
                if (imm == 0) memmove(lane[rd], lane[a], 16);
                else { uint32_t l = lane[a][0] | lane[a][1] | lane[a][2] | lane[a][3]; for (int i = 0; i < 4; i++) lane[rd][i] = l; }
            }
            break;
        case 0x33:
            x[rd] = x[a] + x[b];
            if (taint) { uint32_t l = 0; for (int i = 0; i < 4; i++) l |= lane[a][i] | lane[b][i]; for (int i = 0; i < 4; i++) lane[rd][i] = l; }
            break;
        case 0x03:
            x[rd] = memory[x[a] + imm - BASE];
            if (taint) { memset(lane[rd], 0, 16); lane[rd][0] = label[x[a] + imm - BASE]; }
            break;
        case 0x23: {
            uint32_t p = x[a] + ((int32_t)(w & 0xfe000000) >> 20 | (int32_t)rd) - BASE;
            memory[p] = x[b];
            if (taint) label[p] = lane[b][0];
            break;
        }
        case 0x63: {
            uint32_t to = pc + (((int32_t)w >> 31) << 12 | (w >> 7 & 1) << 11 | (w >> 25 & 63) << 5 | (w >> 8 & 15) << 1);
            if (x[a] != x[b]) next = to;
            break;
        }
        case 0x73:
            if (x[17] == 93) return;
            for (uint32_t i = 0; i < x[12]; i++) {
                uint32_t p = x[11] + i - BASE;
                if (x[17] == 63) { memory[p] = input[i]; label[p] = i + 1; }
                else if (taint && label[p]) printf("1:%u 0:%u\n", i, label[p] - 1);
            }
            x[10] = x[12];
            break;
        default: abort();
        }
        x[0] = 0;
        pc = next;
    }
}

int main(void)
{
    static uint8_t file[65536], log[65536];
    size_t n = fread(file, 1, sizeof file, fopen("prog", "rb"));
    if (!fread(log, 1, sizeof log, fopen("log", "rb"))) return 1;
    for (int taint = 0; taint < 2; taint++) {
        memset(memory, 0, SIZE);
        memset(x, 0, sizeof x);
        memcpy(memory, file, n > 0x107c ? 0x107c : n);
        run(log + 48 + 21, taint);
    }
    printf("end 4096\n");
    return 0;
}
