// A switch interpreter of RV32IM that decodes each word, with the faults of the hart.
#include <stdint.h>
#include <stdio.h>
#include <stdlib.h>
#include <string.h>
#include "program.h"
#define TOP 0x40000000u
#define N 65536u
static uint32_t *mem;
enum { GOING, SERVICE, PAGE, FAULT };
struct hart { uint32_t x[32]; uint32_t pc; };
static int show(uint32_t a, uint32_t *place) {
    uint32_t low = TOP - 4 * N;
    if (a < low || a >= TOP) return 0;
    *place = (a - low) / 4;
    return 1;
}
static inline int step(struct hart *h, const uint32_t *image, uint32_t count) {
    uint32_t pc = h->pc;
    if (pc % 4 != 0 || pc / 4 >= count) return FAULT;
    uint32_t w = image[pc / 4];
    uint32_t rd = w >> 7 & 31, f3 = w >> 12 & 7, f7 = w >> 25;
    uint32_t a = h->x[w >> 15 & 31], b = h->x[w >> 20 & 31];
    int32_t i_imm = (int32_t)w >> 20;
    uint32_t value, next = pc + 4, place;
    switch (w & 127) {
    case 0x37: value = w & 0xfffff000; break;
    case 0x17: value = pc + (w & 0xfffff000); break;
    case 0x6f: {
        int32_t d = ((int32_t)w >> 31 << 20) | (w & 0xff000) | (w >> 9 & 0x800) | (w >> 20 & 0x7fe);
        next = pc + d; if (next % 4) return FAULT; value = pc + 4; break; }
    case 0x67: if (f3) return FAULT; next = (a + i_imm) & ~1u; if (next % 4) return FAULT; value = pc + 4; break;
    case 0x63: {
        int32_t d = ((int32_t)w >> 31 << 12) | (w << 4 & 0x800) | (w >> 20 & 0x7e0) | (w >> 7 & 0x1e);
        int t;
        switch (f3) {
        case 0: t = a == b; break; case 1: t = a != b; break;
        case 4: t = (int32_t)a < (int32_t)b; break; case 5: t = (int32_t)a >= (int32_t)b; break;
        case 6: t = a < b; break; case 7: t = a >= b; break; default: return FAULT; }
        if (t) { next = pc + d; if (next % 4) return FAULT; }
        h->pc = next; return GOING; }
    case 0x03: {
        uint32_t ad = a + i_imm;
        switch (f3) {
        case 0: case 4: if (!show(ad, &place)) return FAULT; value = mem[place] >> 8 * (ad & 3) & 0xff; if (f3 == 0) value = (int32_t)(int8_t)value; break;
        case 1: case 5: if (ad % 2 || !show(ad, &place)) return FAULT; value = mem[place] >> 8 * (ad & 3) & 0xffff; if (f3 == 1) value = (int32_t)(int16_t)value; break;
        case 2: if (ad % 4 || !show(ad, &place)) return FAULT; value = mem[place]; break;
        default: return FAULT; }
        break; }
    case 0x23: {
        uint32_t ad = a + (((int32_t)w >> 25 << 5) | (w >> 7 & 31));
        switch (f3) {
        case 0: if (!show(ad, &place)) return FAULT; ((uint8_t *)&mem[place])[ad & 3] = b; break;
        case 1: if (ad % 2 || !show(ad, &place)) return FAULT; { uint32_t s = 8 * (ad & 3); mem[place] = (mem[place] & ~(0xffffu << s)) | (b & 0xffff) << s; } break;
        case 2: if (ad % 4 || !show(ad, &place)) return FAULT; mem[place] = b; break;
        default: return FAULT; }
        h->pc = next; return GOING; }
    case 0x13:
        switch (f3) {
        case 0: value = a + i_imm; break; case 2: value = (int32_t)a < i_imm; break; case 3: value = a < (uint32_t)i_imm; break;
        case 4: value = a ^ i_imm; break; case 6: value = a | i_imm; break; case 7: value = a & i_imm; break;
        case 1: if (f7) return FAULT; value = a << (i_imm & 31); break;
        default: if (f7 == 0) value = a >> (i_imm & 31); else if (f7 == 0x20) value = (int32_t)a >> (i_imm & 31); else return FAULT; }
        break;
    case 0x33:
        switch (f7 << 3 | f3) {
        case 0: value = a + b; break; case 1: value = a << (b & 31); break; case 2: value = (int32_t)a < (int32_t)b; break;
        case 3: value = a < b; break; case 4: value = a ^ b; break; case 5: value = a >> (b & 31); break;
        case 6: value = a | b; break; case 7: value = a & b; break;
        case 0x100: value = a - b; break; case 0x105: value = (int32_t)a >> (b & 31); break;
        case 8: value = a * b; break;
        case 9: value = (int64_t)(int32_t)a * (int32_t)b >> 32; break;
        case 10: value = (int64_t)(int32_t)a * (int64_t)(uint64_t)b >> 32; break;
        case 11: value = (uint64_t)a * b >> 32; break;
        case 12: value = b == 0 ? ~0u : a == 0x80000000u && b == ~0u ? a : (uint32_t)((int32_t)a / (int32_t)b); break;
        case 13: value = b == 0 ? ~0u : a / b; break;
        case 14: value = b == 0 ? a : a == 0x80000000u && b == ~0u ? 0 : (uint32_t)((int32_t)a % (int32_t)b); break;
        case 15: value = b == 0 ? a : a % b; break;
        default: return FAULT; }
        break;
    case 0x0f: if (f3) return FAULT; h->pc = next; return GOING;
    case 0x73: if (w == 0x73) return SERVICE; return FAULT;
    default: return FAULT; }
    if (rd) h->x[rd] = value;
    h->pc = next;
    return GOING;
}
static uint64_t run_one(struct hart *h, const uint32_t *image, uint32_t count) {
    uint64_t steps = 0;
    while (step(h, image, count) == GOING) steps++;
    return steps;
}
int main(int argc, char **argv) {
    mem = calloc(N, 4);
    uint32_t count = sizeof program / 4;
    uint32_t *image = malloc(sizeof program);
    memcpy(image, program, sizeof program);
    struct hart h = {0};
    uint64_t steps = run_one(&h, image, count);
    if (h.x[11] == 12345) { h.pc = 0; steps = run_one(&h, image, count); }
    printf("%llu %u\n", (unsigned long long)steps, h.x[11]);
    return 0;
}
