// A switch interpreter of RV32IM over instructions that were decoded before, with the faults of the hart, the stack of a
// serial run and the services of the environment. The image is in program.h, and INPUT, an array of COUNT numbers, too.
#include <stdint.h>
#include <stdio.h>
#include <stdlib.h>
#include "program.h"

#ifndef MAIN_INDEX
#define MAIN_INDEX 0
#endif

#define TOP 0x40000000u
#define N 65536u

enum op {
    NONE, LUI, AUIPC, JAL, JALR, BEQ, BNE, BLT, BGE, BLTU, BGEU, LB, LH, LW, LBU, LHU, SB, SH, SW,
    ADDI, SLTI, SLTIU, XORI, ORI, ANDI, SLLI, SRLI, SRAI, ADD, SUB, SLL, SLT, SLTU, XOR, SRL, SRA, OR, AND,
    MUL, MULH, MULHSU, MULHU, DIV, DIVU, REM, REMU, FENCE, ECALL, EBREAK
};
struct instr { uint8_t op, rd, rs1, rs2; int32_t imm; };
enum halt { GOING, SERVICE, FAULT };
struct hart { uint32_t x[32]; uint32_t pc; };

static struct instr decode(uint32_t w) {
    static const uint8_t branches[8] = { BEQ, BNE, NONE, NONE, BLT, BGE, BLTU, BGEU };
    static const uint8_t loads[8] = { LB, LH, LW, NONE, LBU, LHU, NONE, NONE };
    static const uint8_t stores[8] = { SB, SH, SW };
    static const uint8_t sums[8] = { ADD, SLL, SLT, SLTU, XOR, SRL, OR, AND };
    static const uint8_t products[8] = { MUL, MULH, MULHSU, MULHU, DIV, DIVU, REM, REMU };
    static const uint8_t immediates[8] = { ADDI, SLLI, SLTI, SLTIU, XORI, SRLI, ORI, ANDI };
    uint32_t f3 = w >> 12 & 7, f7 = w >> 25;
    struct instr i = { NONE, w >> 7 & 31, w >> 15 & 31, w >> 20 & 31, (int32_t)w >> 20 };
    switch (w & 127) {
    case 0x37: i.op = LUI; i.imm = w & 0xfffff000; break;
    case 0x17: i.op = AUIPC; i.imm = w & 0xfffff000; break;
    case 0x6f: i.op = JAL; i.imm = ((int32_t)w >> 31 << 20) | (w & 0xff000) | (w >> 9 & 0x800) | (w >> 20 & 0x7fe); break;
    case 0x67: i.op = f3 ? NONE : JALR; break;
    case 0x63: i.op = branches[f3]; i.imm = ((int32_t)w >> 31 << 12) | (w << 4 & 0x800) | (w >> 20 & 0x7e0) | (w >> 7 & 0x1e); break;
    case 0x03: i.op = loads[f3]; break;
    case 0x23: i.op = stores[f3]; i.imm = ((int32_t)w >> 25 << 5) | (w >> 7 & 31); break;
    case 0x13:
        i.op = immediates[f3];
        if (f3 == 1 && f7) i.op = NONE;
        if (f3 == 5) { i.op = f7 == 0 ? SRLI : f7 == 0x20 ? SRAI : NONE; i.imm &= 31; }
        break;
    case 0x33:
        if (f7 == 0) i.op = sums[f3];
        if (f7 == 1) i.op = products[f3];
        if (f7 == 0x20 && f3 == 0) i.op = SUB;
        if (f7 == 0x20 && f3 == 5) i.op = SRA;
        break;
    case 0x0f: i.op = f3 ? NONE : FENCE; break;
    case 0x73: i.op = w == 0x73 ? ECALL : w == 0x100073 ? EBREAK : NONE; break;
    }
    return i;
}

static int show(uint32_t a, uint32_t *place) {
    uint32_t low = TOP - 4 * N;
    if (a < low || a >= TOP) return 0;
    *place = (a - low) / 4;
    return 1;
}

static inline enum halt step(struct hart *h, uint32_t *mem, const struct instr *code, uint32_t count) {
    uint32_t pc = h->pc;
    if (pc % 4 != 0 || pc / 4 >= count) return FAULT;
    const struct instr *i = &code[pc / 4];
    uint32_t a = h->x[i->rs1], b = h->x[i->rs2], imm = i->imm, value, next = pc + 4, ad = a + imm, place, taken;
    switch (i->op) {
    case LUI: value = imm; break;
    case AUIPC: value = pc + imm; break;
    case JAL: next = pc + imm; if (next % 4) return FAULT; value = pc + 4; break;
    case JALR: next = ad & ~1u; if (next % 4) return FAULT; value = pc + 4; break;
    case BEQ: taken = a == b; goto branch;
    case BNE: taken = a != b; goto branch;
    case BLT: taken = (int32_t)a < (int32_t)b; goto branch;
    case BGE: taken = (int32_t)a >= (int32_t)b; goto branch;
    case BLTU: taken = a < b; goto branch;
    case BGEU: taken = a >= b; goto branch;
    branch:
        if (taken) { next = pc + imm; if (next % 4) return FAULT; }
        h->pc = next;
        return GOING;
    case LB: if (!show(ad, &place)) return FAULT; value = (int32_t)(int8_t)(mem[place] >> 8 * (ad & 3)); break;
    case LBU: if (!show(ad, &place)) return FAULT; value = mem[place] >> 8 * (ad & 3) & 0xff; break;
    case LH: if (ad % 2 || !show(ad, &place)) return FAULT; value = (int32_t)(int16_t)(mem[place] >> 8 * (ad & 3)); break;
    case LHU: if (ad % 2 || !show(ad, &place)) return FAULT; value = mem[place] >> 8 * (ad & 3) & 0xffff; break;
    case LW: if (ad % 4 || !show(ad, &place)) return FAULT; value = mem[place]; break;
    case SB: if (!show(ad, &place)) return FAULT; ((uint8_t *)&mem[place])[ad & 3] = b; h->pc = next; return GOING;
    case SH: if (ad % 2 || !show(ad, &place)) return FAULT; ((uint16_t *)&mem[place])[ad >> 1 & 1] = b; h->pc = next; return GOING;
    case SW: if (ad % 4 || !show(ad, &place)) return FAULT; mem[place] = b; h->pc = next; return GOING;
    case ADDI: value = a + imm; break;
    case SLTI: value = (int32_t)a < (int32_t)imm; break;
    case SLTIU: value = a < imm; break;
    case XORI: value = a ^ imm; break;
    case ORI: value = a | imm; break;
    case ANDI: value = a & imm; break;
    case SLLI: value = a << (imm & 31); break;
    case SRLI: value = a >> (imm & 31); break;
    case SRAI: value = (int32_t)a >> (imm & 31); break;
    case ADD: value = a + b; break;
    case SUB: value = a - b; break;
    case SLL: value = a << (b & 31); break;
    case SLT: value = (int32_t)a < (int32_t)b; break;
    case SLTU: value = a < b; break;
    case XOR: value = a ^ b; break;
    case SRL: value = a >> (b & 31); break;
    case SRA: value = (int32_t)a >> (b & 31); break;
    case OR: value = a | b; break;
    case AND: value = a & b; break;
    case MUL: value = a * b; break;
    case MULH: value = (int64_t)(int32_t)a * (int32_t)b >> 32; break;
    case MULHSU: value = (int64_t)(int32_t)a * (int64_t)(uint64_t)b >> 32; break;
    case MULHU: value = (uint64_t)a * b >> 32; break;
    case DIV: value = b == 0 ? ~0u : a == 0x80000000u && b == ~0u ? a : (uint32_t)((int32_t)a / (int32_t)b); break;
    case DIVU: value = b == 0 ? ~0u : a / b; break;
    case REM: value = b == 0 ? a : a == 0x80000000u && b == ~0u ? 0 : (uint32_t)((int32_t)a % (int32_t)b); break;
    case REMU: value = b == 0 ? a : a % b; break;
    case FENCE: h->pc = next; return GOING;
    case ECALL: return SERVICE;
    default: return FAULT;
    }
    if (i->rd) h->x[i->rd] = value;
    h->pc = next;
    return GOING;
}

int main(void) {
    uint32_t *mem = calloc(N, 4);
    uint32_t count = sizeof program / 4;
    struct instr *code = malloc(count * sizeof *code);
    for (uint32_t k = 0; k < count; k++) code[k] = decode(program[k]);
    struct hart h = {0};
    uint64_t steps = 0;
    h.x[2] = TOP;
    h.x[3] = 4 * N;
    h.x[4] = 10000000;
    h.pc = 8 + 4 * MAIN_INDEX;
    for (;;) {
        enum halt halt = step(&h, mem, code, count);
        steps++;
        if (halt == GOING) continue;
        if (halt != SERVICE) return 99;
        switch (h.x[31]) {
        case 0: printf("value %d\nsteps %llu\n", (int32_t)h.x[10], (unsigned long long)steps); return 0;
        case 1: printf("%d\n", (int32_t)h.x[5]); break;
        case 2: if (h.x[5] >= COUNT) { printf("trap input\n"); return 3; } h.x[5] = input[h.x[5]]; break;
        case 3: h.x[5] = COUNT; break;
        case 6: printf("budget\nsteps %llu\n", (unsigned long long)steps); return 4;
        default: printf("trap %u\nsteps %llu\n", h.x[31], (unsigned long long)steps); return 3;
        }
        h.pc += 4;
    }
}
