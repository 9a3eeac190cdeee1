// The switch interpreter of ../hart/hart.c over an image of a serial build, with the services of the environment. The image
// is in program.h, and INPUT, an array of COUNT numbers, too.
#define main hart_main
#include "../hart/hart.c"
#undef main

#ifndef MAIN_INDEX
#define MAIN_INDEX 0
#endif

int main(void) {
    mem = calloc(N, 4);
    uint32_t count = sizeof program / 4;
    struct hart h = {0};
    uint64_t steps = 0;
    h.x[2] = TOP;
    h.x[3] = 4 * N;
    h.x[4] = 10000000;
    h.pc = 8 + 4 * MAIN_INDEX;
    for (;;) {
        int halt = step(&h, program, count);
        steps++;
        if (halt == GOING) continue;
        if (halt != SERVICE) return 99;
        switch (h.x[31]) {
        case 0: printf("value %d\nsteps %llu\n", (int32_t)h.x[10], (unsigned long long)steps); return 0;
        case 1: printf("%d\n", (int32_t)h.x[5]); break;
        case 2: if (h.x[5] >= COUNT) { printf("trap input\n"); return 3; } h.x[5] = input[h.x[5]]; break;
        case 3: h.x[5] = COUNT; break;
        case 6: printf("budget\nsteps %llu\n", (unsigned long long)steps); return 4;
        default: printf("trap %u\nsteps %llu\n", h.x[31], (unsigned long long)steps); return 3;
        }
        h.pc += 4;
    }
}
