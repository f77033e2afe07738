/* DPDK's interpreter (rte_bpf_exec of the package libdpdk-dev) over two of the loops of tests/speed.sh. Part of no program. Takes the number of
 * millions of steps, and prints nanoseconds a step, the best of five rounds. Its programs end by themselves: it knows no limit of steps. */
#include <rte_bpf.h>
#include <stdint.h>
#include <stdio.h>
#include <stdlib.h>
#include <time.h>

#define ADD_K(r, n) {.code = 0x07, .dst_reg = r, .imm = n}
#define MOV_K(r, n) {.code = 0xb7, .dst_reg = r, .imm = n}
#define JLT_K(r, n, to) {.code = 0xa5, .dst_reg = r, .off = to, .imm = n}
#define LOAD(r, base, at) {.code = 0x79, .dst_reg = r, .src_reg = base, .off = at}
#define STORE(base, at, r) {.code = 0x7b, .dst_reg = base, .src_reg = r, .off = at}
#define EXIT {.code = 0x95}

/* The nanoseconds a step of a program that takes so many steps. DPDK's loader refuses loops, its interpreter doesn't: what it is given begins with
 * what the loader would have been given, and it reads no more of it than the instructions. */
static double nanoseconds(const struct ebpf_insn *program, uint32_t count, double steps) {
    union {
        struct rte_bpf_prm prm;
        char room[4096];
    } loaded = {.prm = {.ins = program, .nb_ins = count, .prog_arg = {.type = RTE_BPF_ARG_RAW, .size = 8}}};
    struct timespec from, to;
    uint64_t context = 0;
    clock_gettime(CLOCK_MONOTONIC, &from);
    uint64_t answer = rte_bpf_exec((const struct rte_bpf *)&loaded, &context);
    clock_gettime(CLOCK_MONOTONIC, &to);
    if (answer * 2 != steps) {
        fputs("dpdk: another number of turns than is timed\n", stderr);
        exit(1);
    }
    return ((to.tv_sec - from.tv_sec) * 1e9 + (to.tv_nsec - from.tv_nsec)) / steps;
}

int main(int count, char **words) {
    uint64_t millions = count > 1 ? strtoull(words[1], 0, 10) : 1;
    double best[2] = {1e9, 1e9};
    if (millions < 1 || millions > 1000) {
        fputs("dpdk: takes a number of millions of steps, 1 to 1000\n", stderr);
        return 1;
    }
    int32_t turns = millions * 500000;
    const struct ebpf_insn counting[] = {MOV_K(0, 0), ADD_K(0, 1), JLT_K(0, turns, -2), EXIT};
    const struct ebpf_insn memory[] = {MOV_K(0, 0), STORE(10, -8, 0), LOAD(0, 10, -8), ADD_K(0, 2), STORE(10, -8, 0), JLT_K(0, turns, -4), EXIT};
    for (int round = 0; round < 5; round++) {
        double a = nanoseconds(counting, 4, 2.0 * turns), b = nanoseconds(memory, 7, 2.0 * turns);
        if (a < best[0]) best[0] = a;
        if (b < best[1]) best[1] = b;
    }
    printf("counting loop, DPDK: %.1f ns a step\nmemory loop, DPDK: %.1f ns a step\n", best[0], best[1]);
    return 0;
}
