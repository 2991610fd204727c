/* stack FILE: how many bytes of the stack the functions of the library use, the most over the records in FILE, from the call on, the return
   address among them. FILE has of each record a byte with its length, and its bytes. The functions run on a stack of their own, painted
   before each call; the deepest byte that has another colour then tells. For x86-64, gcc or clang at -O2, with which the four functions
   below jump on and use none themselves. */
#include <stdio.h>
#include <string.h>

#include "yurbantse.h"

#define ROOM 65536
#define PAINT 0xA5

static uint8_t file[1 << 20], painted[ROOM] __attribute__((aligned(64))), text[YURBANTSE_CARD_MOST];
static const uint8_t *record;
static size_t length;

static void card(void) { yurbantse_card(record, length, text, sizeof text); }
static void planing(void) { yurbantse_planing(record, length); }
static void refusal(void) { yurbantse_refusal(255, text, sizeof text); }
static void version(void) { yurbantse_version(); }

/* Calls f with the stack pointer at `top`. */
static void call_on(uint8_t *top, void (*f)(void))
{
    __asm__ volatile("movq %%rsp, %%rbx\n\tmovq %0, %%rsp\n\tcall *%1\n\tmovq %%rbx, %%rsp"
                     :
                     : "r"(top), "r"(f)
                     : "rbx", "rax", "rcx", "rdx", "rsi", "rdi", "r8", "r9", "r10", "r11", "memory", "cc", "xmm0", "xmm1", "xmm2", "xmm3",
                       "xmm4", "xmm5", "xmm6", "xmm7", "xmm8", "xmm9", "xmm10", "xmm11", "xmm12", "xmm13", "xmm14", "xmm15");
}

static size_t used_by(void (*f)(void))
{
    memset(painted, PAINT, sizeof painted);
    call_on(painted + sizeof painted, f);
    size_t at = 0;
    while (at < sizeof painted && painted[at] == PAINT)
        at++;
    return sizeof painted - at;
}

int main(int count, char **words)
{
    FILE *in = count > 1 ? fopen(words[1], "rb") : NULL;
    if (in == NULL)
        return 2;
    size_t end = fread(file, 1, sizeof file, in), most[4] = {0, 0, 0, 0};
    void (*calls[4])(void) = {card, planing, refusal, version};
    for (size_t at = 0; at < end; at += 1 + file[at]) {
        record = file + at + 1;
        length = file[at];
        for (int i = 0; i < 4; i++) {
            size_t used = used_by(calls[i]);
            most[i] = used > most[i] ? used : most[i];
        }
    }
    printf("yurbantse_card %zu\nyurbantse_planing %zu\nyurbantse_refusal %zu\nyurbantse_version %zu\n", most[0], most[1], most[2], most[3]);
    return 0;
}
