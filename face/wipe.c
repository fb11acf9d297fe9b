/* What a proved call has left of a password, on the stack and in registers, is wiped here. Memory is wiped by memory.c. */
#include <errno.h>
#include <string.h>
#include <sys/random.h>

#include "face.h"

/* Its frame lies where those of the proved call lay. */
__attribute__((noinline, noclone)) static void wipe_stack(void)
{
    uint8_t frame[FACE_STACK];
    explicit_bzero(frame, sizeof frame);
}

/* All vector registers: memcpy of the C library uses the upper ones too, which a compiler never clears. */
__attribute__((noinline, noclone, zero_call_used_regs("all"))) static void wipe_registers(void)
{
#if defined __x86_64__
    if (__builtin_cpu_supports("avx512f"))
        __asm__ volatile("vzeroall\n\t"
                         "vpxord %zmm16, %zmm16, %zmm16\n\tvpxord %zmm17, %zmm17, %zmm17\n\tvpxord %zmm18, %zmm18, %zmm18\n\t"
                         "vpxord %zmm19, %zmm19, %zmm19\n\tvpxord %zmm20, %zmm20, %zmm20\n\tvpxord %zmm21, %zmm21, %zmm21\n\t"
                         "vpxord %zmm22, %zmm22, %zmm22\n\tvpxord %zmm23, %zmm23, %zmm23\n\tvpxord %zmm24, %zmm24, %zmm24\n\t"
                         "vpxord %zmm25, %zmm25, %zmm25\n\tvpxord %zmm26, %zmm26, %zmm26\n\tvpxord %zmm27, %zmm27, %zmm27\n\t"
                         "vpxord %zmm28, %zmm28, %zmm28\n\tvpxord %zmm29, %zmm29, %zmm29\n\tvpxord %zmm30, %zmm30, %zmm30\n\t"
                         "vpxord %zmm31, %zmm31, %zmm31");
    else if (__builtin_cpu_supports("avx"))
        __asm__ volatile("vzeroall");
#endif
}

void face_wipe(void)
{
    wipe_stack();
    wipe_registers();
}

bool face_draw(uint8_t *bytes, size_t count)
{
    int before = errno;
    ssize_t drawn;
    do {
        drawn = getrandom(bytes, count, 0);
    } while (drawn < 0 && errno == EINTR);
    if (drawn < 0)
        return false;
    errno = (size_t)drawn == count ? before : EIO;
    return (size_t)drawn == count;
}
