/* Players with one fault each, to see that the fuzz target notices it. WRONG, 1 to 16, chooses the
 * fault; the linker puts these in place of the library's functions (--wrap). */
#include <math.h>
#include <string.h>
#include <xmmintrin.h>

#include "../include/worfelli.h"

int64_t __real_worfelli_play(const uint8_t *list, size_t list_len, uint8_t *out, size_t out_len);
int64_t __wrap_worfelli_play(const uint8_t *list, size_t list_len, uint8_t *out, size_t out_len);
uint64_t __real_worfelli_refused_at(const uint8_t *list, size_t list_len, size_t out_len);
uint64_t __wrap_worfelli_refused_at(const uint8_t *list, size_t list_len, size_t out_len);
uint32_t __real_worfelli_list_info(const uint8_t *list, size_t list_len, size_t *voices, uint64_t *frames);
uint32_t __wrap_worfelli_list_info(const uint8_t *list, size_t list_len, size_t *voices, uint64_t *frames);

int64_t __wrap_worfelli_play(const uint8_t *list, size_t list_len, uint8_t *out, size_t out_len)
{
    static uint8_t calls;
    volatile uint8_t byte = 0;
    int64_t frames = __real_worfelli_play(list, list_len, out, out_len);
    size_t written = frames > 0 ? WORFELLI_OUTPUT_BYTES(list[3], frames) : 0;
    (void)calls;
    switch (WRONG) {
    case 1: /* writes one byte too many */
        if (written > 0 && written == out_len)
            out[out_len] = 0;
        break;
    case 2: /* writes one byte before the output */
        if (written > 0)
            out[-1] = 0;
        break;
    case 3: /* reads one byte past the list */
        byte = list[list_len];
        break;
    case 4: /* writes to the list */
        if (list_len > 0)
            *(volatile uint8_t *)(uintptr_t)list = list[0];
        break;
    case 5: /* touches the output of a list that it refuses by 11 */
        if (frames == -WORFELLI_OUTPUT_TOO_SHORT && out_len > 0)
            out[0] = 0;
        break;
    case 6: /* writes past the frames */
        if (written > 0 && written < out_len)
            out[written] = 0;
        break;
    case 7: /* -0 in a spare lane */
        if (written > 0 && list[3] % 16 != 0)
            out[written - 1] = 0x80;
        break;
    case 8: /* a NaN in the last voice's last level */
        if (written > 0 && list[3] % 16 == 0 && list[3] > 0)
            memcpy(out + written - 4, &(float){NAN}, 4);
        break;
    case 9: { /* takes 16 KiB of stack */
        volatile uint8_t deep[16 << 10];
        for (size_t i = 0; i < sizeof deep; i++)
            deep[i] = byte;
        break;
    }
    case 10: /* other levels if the second record is frames of 1: so where frames are cut */
        if (written > 0 && list_len >= 82 && list[75] == 9 && list[78] == 1 && list[79] == 0 && list[3] > 0)
            out[0] ^= 1;
        break;
    case 11: /* keeps something between calls */
        if (written > 0 && list[3] > 0)
            out[0] ^= ++calls & 1;
        break;
    case 12: /* leaves another floating-point mode */
        _mm_setcsr(_mm_getcsr() | 0x8000);
        break;
    case 13: /* a NaN where subnormals are flushed */
        if (written > 0 && list[3] > 0 && (_mm_getcsr() & 0x8000) != 0)
            memcpy(out, &(float){NAN}, 4);
        break;
    default:
        break;
    }
    return frames;
}

uint64_t __wrap_worfelli_refused_at(const uint8_t *list, size_t list_len, size_t out_len)
{
    uint64_t place = __real_worfelli_refused_at(list, list_len, out_len);
    /* 14: one byte too far, of a list that is refused in its last record. */
    if (WRONG == 14 && list_len > 80 && place == list_len - 7)
        return place + 1;
    return place;
}

uint32_t __wrap_worfelli_list_info(const uint8_t *list, size_t list_len, size_t *voices, uint64_t *frames)
{
    const uint32_t refusal = __real_worfelli_list_info(list, list_len, voices, frames);
    if (WRONG == 15 && refusal != 0) /* tells something of a list that it refuses */
        *frames = 0;
    if (WRONG == 16 && refusal == 0 && *frames > 100) /* more frames than there are */
        *frames += 1;
    return refusal;
}
