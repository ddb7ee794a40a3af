/* What the numbers of refusals mean, in words, for both hosts. */
#ifndef REASONS_H
#define REASONS_H

#include "../../include/worfelli.h"

static const char *reason(uint32_t refusal)
{
    switch (refusal) {
    case WORFELLI_TOO_MANY_VOICES: return "over 64 voices";
    case WORFELLI_NO_SUCH_VOICE: return "no such voice";
    case WORFELLI_TIME_OVER: return "a time over 1048576";
    case WORFELLI_RATE_OVER: return "a sample rate over 1048576";
    case WORFELLI_NOT_WHOLE_FRAMES: return "levels that are no whole number of frames";
    case WORFELLI_CUT_SHORT: return "the bytes end before the record does";
    case WORFELLI_UNKNOWN_TAG: return "an unknown tag";
    case WORFELLI_WRONG_LENGTH: return "a wrong length";
    case WORFELLI_MISPLACED_OPEN: return "a list is opened once, by its first record";
    case WORFELLI_UNNAMED_CODE: return "a code with no meaning";
    case WORFELLI_OUTPUT_TOO_SHORT: return "more levels than the output holds";
    case WORFELLI_NOT_A_CHORD: return "a chord that names a voice twice or has over 64 entries";
    default: return "an unknown refusal";
    }
}

#endif
