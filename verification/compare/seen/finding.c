#include "finding.h"

#include "wire.h"

#include <string.h>

enum { PROGRAM_FRAME = 12 }; /* a packet has so many bytes beside the data */

static bool is_written(const uint8_t *bytes, uint32_t count)
{
    for (uint32_t i = 0; i < count; i++)
        if (bytes[i] != 0xFF)
            return true;
    return false;
}

/* The range is `count` bytes from `first` on in a region of `size` bytes. */
static void look_at_words(struct finding *finding, const uint8_t *region, uint32_t size, uint32_t first, uint32_t count)
{
    finding->bytes_written = is_written(region + first, count);
    finding->words = count / WORD;
    if (first % WORD != 0 || count % WORD != 0 || count == 0)
        return;
    for (uint32_t at = first; at < first + count; at += WORD)
        finding->written += is_written(region + at, WORD);
    finding->first_written = is_written(region + first, WORD);
    finding->last_written = is_written(region + first + count - WORD, WORD);
    finding->beside_written = (first >= WORD && is_written(region + first - WORD, WORD)) ||
                              (first + count + WORD <= size && is_written(region + first + count, WORD));
}

static bool and_differs(const uint8_t *old, const uint8_t *new, size_t count)
{
    for (size_t i = 0; i < count; i++)
        if ((old[i] & new[i]) != new[i])
            return true;
    return false;
}

struct finding look(const struct step *step, const struct side *side)
{
    struct finding finding = {.words = 0};
    memcpy(finding.record, side->area[AREA_RECORD], sizeof finding.record);
    if (step->kind == CALL_MEND)
        memcpy(finding.image, side->area[AREA_SETTINGS], sizeof finding.image);
    finding.second_half = is_written(side->area[AREA_SETTINGS] + IMAGE_END, SETTINGS_BYTES - IMAGE_END);
    if (step->kind != CALL_SESSION || step->data_size <= PROGRAM_FRAME || (step->data[3] != 0x20 && step->data[3] != 0x24))
        return finding;
    uint32_t first = read32(step->data + 4), offset = first - SETTINGS_START;
    size_t count = step->data_size - PROGRAM_FRAME;
    if (first < step->main_size && count <= step->main_size - first)
        look_at_words(&finding, side->area[AREA_MAIN], (uint32_t)step->main_size, first, (uint32_t)count);
    else if (offset < SETTINGS_BYTES && count <= SETTINGS_BYTES - offset)
        look_at_words(&finding, side->area[AREA_SETTINGS], SETTINGS_BYTES, offset, (uint32_t)count);
    else if (first >= WINDOW_START && first + count <= WINDOW_START + WINDOW_BYTES)
        finding.and_differs = and_differs(side->area[AREA_WINDOW] + (first - WINDOW_START), step->data + 8, count);
    return finding;
}
