/* The header as C++ takes it. */
#include "gorsetumble.h"

uint32_t admitted(const uint8_t *platform, size_t platform_length, const uint8_t *tasks, size_t tasks_length,
                  gorsetumble_machine &machine) {
    if (gorsetumble_quick_verdict(platform, platform_length, tasks, tasks_length) != GORSETUMBLE_ADMITTED)
        return GORSETUMBLE_REFUSED_TEXT;
    return gorsetumble_set_up_texts(&machine, platform, platform_length, tasks, tasks_length).refused.number;
}
