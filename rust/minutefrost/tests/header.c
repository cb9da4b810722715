/* All calls from C, by the header: the key 7 is told to an empty kiosk. */
#include "minutefrost.h"

#include <string.h>

/* The sheet of an image of 12 bytes with the key 7; the number of the check that fails, or 0. */
static int check_sheet(const uint8_t *image)
{
    static const char expected[] =
        "page    1 of    1                                             \n"
        "                   7                                          \n";
    static uint8_t text[MINUTEFROST_SHEET_MOST];
    const size_t length = sizeof expected - 1;

    text[length] = 0xA5;
    if (minutefrost_sheet(image, 12, text, length - 1) != -15)
        return 12;
    if (minutefrost_sheet(image, 11, text, sizeof text) != -14)
        return 13;
    if (text[0] != 0)
        return 14;
    if (minutefrost_sheet(image, 12, text, sizeof text) != (int64_t)length)
        return 15;
    if (memcmp(text, expected, length) != 0 || text[length] != 0xA5)
        return 16;
    if (minutefrost_sheet(image, 12, text, length) != (int64_t)length)
        return 17;
    return 0;
}

/* Two images of 12 bytes, with the keys 7 and 9, in one; the number of the check that fails, or 0. */
static int check_join(const uint8_t *seven)
{
    static const uint8_t nine[12] = {0, 1, 0, 0, 0, 0, 0, 0, 0, 9, 0, 0};
    static const uint8_t both[20] = {0, 2, 0, 0, 0, 0, 0, 0, 0, 7,
                                     0, 0, 0, 0, 0, 0, 0, 9, 0, 0};
    static uint8_t out[MINUTEFROST_IMAGE_MOST];

    if (minutefrost_join(seven, 12, nine, 12, out, sizeof out - 1) != -15)
        return 21;
    if (minutefrost_join(seven, 12, nine, 11, out, sizeof out) != -14 || out[1] != 0)
        return 22;
    if (minutefrost_join(seven, 12, nine, 12, out, sizeof out) != 20)
        return 23;
    if (memcmp(out, both, sizeof both) != 0)
        return 24;
    if (minutefrost_join(both, 20, both, 20, out, sizeof out) != 20)
        return 25;
    return memcmp(out, both, sizeof both) != 0 ? 26 : 0;
}

/* What a new kiosk costs; the number of the check that fails, or 0. */
static int check_opening(void)
{
    if (minutefrost_opening_cost(0) != 0)
        return 18;
    if (minutefrost_opening_cost(3) != 1 || minutefrost_opening_cost(100) != 74)
        return 19;
    if (minutefrost_opening_cost(SIZE_MAX) != -17)
        return 20;
    return 0;
}

int main(void)
{
    static const uint8_t empty[4] = {0};
    static const uint8_t frame[30] = {
        0x4C, 0x43, 1, 1, /* one claim */
        0, 0, 0, 0, 0, 0, 0, 7, /* lo */
        0, 0, 0, 0, 0, 0, 0, 7, /* hi */
        0, 0, 0, 0, 0, 0, 0, 7, /* sum */
        0, 1 /* cnt */
    };
    static const uint8_t after[12] = {0, 1, 0, 0, 0, 0, 0, 0, 0, 7, 0, 0};
    static uint8_t taken[MINUTEFROST_IMAGE_MOST];
    static uint8_t beaten[MINUTEFROST_IMAGE_MOST];
    static uint8_t entered[MINUTEFROST_IMAGE_MOST];
    static uint8_t frames[MINUTEFROST_BEAT_FRAMES];
    int failed;

    if (minutefrost_take_frame(empty, 4, frame, 30, taken, sizeof taken) != 38)
        return 1;
    if (minutefrost_beat(taken, 38, beaten, sizeof beaten, frames, sizeof frames) != 30)
        return 2;
    if (memcmp(beaten, after, sizeof after) != 0 || memcmp(frames, frame, sizeof frame) != 0)
        return 3;
    if (minutefrost_take_frame(empty, 4, frame, 30, taken, MINUTEFROST_IMAGE_MOST - 1) != -15)
        return 4;
    if (minutefrost_beat(empty, 3, beaten, sizeof beaten, frames, sizeof frames) != -14)
        return 5;
    if (MINUTEFROST_FRAME_MOST != 4 + 26 * 4)
        return 6;
    if (minutefrost_enter(empty, 4, 7, entered, sizeof entered) != 12)
        return 7;
    if (memcmp(entered, after, sizeof after) != 0)
        return 8;
    if (minutefrost_enter(empty, 4, 7, entered, MINUTEFROST_IMAGE_MOST - 1) != -15)
        return 9;
    if (minutefrost_count(empty, 4) != 0 || minutefrost_count(entered, 12) != 1)
        return 10;
    if (minutefrost_count(entered, 11) != -14)
        return 11;
    failed = check_sheet(entered);
    if (failed == 0)
        failed = check_join(entered);
    return failed != 0 ? failed : check_opening();
}
