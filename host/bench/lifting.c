/*
 * The 5/3 lifting in plain C, both ways, for the benchmark: one pass over memory a turn, columns never walked downward. The workspace holds
 * two pictures and three lines.
 */
#include <stddef.h>
#include <stdint.h>
#include <string.h>

static void high_line(const int32_t *above, const int32_t *row, const int32_t *below, size_t count, int32_t *restrict out) {
    for (size_t j = 0; j < count; j++)
        out[j] = row[j] - ((above[j] + below[j]) >> 1);
}

static void low_line(const int32_t *row, const int32_t *before, const int32_t *after, size_t count, int32_t *restrict out) {
    for (size_t j = 0; j < count; j++)
        out[j] = row[j] + ((before[j] + after[j] + 2) >> 2);
}

static void split_line(const int32_t *restrict line, size_t half, int32_t *restrict lows, int32_t *restrict highs) {
    for (size_t i = 0; i + 1 < half; i++)
        highs[i] = line[2 * i + 1] - ((line[2 * i] + line[2 * i + 2]) >> 1);
    highs[half - 1] = line[2 * half - 1] - line[2 * half - 2];
    lows[0] = line[0] + ((2 * highs[0] + 2) >> 2);
    for (size_t i = 1; i < half; i++)
        lows[i] = line[2 * i] + ((highs[i - 1] + highs[i] + 2) >> 2);
}

static void even_line(const int32_t *low, const int32_t *before, const int32_t *after, size_t count, int32_t *restrict out) {
    for (size_t j = 0; j < count; j++)
        out[j] = low[j] - ((before[j] + after[j] + 2) >> 2);
}

static void odd_line(const int32_t *high, const int32_t *above, const int32_t *below, size_t count, int32_t *restrict out) {
    for (size_t j = 0; j < count; j++)
        out[j] = high[j] + ((above[j] + below[j]) >> 1);
}

static void join_line(const int32_t *restrict lows, const int32_t *restrict highs, size_t half, int32_t *restrict line) {
    line[0] = lows[0] - ((2 * highs[0] + 2) >> 2);
    for (size_t i = 1; i < half; i++)
        line[2 * i] = lows[i] - ((highs[i - 1] + highs[i] + 2) >> 2);
    for (size_t i = 0; i + 1 < half; i++)
        line[2 * i + 1] = highs[i] + ((line[2 * i] + line[2 * i + 2]) >> 1);
    line[2 * half - 1] = highs[half - 1] + line[2 * half - 2];
}

/* A picture of w x h to the next turn's, of half the sides, and to the three other quarters of the block in `out`. */
static void split_turn(const int32_t *picture, size_t w, size_t h, int32_t *next, int32_t *out, size_t width, int32_t *lines) {
    int32_t *lows = lines + 2 * width;
    for (size_t i = 0; i < h / 2; i++) {
        const int32_t *even = picture + 2 * i * w, *below = i + 1 < h / 2 ? even + 2 * w : even;
        int32_t *highs = lines + (i % 2) * width, *before = i > 0 ? lines + (1 - i % 2) * width : highs;
        int32_t *upper = out + i * width, *lower = out + (h / 2 + i) * width;
        high_line(even, even + w, below, w, highs);
        low_line(even, before, highs, w, lows);
        split_line(lows, w / 2, next + i * (w / 2), upper + w / 2);
        split_line(highs, w / 2, lower, lower + w / 2);
    }
}

/* The way back: `small` is the picture of half the sides. */
static void join_turn(const int32_t *small, size_t w, size_t h, int32_t *picture, const int32_t *pyramid, size_t width, int32_t *lines) {
    int32_t *lows = lines + 2 * width;
    for (size_t i = 0; i < h / 2; i++) {
        int32_t *even = picture + 2 * i * w;
        int32_t *highs = lines + (i % 2) * width, *before = i > 0 ? lines + (1 - i % 2) * width : highs;
        const int32_t *upper = pyramid + i * width, *lower = pyramid + (h / 2 + i) * width;
        join_line(small + i * (w / 2), upper + w / 2, w / 2, lows);
        join_line(lower, lower + w / 2, w / 2, highs);
        even_line(lows, before, highs, w, even);
        if (i > 0)
            odd_line(before, even - 2 * w, even, w, even - w);
        if (i + 1 == h / 2)
            odd_line(highs, even, even, w, even + w);
    }
}

/* Pixels to their pyramid. `work` has room for 2 x width x height + 3 x width numbers. */
void plain_split(const uint8_t *pixels, size_t width, size_t height, size_t turns, int32_t *out, int32_t *work) {
    int32_t *picture = work, *next = picture + width * height, *lines = next + width * height;
    for (size_t k = 0; k < width * height; k++)
        picture[k] = pixels[k];
    size_t w = width, h = height;
    for (size_t turn = 0; turn < turns; turn++, w /= 2, h /= 2) {
        split_turn(picture, w, h, next, out, width, lines);
        int32_t *last = picture;
        picture = next;
        next = last;
    }
    for (size_t i = 0; i < h; i++)
        memcpy(out + i * width, picture + i * w, w * sizeof *out);
}

/* A pyramid to its pixels, with the same room; how many were set to the nearer of 0 and 255. */
size_t plain_join(const int32_t *pyramid, size_t width, size_t height, size_t turns, uint8_t *out, int32_t *work) {
    int32_t *small = work, *picture = small + width * height, *lines = picture + width * height;
    size_t w = width >> turns, h = height >> turns, clipped = 0;
    for (size_t i = 0; i < h; i++)
        memcpy(small + i * w, pyramid + i * width, w * sizeof *small);
    for (size_t turn = 0; turn < turns; turn++) {
        w *= 2;
        h *= 2;
        join_turn(small, w, h, picture, pyramid, width, lines);
        int32_t *last = small;
        small = picture;
        picture = last;
    }
    for (size_t k = 0; k < width * height; k++) {
        int32_t grey = small[k] < 0 ? 0 : small[k] > 255 ? 255 : small[k];
        clipped += grey != small[k];
        out[k] = (uint8_t)grey;
    }
    return clipped;
}
