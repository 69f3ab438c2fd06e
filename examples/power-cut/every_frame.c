/* A reader that should not be: it lays every whole frame of a write-ahead log over the image, whatever the frame's salts and sums are.
 *
 *     every_frame IMAGE LOG OUT
 *
 * Its mistake is the one this library was written against. When a log begins anew, sqlite3 writes its frames over the old ones from the start; behind them
 * frames of the older log are left. They are whole and hold good pages, but pages of the past. Only the salts in the log's header tell them apart. */
#include <stdint.h>
#include <stdio.h>
#include <stdlib.h>
#include <string.h>

static uint8_t *read_file(const char *name, size_t room, size_t *length) {
    FILE *file = fopen(name, "rb");
    uint8_t *bytes = calloc(1, room);
    if (!file || !bytes) exit(2);
    *length = fread(bytes, 1, room, file);
    fclose(file);
    return bytes;
}

static size_t be32(const uint8_t *at) {
    return (size_t)at[0] << 24 | (size_t)at[1] << 16 | (size_t)at[2] << 8 | at[3];
}

int main(int count, char **words) {
    enum { ROOM = 1 << 24 };
    size_t image_len, log_len;
    if (count != 4) return 2;
    uint8_t *image = read_file(words[1], ROOM, &image_len);
    uint8_t *log = read_file(words[2], ROOM, &log_len);
    size_t size = log_len < 32 ? 0 : be32(log + 8);

    for (size_t at = 32; size && at + 24 + size <= log_len; at += 24 + size) {
        size_t page = be32(log + at);
        if (page == 0 || page > ROOM / size) continue;
        memcpy(image + (page - 1) * size, log + at + 24, size);
        if (page * size > image_len) image_len = page * size;
    }

    FILE *out = fopen(words[3], "wb");
    if (!out || fwrite(image, 1, image_len, out) != image_len || fclose(out)) return 2;
    return 0;
}
