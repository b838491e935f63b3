/* A logger that keeps its records over a restart: it saves its heap as an image, and loads it into a second heap, where each record has
 * its id and its bytes. Saving that heap gives the same image, though it came about in another way. An image that lost a byte, or got
 * another, is refused at the first byte that is wrong. */
#include "norphuen.h"
#include <stdio.h>
#include <string.h>

static unsigned char image[2048], again[2048];

static uint64_t save(nph_images_heap *heap, unsigned char *to) {
    uint64_t bytes = 0, written = 0;
    nph_status asked = nph_images_image_bytes(heap, &bytes);
    nph_status status = nph_images_save(heap, to, (size_t)bytes, &written);
    printf("save: %s, %s; %llu bytes, %llu written\n", nph_text(asked), nph_text(status), (unsigned long long)bytes, (unsigned long long)written);
    return written;
}

static void refuse(const char *what, uint64_t count) {
    nph_images_heap heap = NPH_IMAGES_HEAP;
    uint64_t offset = 0;
    nph_status status = nph_images_load(&heap, image, (size_t)count, 2, &offset);
    printf("%s: %s at byte %llu; then: %s\n", what, nph_text(status), (unsigned long long)offset, nph_text(nph_images_make(&heap, 1, 8)));
}

int main(void) {
    nph_images_heap first = NPH_IMAGES_HEAP, second = NPH_IMAGES_HEAP;
    uint64_t offset = 0;
    uint32_t length = 0;
    char text[16] = "";
    printf("open: %s\n", nph_text(nph_images_open(&first, 8, 512, 2, 100)));
    for (uint32_t id = 60000; id < 60007; id++) {
        int count = snprintf(text, sizeof text, "record %u", id);
        if (nph_images_make(&first, id, 100 + 20 * (id % 7)) != NPH_OK) return 1;
        if (nph_images_write(&first, id, 3, text, (size_t)count) != NPH_OK) return 1;
    }
    printf("make again: %s\n", nph_text(nph_images_make(&first, 60003, 8)));
    printf("id too large: %s\n", nph_text(nph_images_make(&first, 65536, 8)));
    printf("free: %s", nph_text(nph_images_free(&first, 60000)));
    printf(", again: %s\n", nph_text(nph_images_free(&first, 60000)));

    uint64_t written = save(&first, image);
    printf("into a byte less: %d\n", (int)nph_images_save(&first, again, (size_t)written - 1, &offset));
    nph_images_close(&first);

    printf("load with k = 65: %s\n", nph_text(nph_images_load(&second, image, (size_t)written, 65, &offset)));
    printf("load: %s\n", nph_text(nph_images_load(&second, image, (size_t)written, 2, &offset)));
    printf("length: %s", nph_text(nph_images_length(&second, 60006, &length)));
    printf(", %u; read: %s", length, nph_text(nph_images_read(&second, 60006, 3, text, 12)));
    printf(", %s; the freed one: %s\n", text, nph_text(nph_images_length(&second, 60000, &length)));
    printf("the same image: %s\n", save(&second, again) == written && memcmp(image, again, (size_t)written) == 0 ? "yes" : "no");
    nph_images_close(&second);

    refuse("a byte less", written - 1);
    refuse("a byte more", written + 1);
    image[22] ^= 0xff; /* the length of the first record */
    refuse("another length", written);
    image[0] = 'X';
    refuse("another mark", written);
    return 0;
}
