/* Calls what each library has, and prints the version of library and header if all is as it must be. */
#include "norphuen.h"
#include <stdio.h>
#include <string.h>

#define MUST(test) do { if (!(test)) { fprintf(stderr, "line %d: not so: %s\n", __LINE__, #test); return 1; } } while (0)

#ifdef EACH_SLICED
int main(void) {
    nph_sliced_heap heap = NPH_SLICED_HEAP;
    nph_needed needed;
    uint32_t object, other, number, place;
    uint64_t steps, *words;
    nph_heap_totals totals;
    nph_class figures;
    char back[6] = "";
    MUST(nph_sliced_version() == NPH_VERSION);
    MUST(nph_sliced_step(&heap) == NPH_CLOSED);
    MUST(nph_sliced_open(&heap, 4, 500, 8, 4) == NPH_PAGE_BYTES && nph_sliced_open(&heap, 4, 512, 8, 0) == NPH_QUANTUM);
    MUST(nph_sliced_open(&heap, 4, 512, 2, 4) == NPH_OK && nph_sliced_open(&heap, 4, 512, 2, 4) == NPH_OPEN);
    MUST(nph_sliced_bytes_needed(4, 512, 2, &needed) == NPH_OK && needed.total > 4 * 512 && needed.largest <= needed.total);
    MUST(nph_sliced_malloc(&heap, 200, &object) == NPH_OK && nph_sliced_malloc(&heap, 8, &other) == NPH_OK);
    MUST(nph_sliced_malloc(&heap, 8, &number) == NPH_PROXY && nph_sliced_has_room(&heap, 8) == NPH_PROXY);
    MUST(nph_sliced_write(&heap, object, 194, "hello", 6) == NPH_OK && nph_sliced_read(&heap, object, 194, back, 6) == NPH_OK);
    MUST(strcmp(back, "hello") == 0);
    MUST(nph_sliced_length(&heap, object, &number) == NPH_OK && number == 200);
    MUST(nph_sliced_slot_words(&heap, object, &number) == NPH_OK && number == 26);
    MUST(nph_sliced_class_of(&heap, 200, &number) == NPH_OK && nph_sliced_figures(&heap, number, &figures) == NPH_OK);
    MUST(figures.slot_words == 26 && figures.live == 1 && nph_sliced_place(&heap, object, &place) == NPH_OK);
    MUST(nph_sliced_lend(&heap, &words) == NPH_OK && strcmp((char *)nph_sliced_bytes(words, place) + 194, "hello") == 0);
    MUST(nph_sliced_step(&heap) == NPH_LENT && nph_sliced_return(&heap) == NPH_OK && nph_sliced_return(&heap) == NPH_NOT_LENT);
    MUST(nph_sliced_free(&heap, object) == NPH_OK && nph_sliced_free(&heap, object) == NPH_UNKNOWN);
    MUST(nph_sliced_lend(&heap, &words) == NPH_BUSY && nph_sliced_totals(&heap, &totals) == NPH_OK);
    MUST(totals.live == 1 && totals.asked == 8 && totals.taken == 8 * (4 + 26) && totals.used == 2);
    MUST(nph_sliced_left(&heap, &number) == NPH_OK && number > 4 && nph_sliced_free(&heap, other) == NPH_BUSY);
    MUST(nph_sliced_moving(&heap, &number) == NPH_OK && number == NPH_NONE);
    MUST(nph_sliced_step(&heap) == NPH_OK && nph_sliced_last_steps(&heap, &steps) == NPH_OK && steps == 4);
    MUST(nph_sliced_most_malloc() < 64 && nph_sliced_most_free(4) < 64 && nph_sliced_most_step(4) < nph_sliced_most_free(4));
    MUST(nph_sliced_most_access(3, 2) > 2 && nph_sliced_most_has_room() > 0 && nph_sliced_most_length() > 1);
    nph_sliced_close(&heap);
    MUST(nph_sliced_last_steps(&heap, &steps) == NPH_CLOSED);
    printf("%d.%d.%d\n", NPH_VERSION / 10000, NPH_VERSION / 100 % 100, NPH_VERSION % 100);
    return 0;
}
#elif defined EACH_TASKS
int main(void) {
    nph_tasks_heap heap = NPH_TASKS_HEAP;
    nph_needed needed;
    nph_freed freed;
    nph_class figures;
    nph_task task;
    static const nph_need needs[2] = {{200, 2}, {24, 20}};
    uint32_t object, other, number;
    uint64_t steps;
    char back[6] = "";
    MUST(nph_tasks_version() == NPH_VERSION);
    MUST(nph_tasks_set_quota(&heap, 0, 1) == NPH_CLOSED);
    MUST(nph_tasks_open(&heap, 4, 500, 8) == NPH_PAGE_BYTES && nph_tasks_open(&heap, 4, 512, 30) == NPH_OK);
    MUST(nph_tasks_open(&heap, 4, 512, 30) == NPH_OPEN);
    MUST(nph_tasks_bytes_needed(4, 512, 30, &needed) == NPH_OK && needed.total > 4 * 512 && needed.largest <= needed.total);
    MUST(nph_tasks_least_quota(&heap, needs, 2, &number) == NPH_OK && number == 3 && nph_tasks_admit(&heap, 0, needs, 2) == NPH_SPACE);
    MUST(nph_tasks_set_quota(&heap, 0, 3) == NPH_OK && nph_tasks_admit(&heap, 0, needs, 2) == NPH_OK);
    MUST(nph_tasks_set_quota(&heap, 1, 2) == NPH_PAGES && nph_tasks_set_quota(&heap, 1, 1) == NPH_OK);
    MUST(nph_tasks_unassigned(&heap, &number) == NPH_OK && number == 0);
    MUST(nph_tasks_malloc(&heap, 0, 200, &object) == NPH_OK && nph_tasks_malloc(&heap, 1, 500, &other) == NPH_OK);
    MUST(nph_tasks_malloc(&heap, 1, 8, &number) == NPH_SPACE && nph_tasks_malloc(&heap, 16, 8, &number) == NPH_UNKNOWN);
    MUST(nph_tasks_last_steps(&heap, &steps) == NPH_OK && steps == 1);
    MUST(nph_tasks_write(&heap, 0, object, 194, "hello", 6) == NPH_OK && nph_tasks_read(&heap, 0, object, 194, back, 6) == NPH_OK);
    MUST(strcmp(back, "hello") == 0);
    MUST(nph_tasks_length(&heap, 1, other, &number) == NPH_OK && number == 500);
    MUST(nph_tasks_task(&heap, 1, &task) == NPH_OK && task.quota == 1 && task.pages == 1 && task.live == 1);
    MUST(nph_tasks_figures(&heap, 0, 0, &figures) == NPH_OK && figures.slot_words == 4);
    MUST(nph_tasks_free(&heap, 0, object, &freed) == NPH_OK && freed.moved == NPH_NONE && nph_tasks_free(&heap, 0, object, NULL) == NPH_UNKNOWN);
    nph_tasks_close(&heap);
    MUST(nph_tasks_last_steps(&heap, &steps) == NPH_CLOSED);
    printf("%d.%d.%d\n", NPH_VERSION / 10000, NPH_VERSION / 100 % 100, NPH_VERSION % 100);
    return 0;
}
#elif defined EACH_IMAGES
int main(void) {
    nph_images_heap heap = NPH_IMAGES_HEAP;
    nph_needed needed;
    uint32_t number;
    uint64_t bytes, offset;
    char back[6] = "";
    unsigned char image[300];
    MUST(nph_images_version() == NPH_VERSION);
    MUST(nph_images_make(&heap, 7, 8) == NPH_CLOSED);
    MUST(nph_images_open(&heap, 4, 500, 1, 8) == NPH_PAGE_BYTES && nph_images_open(&heap, 4, 512, 1, 2) == NPH_OK);
    MUST(nph_images_open(&heap, 4, 512, 1, 2) == NPH_OPEN);
    MUST(nph_images_bytes_needed(4, 512, 1, 2, &needed) == NPH_OK && needed.total > 4 * 512 && needed.largest <= needed.total);
    MUST(nph_images_make(&heap, 7, 200) == NPH_OK && nph_images_make(&heap, 7, 8) == NPH_LIVE && nph_images_make(&heap, 3, 8) == NPH_OK);
    MUST(nph_images_write(&heap, 7, 194, "hello", 6) == NPH_OK && nph_images_length(&heap, 7, &number) == NPH_OK && number == 200);
    MUST(nph_images_image_bytes(&heap, &bytes) == NPH_OK && bytes == 20 + 6 + 8 + 6 + 200);
    MUST(nph_images_save(&heap, image, 239, &bytes) == NPH_RANGE && nph_images_save(&heap, image, 300, &bytes) == NPH_OK && bytes == 240);
    MUST(nph_images_free(&heap, 3) == NPH_OK && nph_images_free(&heap, 3) == NPH_UNKNOWN);
    nph_images_close(&heap);
    MUST(nph_images_load(&heap, image, 239, 1, &offset) == NPH_IMAGE && offset == 40 && nph_images_load(&heap, image, 240, 65, &offset) == NPH_BOUND);
    MUST(nph_images_load(&heap, image, 240, 2, &offset) == NPH_OK && nph_images_read(&heap, 7, 194, back, 6) == NPH_OK);
    MUST(strcmp(back, "hello") == 0 && nph_images_length(&heap, 3, &number) == NPH_OK && number == 8);
    nph_images_close(&heap);
    MUST(nph_images_image_bytes(&heap, &bytes) == NPH_CLOSED);
    printf("%d.%d.%d\n", NPH_VERSION / 10000, NPH_VERSION / 100 % 100, NPH_VERSION % 100);
    return 0;
}
#elif defined EACH_LARGE
int main(void) {
    nph_large_heap heap = NPH_LARGE_HEAP;
    nph_needed needed;
    nph_class figures;
    nph_heap_totals totals;
    uint32_t object, other, number;
    uint64_t steps;
    char back[6] = "";
    MUST(nph_large_version() == NPH_VERSION);
    MUST(nph_large_malloc(&heap, 8, &object) == NPH_CLOSED);
    MUST(nph_large_open(&heap, 4, 500, 8) == NPH_PAGE_BYTES && nph_large_open(&heap, 6, 512, 8) == NPH_OK);
    MUST(nph_large_open(&heap, 6, 512, 8) == NPH_OPEN);
    MUST(nph_large_bytes_needed(6, 512, 8, &needed) == NPH_OK && needed.total > 6 * 512 && needed.largest <= needed.total);
    MUST(nph_large_malloc(&heap, 1200, &object) == NPH_OK && nph_large_last_steps(&heap, &steps) == NPH_OK);
    MUST(steps > 0 && steps <= nph_large_most_malloc(512, 1200));
    MUST(nph_large_malloc(&heap, 100000, &other) == NPH_SIZE && nph_large_malloc(&heap, 2000, &other) == NPH_PROXY);
    MUST(nph_large_malloc(&heap, 400, &other) == NPH_OK && nph_large_malloc(&heap, 1000, &number) == NPH_SPACE);
    MUST(nph_large_write(&heap, object, 501, "hello", 6) == NPH_OK && nph_large_read(&heap, object, 501, back, 6) == NPH_OK);
    MUST(strcmp(back, "hello") == 0 && nph_large_last_steps(&heap, &steps) == NPH_OK && steps == nph_large_most_access(512, 501, 6));
    MUST(nph_large_read(&heap, object, 1195, back, 6) == NPH_RANGE);
    MUST(nph_large_length(&heap, object, &number) == NPH_OK && number == 1200);
    MUST(nph_large_totals(&heap, &totals) == NPH_OK && totals.live == 5 && totals.used == 5);
    MUST(nph_large_figures(&heap, 0, &figures) == NPH_OK && figures.slot_words == 4 && figures.live == 1);
    MUST(nph_large_free(&heap, object) == NPH_OK && nph_large_free(&heap, object) == NPH_UNKNOWN && nph_large_most_free(512, 1200) > 64);
    nph_large_close(&heap);
    MUST(nph_large_last_steps(&heap, &steps) == NPH_CLOSED);
    printf("%d.%d.%d\n", NPH_VERSION / 10000, NPH_VERSION / 100 % 100, NPH_VERSION % 100);
    return 0;
}
#else
int main(void) {
    static char all[200];
    nph_heap heap = NPH_HEAP;
    nph_freed freed;
    nph_heap_totals totals;
    uint32_t object, other, bytes, words;
    uint64_t steps;
    char back[6] = "";
    MUST(nph_version() == NPH_VERSION);
    MUST(nph_malloc(&heap, 8, &object) == NPH_CLOSED);
    MUST(nph_open(&heap, 4, 500, 1, 8) == NPH_PAGE_BYTES);
    MUST(nph_open(&heap, 4, 512, 1, 2) == NPH_OK);
    MUST(nph_open(&heap, 4, 512, 1, 2) == NPH_OPEN);
    MUST(nph_malloc(&heap, 200, &object) == NPH_OK && nph_malloc(&heap, 8, &other) == NPH_OK);
    MUST(nph_malloc(&heap, 8, &bytes) == NPH_PROXY && nph_has_room(&heap, 8) == NPH_PROXY);
    MUST(nph_write(&heap, object, 194, "hello", 6) == NPH_OK && nph_read(&heap, object, 194, back, 6) == NPH_OK);
    MUST(strcmp(back, "hello") == 0);
    MUST(nph_read(&heap, object, 195, back, 6) == NPH_RANGE && nph_read(&heap, object, 0, all, 194) == NPH_OK);
    for (int i = 0; i < 194; i++) MUST(all[i] == 0);
    MUST(nph_length(&heap, object, &bytes) == NPH_OK && bytes == 200);
    MUST(nph_totals(&heap, &totals) == NPH_OK && totals.live == 2 && totals.asked == 208);
    MUST(nph_slot_words(&heap, object, &words) == NPH_OK && words > 25);
    MUST(nph_free(&heap, object, &freed) == NPH_OK && freed.slot_words == words && freed.moved == NPH_NONE);
    MUST(nph_last_steps(&heap, &steps) == NPH_OK && steps > 0 && steps <= nph_most_free(freed.slot_words));
    MUST(nph_kind() <= NPH_HALF && nph_most_malloc() < 64 && nph_most_resize(8, 4, 4) > 0 && nph_most_access(3, 2) > 2);
    MUST(nph_most_has_room() > 0 && nph_most_totals(9) < 99 && nph_most_length() > 1);
    MUST(nph_free(&heap, object, NULL) == NPH_UNKNOWN && nph_resize(&heap, object, 9, NULL) == NPH_UNKNOWN);
    nph_close(&heap);
    MUST(nph_last_steps(&heap, &steps) == NPH_CLOSED);
    printf("%d.%d.%d\n", NPH_VERSION / 10000, NPH_VERSION / 100 % 100, NPH_VERSION % 100);
    return 0;
}
#endif
