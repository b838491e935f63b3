/* A kernel with two tasks in one heap. It admits each task with the least quota for its needs, and refuses a third one, for
 * which too few pages are left. Task 0 then makes more than it declared and hits its quota; task 1 is served as before. */
#include "norphuen.h"
#include <stdio.h>

static nph_tasks_heap heap = NPH_TASKS_HEAP;
static const nph_need needs[3][2] = {{{24, 20}, {176, 6}}, {{400, 2}, {8, 30}}, {{504, 3}, {100, 4}}};

/* Gives a task the least quota for its needs, if so many pages are left, and prints what becomes of it. */
static void start(uint32_t task) {
    uint32_t quota = 0, left = 0;
    int least = (int)nph_tasks_least_quota(&heap, needs[task], 2, &quota);
    nph_status set = nph_tasks_set_quota(&heap, task, quota), admitted = nph_tasks_admit(&heap, task, needs[task], 2);
    if (nph_tasks_unassigned(&heap, &left) != NPH_OK) left = 0;
    printf("task %u: %d, needs %u pages: %s; admitted: %s; %u pages left\n", task, least, quota, nph_text(set), nph_text(admitted), left);
}

/* Makes objects of a task until one is refused, at most `most`, and prints how many and why. */
static uint32_t fill(uint32_t task, uint32_t bytes, uint32_t most, uint32_t *handles) {
    uint32_t made = 0;
    nph_status status = NPH_OK;
    while (made < most && (status = nph_tasks_malloc(&heap, task, bytes, &handles[made])) == NPH_OK) made++;
    printf("task %u: %u objects of %u bytes, then: %s\n", task, made, bytes, nph_text(status));
    return made;
}

static void show(uint32_t task) {
    nph_task figures = {0, 0, 0};
    int code = nph_tasks_task(&heap, task, &figures);
    printf("task %u: %d, quota %u, pages %u, live %u\n", task, code, figures.quota, figures.pages, figures.live);
}

int main(void) {
    uint32_t handles[2][64], other = NPH_NONE;
    nph_freed freed = {0, NPH_NONE};
    char text[6] = "";
    printf("open: %d\n", (int)nph_tasks_open(&heap, 10, 512, 64));
    start(0);
    start(1);
    start(2);

    fill(0, 176, 64, handles[0]);
    show(0);
    uint32_t made = fill(1, 400, 2, handles[1]);
    fill(1, 8, 30, handles[1] + made);
    show(1);

    printf("write: %d", (int)nph_tasks_write(&heap, 1, handles[1][0], 394, "hello", 6));
    printf(", free of an object of task 0: %d", (int)nph_tasks_free(&heap, 0, handles[0][0], &freed));
    printf(", %u words, moved %s", freed.slot_words, freed.moved == NPH_NONE ? "none" : "one");
    printf(", again: %d\n", (int)nph_tasks_free(&heap, 0, handles[0][0], NULL));
    printf("read: %d, %s\n", (int)nph_tasks_read(&heap, 1, handles[1][0], 394, text, 6), text);
    printf("less than task 1 uses: %s\n", nph_text(nph_tasks_set_quota(&heap, 1, 1)));
    printf("task 16: %s\n", nph_text(nph_tasks_malloc(&heap, 16, 8, &other)));
    nph_tasks_close(&heap);
    printf("closed: %s\n", nph_text(nph_tasks_malloc(&heap, 0, 8, &other)));
    return 0;
}
