/* What gcc and clang must refuse with -Wall -Wextra -Werror. A line `misuse N: TEXT` stands before each; the message has TEXT.
 * Without MISUSE all compiles. */
#include "norphuen.h"

int main(void) {
    nph_heap heap = NPH_HEAP;
    const nph_heap *other = &heap;
    uint32_t object;
    heap = NPH_HEAP;
    if (nph_open(&heap, 64, 4096, 1, 1000) != NPH_OK || nph_malloc(&heap, 100, &object) != NPH_OK) return 1;
#if MISUSE == 1 /* misuse 1: unused-result */
    nph_write(&heap, object, 0, "hello", 6);
#elif MISUSE == 2 /* misuse 2: unused-result */
    nph_free(&heap, object, NULL);
#elif MISUSE == 3 /* misuse 3: nonnull */
    if (nph_length(&heap, object, NULL) != NPH_OK) return 1;
#elif MISUSE == 4 /* misuse 4: nonnull */
    if (nph_free(NULL, object, NULL) != NPH_OK) return 1;
#elif MISUSE == 5 /* misuse 5: qualifiers */
    if (nph_length(other, object, &object) != NPH_OK) return 1;
#elif MISUSE == 6 /* misuse 6: incompatible */
    nph_nm_heap unmoved = NPH_NM_HEAP;
    if (nph_malloc(&unmoved, 100, &object) != NPH_OK) return 1;
#endif
    nph_close(&heap);
    return other == NULL;
}
