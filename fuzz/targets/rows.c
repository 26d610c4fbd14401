#include "targets.h"

#include <stdlib.h>

static void list_in(input *in, size_t room, const plain_rows *wanted, const jx_verdict *verdict) {
    uint32_t status;
    jx_verdict told = no_verdict;
    size_t count = 0x5A;
    jx_row *rows = unwritten(room * sizeof *rows);
    CALL(status, jx_rows(in->text, in->size, &in->settings, rows, room, &count, &told),
         is_no_verdict(&told) && count == 0x5A && is_unwritten(rows, room * sizeof *rows));
    REQUIRE(status == JX_OK && same_verdict(&told, verdict), "the verdict of rows");
    REQUIRE(count == wanted->count, "the count of rows");
    require_bounded(library_bytes(), in->size, 512, "rows take too much memory");
    const size_t written = count < room ? count : room;
    for (size_t r = 0; r < written; r++) REQUIRE(same_row(&rows[r], &wanted->all[r]), "a row");
    REQUIRE(is_unwritten(rows + written, (room - written) * sizeof *rows), "what stands behind the rows");
    free(rows);
}

void list_rows(input *in) {
    plain_rows wanted;
    const jx_verdict verdict = plain_read(in->text, 0, in->size, &in->settings, &wanted);
    list_in(in, 0, &wanted, &verdict);
    list_in(in, wanted.count, &wanted, &verdict);
    list_in(in, choice_upto(in, wanted.count), &wanted, &verdict);
    list_in(in, wanted.count + 1 + choice(in) % 3, &wanted, &verdict);
}
