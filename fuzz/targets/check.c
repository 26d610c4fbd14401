#include "targets.h"

#ifdef PEER
int peer_accepts(const uint8_t *text, size_t size);
#endif

static void check_by(input *in, const jx_settings *settings) {
    uint32_t status;
    jx_verdict told = no_verdict;
    plain_rows rows;
    CALL(status, jx_check(in->text, in->size, settings, &told), is_no_verdict(&told));
    if (settings->depth > JX_DEPTH_MAX) {
        REQUIRE(status == JX_DEPTH_TOO_GREAT && is_no_verdict(&told), "too great a depth");
        return;
    }
    REQUIRE(status == JX_OK, "a check's status");
    REQUIRE(settings->flags & JX_UNIQUE_NAMES || library_requests() == 0, "a check without names asks for memory");
    require_bounded(library_bytes(), in->size, 64, "a check takes too much memory");
    const jx_verdict wanted = plain_read(in->text, 0, in->size, settings, &rows);
    REQUIRE(same_verdict(&told, &wanted), "a verdict");
#ifdef PEER
    if (settings->flags == 0 && wanted.kind != JX_TOO_DEEP) {
        REQUIRE(peer_accepts(in->text, in->size) == (told.kind == JX_ACCEPTED), "serde_json's verdict");
    }
#endif
}

void check_texts(input *in) {
    plain_rows rows;
    const jx_settings deep = {JX_DEPTH_MAX, 0};
    plain_read(in->text, 0, in->size, &deep, &rows);
    const uint32_t own = (uint32_t)rows.deepest;
    const uint32_t depths[] = {in->settings.depth, JX_DEPTH_MAX, own, own == 0 ? 0 : own - 1, JX_DEPTH_MAX + 1};
    /* A long text is checked once by each setting. */
    for (size_t k = 0; k < (in->size > 4096 ? 1 : 5); k++) {
        for (uint32_t flags = 0; flags <= (JX_IGNORE_MARK | JX_UNIQUE_NAMES); flags++) check_by(in, &(jx_settings){depths[k], flags});
    }
    const jx_settings unknown = {0, (uint32_t)4 << choice(in) % 30};
    jx_verdict told = no_verdict;
    REQUIRE(jx_check(in->text, in->size, &unknown, &told) == JX_UNKNOWN_FLAG && is_no_verdict(&told), "an unknown flag");
    REQUIRE(jx_version() == VERSION, "the version");
}
