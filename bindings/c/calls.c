/* The calls that jx.h defines inline, as symbols of the library: for languages that look names up and read no header. */
#define jx_status_name jx_status_name_inline
#define jx_check jx_check_inline
#define jx_explain jx_explain_inline
#define jx_compact jx_compact_inline
#define jx_reader_start jx_reader_start_inline
#define jx_at jx_at_inline
#define jx_at_all jx_at_all_inline
#define jx_finder_new jx_finder_new_inline
#define jx_finder_feed jx_finder_feed_inline
#define jx_finder_end jx_finder_end_inline
#define jx_finder_free jx_finder_free_inline
#define jx_values_new jx_values_new_inline
#define jx_values_feed jx_values_feed_inline
#define jx_values_take jx_values_take_inline
#define jx_values_end jx_values_end_inline
#define jx_values_free jx_values_free_inline
#define jx_rows jx_rows_inline
#define jx_index_new jx_index_new_inline
#define jx_index_find jx_index_find_inline
#define jx_index_row jx_index_row_inline
#define jx_index_free jx_index_free_inline
#define jx_shelf_new jx_shelf_new_inline
#define jx_shelf_share jx_shelf_share_inline
#define jx_shelf_put jx_shelf_put_inline
#define jx_shelf_text jx_shelf_text_inline
#define jx_shelf_find jx_shelf_find_inline
#define jx_shelf_row jx_shelf_row_inline
#define jx_shelf_free jx_shelf_free_inline
#define jx_save_new jx_save_new_inline
#define jx_save_new_with_names jx_save_new_with_names_inline
#define jx_save_feed jx_save_feed_inline
#define jx_save_end jx_save_end_inline
#define jx_save_take jx_save_take_inline
#define jx_save_free jx_save_free_inline
#define jx_saved_open jx_saved_open_inline
#define jx_saved_about jx_saved_about_inline
#define jx_saved_seek jx_saved_seek_inline
#define jx_saved_split jx_saved_split_inline
#define jx_saved_needs jx_saved_needs_inline
#define jx_saved_give jx_saved_give_inline
#define jx_saved_answers jx_saved_answers_inline
#define jx_saved_parts jx_saved_parts_inline
#define jx_saved_chunk jx_saved_chunk_inline
#define jx_saved_check jx_saved_check_inline
#define jx_saved_free jx_saved_free_inline
#define jx_saved_find jx_saved_find_inline
#define jx_elements jx_elements_inline
#define jx_lines_new jx_lines_new_inline
#define jx_lines_feed jx_lines_feed_inline
#define jx_lines_take jx_lines_take_inline
#define jx_lines_end jx_lines_end_inline
#define jx_lines_free jx_lines_free_inline
#define jx_document_new jx_document_new_inline
#define jx_document_edit jx_document_edit_inline
#define jx_document_verdict jx_document_verdict_inline
#define jx_document_size jx_document_size_inline
#define jx_document_copy jx_document_copy_inline
#define jx_document_free jx_document_free_inline
#include "jx.h"
#undef jx_status_name
#undef jx_check
#undef jx_explain
#undef jx_compact
#undef jx_reader_start
#undef jx_at
#undef jx_at_all
#undef jx_finder_new
#undef jx_finder_feed
#undef jx_finder_end
#undef jx_finder_free
#undef jx_values_new
#undef jx_values_feed
#undef jx_values_take
#undef jx_values_end
#undef jx_values_free
#undef jx_rows
#undef jx_index_new
#undef jx_index_find
#undef jx_index_row
#undef jx_index_free
#undef jx_shelf_new
#undef jx_shelf_share
#undef jx_shelf_put
#undef jx_shelf_text
#undef jx_shelf_find
#undef jx_shelf_row
#undef jx_shelf_free
#undef jx_save_new
#undef jx_save_new_with_names
#undef jx_save_feed
#undef jx_save_end
#undef jx_save_take
#undef jx_save_free
#undef jx_saved_open
#undef jx_saved_about
#undef jx_saved_seek
#undef jx_saved_split
#undef jx_saved_needs
#undef jx_saved_give
#undef jx_saved_answers
#undef jx_saved_parts
#undef jx_saved_chunk
#undef jx_saved_check
#undef jx_saved_free
#undef jx_saved_find
#undef jx_elements
#undef jx_lines_new
#undef jx_lines_feed
#undef jx_lines_take
#undef jx_lines_end
#undef jx_lines_free
#undef jx_document_new
#undef jx_document_edit
#undef jx_document_verdict
#undef jx_document_size
#undef jx_document_copy
#undef jx_document_free

const char *jx_status_name(uint32_t status) { return jx_status_name_inline(status); }

uint32_t jx_check(const uint8_t *text, size_t size, const jx_settings *settings, jx_verdict *verdict) {
    return jx_check_inline(text, size, settings, verdict);
}

uint32_t jx_explain(const uint8_t *text, size_t size, const jx_settings *settings, const jx_verdict *verdict, uint8_t *sentence,
                    size_t room, size_t *sentence_size, jx_place *place) {
    return jx_explain_inline(text, size, settings, verdict, sentence, room, sentence_size, place);
}

uint32_t jx_compact(const uint8_t *text, size_t size, const jx_settings *settings, uint8_t *compact, size_t room,
                    size_t *compact_size, jx_verdict *verdict) {
    return jx_compact_inline(text, size, settings, compact, room, compact_size, verdict);
}

uint32_t jx_reader_start(jx_reader *reader, const jx_settings *settings) { return jx_reader_start_inline(reader, settings); }

uint32_t jx_at(const uint8_t *text, size_t size, const uint8_t *pointer, size_t pointer_size, const jx_settings *settings,
               jx_answer *answer) {
    return jx_at_inline(text, size, pointer, pointer_size, settings, answer);
}

uint32_t jx_at_all(const uint8_t *text, size_t size, const jx_settings *settings, const jx_pointer *pointers, size_t count,
                   jx_answer *answers, size_t room) {
    return jx_at_all_inline(text, size, settings, pointers, count, answers, room);
}

uint32_t jx_finder_new(const jx_pointer *pointers, size_t count, const jx_settings *settings, jx_finder *finder) {
    return jx_finder_new_inline(pointers, count, settings, finder);
}

uint32_t jx_finder_feed(jx_finder *finder, const uint8_t *bytes, size_t size) { return jx_finder_feed_inline(finder, bytes, size); }

uint32_t jx_finder_end(jx_finder *finder, jx_answer *answers, size_t room) { return jx_finder_end_inline(finder, answers, room); }

void jx_finder_free(jx_finder *finder) { jx_finder_free_inline(finder); }

uint32_t jx_values_new(const uint8_t *pointer, size_t pointer_size, const jx_settings *settings, jx_values *values) {
    return jx_values_new_inline(pointer, pointer_size, settings, values);
}

uint32_t jx_values_feed(jx_values *values, const uint8_t *bytes, size_t size) { return jx_values_feed_inline(values, bytes, size); }

uint32_t jx_values_take(jx_values *values, uint8_t *lines, size_t room, size_t *size) {
    return jx_values_take_inline(values, lines, room, size);
}

uint32_t jx_values_end(jx_values *values, jx_outcome *outcome) { return jx_values_end_inline(values, outcome); }

void jx_values_free(jx_values *values) { jx_values_free_inline(values); }

uint32_t jx_rows(const uint8_t *text, size_t size, const jx_settings *settings, jx_row *rows, size_t room, size_t *count,
                 jx_verdict *verdict) {
    return jx_rows_inline(text, size, settings, rows, room, count, verdict);
}

uint32_t jx_index_new(const uint8_t *text, size_t size, const jx_settings *settings, jx_index *index, jx_verdict *verdict) {
    return jx_index_new_inline(text, size, settings, index, verdict);
}

uint32_t jx_index_find(jx_index *index, const uint8_t *pointer, size_t pointer_size, jx_answer *answer) {
    return jx_index_find_inline(index, pointer, pointer_size, answer);
}

uint32_t jx_index_row(jx_index *index, size_t number, jx_row *row) { return jx_index_row_inline(index, number, row); }

void jx_index_free(jx_index *index) { jx_index_free_inline(index); }

uint32_t jx_shelf_new(jx_shelf *shelf) { return jx_shelf_new_inline(shelf); }

uint32_t jx_shelf_share(jx_shelf *shelf, jx_shelf *other) { return jx_shelf_share_inline(shelf, other); }

uint32_t jx_shelf_put(jx_shelf *shelf, jx_index *index) { return jx_shelf_put_inline(shelf, index); }

uint32_t jx_shelf_text(jx_shelf *shelf, jx_text *text) { return jx_shelf_text_inline(shelf, text); }

uint32_t jx_shelf_find(jx_shelf *shelf, const uint8_t *pointer, size_t pointer_size, jx_answer *answer) {
    return jx_shelf_find_inline(shelf, pointer, pointer_size, answer);
}

uint32_t jx_shelf_row(jx_shelf *shelf, size_t number, jx_row *row) { return jx_shelf_row_inline(shelf, number, row); }

void jx_shelf_free(jx_shelf *shelf) { jx_shelf_free_inline(shelf); }

uint32_t jx_save_new(const jx_settings *settings, size_t chunk, jx_save *save) {
    return jx_save_new_inline(settings, chunk, save);
}

uint32_t jx_save_new_with_names(const jx_settings *settings, size_t chunk, jx_save *save) {
    return jx_save_new_with_names_inline(settings, chunk, save);
}

uint32_t jx_save_feed(jx_save *save, const uint8_t *bytes, size_t size) { return jx_save_feed_inline(save, bytes, size); }

uint32_t jx_save_end(jx_save *save, size_t *index_size, jx_verdict *verdict) {
    return jx_save_end_inline(save, index_size, verdict);
}

uint32_t jx_save_take(jx_save *save, uint8_t *index, size_t room, size_t *index_size) {
    return jx_save_take_inline(save, index, room, index_size);
}

void jx_save_free(jx_save *save) { jx_save_free_inline(save); }

uint32_t jx_saved_open(const uint8_t *index, size_t index_size, size_t text_size, jx_saved *saved) {
    return jx_saved_open_inline(index, index_size, text_size, saved);
}

uint32_t jx_saved_about(jx_saved *saved, jx_saved_text *text) { return jx_saved_about_inline(saved, text); }

uint32_t jx_saved_seek(jx_saved *saved, const jx_pointer *pointers, size_t count) {
    return jx_saved_seek_inline(saved, pointers, count);
}

uint32_t jx_saved_split(jx_saved *saved, const jx_span *container, size_t parts) {
    return jx_saved_split_inline(saved, container, parts);
}

uint32_t jx_saved_needs(jx_saved *saved, jx_span *need) { return jx_saved_needs_inline(saved, need); }

uint32_t jx_saved_give(jx_saved *saved, const uint8_t *bytes, size_t size) { return jx_saved_give_inline(saved, bytes, size); }

uint32_t jx_saved_answers(jx_saved *saved, jx_answer *answers, size_t room) {
    return jx_saved_answers_inline(saved, answers, room);
}

uint32_t jx_saved_parts(jx_saved *saved, jx_part *parts, size_t room, size_t *count) {
    return jx_saved_parts_inline(saved, parts, room, count);
}

uint32_t jx_saved_chunk(jx_saved *saved, size_t at, jx_span *chunk) { return jx_saved_chunk_inline(saved, at, chunk); }

uint32_t jx_saved_check(jx_saved *saved, size_t at, const uint8_t *bytes, size_t size) {
    return jx_saved_check_inline(saved, at, bytes, size);
}

void jx_saved_free(jx_saved *saved) { jx_saved_free_inline(saved); }

uint32_t jx_saved_find(jx_saved *saved, jx_read_at read_at, void *context, uint8_t *buffer, size_t room,
                       const jx_pointer *pointers, size_t count, jx_answer *answers) {
    return jx_saved_find_inline(saved, read_at, context, buffer, room, pointers, count, answers);
}

uint32_t jx_elements(const uint8_t *sequence, size_t size, const jx_settings *settings, jx_element *elements, size_t room,
                     size_t *count) {
    return jx_elements_inline(sequence, size, settings, elements, room, count);
}

uint32_t jx_lines_new(const jx_settings *settings, jx_lines *lines) { return jx_lines_new_inline(settings, lines); }

uint32_t jx_lines_feed(jx_lines *lines, const uint8_t *bytes, size_t size) { return jx_lines_feed_inline(lines, bytes, size); }

uint32_t jx_lines_take(jx_lines *lines, jx_line *bad, size_t room, size_t *count) {
    return jx_lines_take_inline(lines, bad, room, count);
}

uint32_t jx_lines_end(jx_lines *lines, jx_line *last, jx_line_counts *counts) { return jx_lines_end_inline(lines, last, counts); }

void jx_lines_free(jx_lines *lines) { jx_lines_free_inline(lines); }

uint32_t jx_document_new(const uint8_t *text, size_t size, const jx_settings *settings, jx_document *document) {
    return jx_document_new_inline(text, size, settings, document);
}

uint32_t jx_document_edit(jx_document *document, size_t start, size_t end, const uint8_t *replacement, size_t size) {
    return jx_document_edit_inline(document, start, end, replacement, size);
}

uint32_t jx_document_verdict(jx_document *document, jx_verdict *verdict) { return jx_document_verdict_inline(document, verdict); }

uint32_t jx_document_size(jx_document *document, size_t *size) { return jx_document_size_inline(document, size); }

uint32_t jx_document_copy(jx_document *document, size_t start, uint8_t *bytes, size_t size) {
    return jx_document_copy_inline(document, start, bytes, size);
}

void jx_document_free(jx_document *document) { jx_document_free_inline(document); }
