/* The targets: each holds some calls to the plain readers. */
#ifndef TARGETS_H
#define TARGETS_H

#include "../harness.h"

void check_texts(input *in);         /* all flags, depths around the text's own; too great a depth, an unknown flag */
void feed_readers(input *in);        /* after each slice, cut anywhere; a copied reader goes on; no memory is asked for */
void feed_forged_readers(input *in); /* words that no call wrote: a status of the header, and no byte outside of the struct */
void list_rows(input *in);           /* too little, just enough and more room; what stands behind is unchanged */
void look_up(input *in);             /* one pointer after another, and many at once */
void look_up_in_indexes(input *in);  /* pointers and rows, with no request for memory */
void list_elements(input *in);       /* too little, just enough and more room */
void edit_documents(input *in);      /* bytes and verdict after each edit, in texts of up to 3 MiB, also at the ends of chunks */
void join_runs(input *in);           /* up to 12 parts, joined in any order */
void forge_runs(input *in);          /* fields of runs are changed and sealed: refused, or with the verdict that docs/FORMAT.md gives them */
void take_any_runs(input *in);       /* any bytes as runs */
void compact_texts(input *in);       /* too little, just enough and more room; the form reads as the same values */
void explain_texts(input *in);       /* too little, just enough and more room; the sentence names all that may stand there */
void feed_lines(input *in);          /* cut anywhere, too little and just enough room; a reader that wants memory is lost */
void feed_values(input *in);         /* cut anywhere, several pointers; what was taken is what is due; a stream that wants memory is lost */
void find_in_saved(input *in);       /* chunks from 64 bytes, changed chunks told, the answers of the text, the parts of a container */
void open_forged_saved(input *in);   /* an index that is changed and sealed: a status of the header, and calls that end */

#endif
