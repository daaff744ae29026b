/* What the files of the planner's page share. */
#ifndef HTML_H
#define HTML_H

#include "command.h"

/* How many sums, in centavos, the old engine could tell apart: it kept them modulo this number. */
#define OLD_LIMIT 4294967296u

/* Writes the style sheet (html_style.c). */
void html_style(FILE *out);

/* Writes text between tags or in an attribute (html.c): control characters as ?, bytes that are not UTF-8 as U+FFFD. */
void html_text(FILE *out, const char *text);

/* The table of the lanes, with its legend and its notes (html_table.c). */
void html_table(FILE *out, const struct shown *shown);

/* The bars (html_bar.c): logarithmic, from 1 centavo on. */

/* The last sum of the scale: 10^12 centavos, or 10^15 or 10^18 if the board has more. */
uint64_t html_scale_end(const hollytrot_board *board);
/* The bar of a sum: solid up to what the old engine would have shown, striped from there on; and the red line. */
void html_bar(FILE *out, uint64_t centavos, uint64_t end);
/* The words at the grey lines of the bars. */
void html_axis(FILE *out, uint64_t end);

#endif
