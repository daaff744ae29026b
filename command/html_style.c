/* The style sheet of the planner's page: light or dark as the reader's system is, cards on narrow screens, and black on
 * white on paper. Nothing is said by colour alone. */
#include "html.h"

#define LIGHT \
    "--paper:#fff;--ink:#1a1f26;--soft:#56606c;--line:#d9dee4;--grid:#bfc7d0;--bar:#41709f;--edge:none;" \
    "--limit:#d0121d;--wrong:#a3131c;--band:#fdf2f1;--good:#17713a"
#define DARK \
    "--paper:#12161b;--ink:#e5eaf0;--soft:#a0abb7;--line:#323a44;--grid:#4a545f;--bar:#6fa3d6;" \
    "--limit:#ff5c5c;--wrong:#ff9d98;--band:#2a1b1e;--good:#5cc983"
#define FORCED \
    "--paper:Canvas;--ink:CanvasText;--soft:CanvasText;--line:GrayText;--grid:GrayText;--bar:CanvasText;" \
    "--limit:red;--wrong:CanvasText;--good:CanvasText"
#define PAPER \
    "--paper:#fff;--ink:#000;--soft:#222;--line:#999;--grid:#999;--bar:#999;--edge:#000;--limit:#c00;" \
    "--wrong:#000;--band:none;--good:#000"

static const char colours[] =
    ":root{color-scheme:light dark;" LIGHT "}\n"
    "@media screen and (prefers-color-scheme:dark){:root{" DARK "}}\n"
    "@media (forced-colors:active){:root{" FORCED "}}\n"
    "@media print{:root{font-size:9pt;" PAPER "}}\n";

/* The page, its sentence and its figures. */
static const char page[] =
    "*{box-sizing:border-box}\n"
    "body{margin:0;background:var(--paper);color:var(--ink);font:1rem/1.45 'Segoe UI',-apple-system,Roboto,\n"
    "'Noto Sans','Liberation Sans','DejaVu Sans Condensed',system-ui,sans-serif;\n"
    "font-variant-numeric:tabular-nums lining-nums}\n"
    "main{max-width:72rem;margin:0 auto;padding:2.5rem 1.5rem 3rem}\n"

    "header p{margin:.35rem 0;max-width:48rem}\n"
    ".brand{color:var(--soft);font-size:.875rem;overflow-wrap:anywhere}\n"
    "h1{display:flex;gap:.75rem;margin:.5rem 0 .75rem;font-size:1.5rem;line-height:1.3;font-weight:600;\n"
    "overflow-wrap:anywhere}\n"
    "h1 svg{flex:none;width:1.5rem;height:1.5rem;margin-top:.22rem;fill:var(--good)}\n"
    "h1 .refused{fill:var(--wrong)}\n"
    "h1 path{fill:none;stroke:var(--paper);stroke-width:2.4}\n"
    ".warning{color:var(--wrong);font-weight:600}\n"
    ".figures{display:flex;flex-wrap:wrap;justify-content:space-between;gap:1rem 2rem;margin:1.75rem 0 2.25rem;\n"
    "padding:1rem 0;border:solid var(--line);border-width:1px 0}\n"
    ".figures dt{color:var(--soft);font-size:.8125rem}\n"
    ".figures dd{margin:0;font-size:1.125rem;font-weight:600;white-space:nowrap}\n"
    ".empty{margin:0;padding:2rem 0;font-size:1.125rem}\n";

static const char table[] =
    "table{width:100%;border-collapse:separate;border-spacing:0}\n"
    "caption{margin-bottom:.5rem;text-align:left;font-size:1.125rem;font-weight:600}\n"
    ".legend{display:flex;flex-wrap:wrap;gap:.25rem 1.75rem;margin:.35rem 0;color:var(--soft);font-size:.875rem;\n"
    "font-weight:400}\n"
    ".key{width:2.25em;height:1em;margin-right:.5em;vertical-align:-.125em;overflow:visible}\n"
    ".thin{width:.5em}\n"
    "th,td{padding:.5rem .75rem;vertical-align:top;text-align:right;white-space:nowrap;\n"
    "border-bottom:1px solid var(--line)}\n"
    "th{text-align:left;font-weight:600;white-space:normal}\n"
    "thead th{position:sticky;top:0;z-index:1;background:var(--paper);vertical-align:bottom;color:var(--soft);\n"
    "font-size:.8125rem;text-align:right;text-wrap:balance;border-bottom:2px solid var(--line)}\n"
    "thead .insurer,thead .part{text-align:left}\n"
    "tbody th{min-width:9rem}\n"
    ".issuer{white-space:nowrap}\n"
    ".name{display:block;color:var(--soft);font-size:.875rem;font-weight:400;overflow-wrap:anywhere}\n"
    "td.received{font-weight:600}\n"
    "td.part{position:relative;width:34%;min-width:17rem;height:3.5rem;text-align:left;color:var(--soft);\n"
    "font-size:.875rem}\n"
    "thead .old{min-width:10rem}\n"
    "td.old{color:var(--soft)}\n"
    ".wraps{background:var(--band)}\n"
    ".wraps td.old{color:var(--wrong);font-weight:600}\n"
    "td strong{display:block;width:fit-content;max-width:10rem;margin:.15rem 0 0 auto;padding:0 .4rem;\n"
    "font-size:.8125rem;white-space:normal;border:1px solid;border-radius:.2rem}\n"
    "tfoot th,tfoot td{border-top:1px solid var(--ink);border-bottom:1px solid var(--ink)}\n";

static const char bars[] =
    ".bar{position:absolute;left:.75rem;top:0;width:calc(100% - 1.5rem);height:100%;overflow:visible}\n"
    ".axis{display:block;width:100%;height:1rem;margin-top:.25rem;overflow:visible;fill:var(--soft);\n"
    "font-size:.6875rem;font-weight:400;text-anchor:middle}\n"
    ".grid{stroke:var(--grid)}\n"
    ".shown{fill:var(--bar);stroke:var(--edge)}\n"
    ".lost{fill:var(--paper);stroke:var(--wrong)}\n"
    ".stripes{stroke:var(--wrong);stroke-width:.75em;stroke-dasharray:2 4}\n"
    ".limit{stroke:var(--limit);stroke-width:2}\n";

static const char notes[] =
    "h2{margin:2.5rem 0 .5rem;font-size:1.125rem;font-weight:600}\n"
    ".notes{display:grid;grid-template-columns:repeat(auto-fit,minmax(18rem,1fr));gap:1rem 2rem;margin:0;\n"
    "font-size:.875rem}\n"
    ".notes dt{font-weight:600}\n"
    ".notes dd{margin:0;color:var(--soft)}\n";

/* On a narrow screen a row is a card, whose cells have their column's words in front of them; of the head only the
 * words of the bars' grey lines are seen. */
static const char narrow[] =
    "@media screen and (max-width:60rem){\n"
    "main{padding:1.5rem 1rem 2rem}\n"
    ".figures{justify-content:flex-start;gap:.75rem 1.75rem}\n"
    "table,thead,tbody,tfoot,th,td,caption{display:block}\n"
    "thead th,thead span{position:absolute;width:1px;height:1px;overflow:hidden;clip-path:inset(50%)}\n"
    "thead th.part{position:static;width:auto;height:auto;overflow:visible;clip-path:none}\n"
    "tr{display:grid;grid-template-columns:repeat(auto-fit,minmax(14rem,1fr));padding:.5rem 0;\n"
    "border-top:1px solid var(--line)}\n"
    "tfoot tr{border-color:var(--ink)}\n"
    "thead tr{display:block;padding:0;border:0}\n"
    "th,td,thead th,tfoot th,tfoot td{padding:.2rem .75rem;border:0}\n"
    "tbody th,tfoot th,td.received,td.part,td.old{grid-column:1/-1}\n"
    "td,td.part{display:flex;flex-wrap:wrap;align-items:baseline;gap:0 1rem;width:auto;min-width:0;height:auto}\n"
    "td::before{content:attr(data-column);content:attr(data-column)/'';flex:1 1 5rem;color:var(--soft);\n"
    "font-size:.875rem;font-weight:400;text-align:left;white-space:normal}\n"
    "td.received{order:1}td.part{order:2}td.old{order:3}td.payments{order:4}td.tariffs{order:5}\n"
    ".bar{position:static;flex:0 0 100%;height:3.5em;margin-top:-1.75em;clip-path:inset(2em -2px 0)}\n"
    "}\n";

/* On paper no row is cut, the head is repeated, and the total is on the last page only. */
static const char print[] =
    "@media print{\n"
    "@page{margin:14mm}\n"
    "main{max-width:none;padding:0}\n"
    "thead th{position:static}\n"
    "tfoot{display:table-row-group}\n"
    "tr,dl div{break-inside:avoid}\n"
    "h1,h2,caption{break-after:avoid}\n"
    "th,td{padding:.4rem .5rem}\n"
    "td.part{min-width:12rem}\n"
    "tbody th{min-width:7rem}\n"
    ".bar{left:.5rem;width:calc(100% - 1rem)}\n"
    "}\n";

void html_style(FILE *out)
{
    fprintf(out, "%s%s%s%s%s%s%s", colours, page, table, bars, notes, narrow, print);
}
