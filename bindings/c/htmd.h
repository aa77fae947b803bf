/*
 * HTML to Markdown: the proved converter, for C.
 *
 *     htmd_options options;
 *     htmd_default_options(&options);
 *     status = htmd_convert(html, html_len, &options, out, out_len, &needed, &place, &kind);
 *
 * or for a page in any encoding, or for parts of it:
 *
 *     htmd_page_options options;
 *     htmd_default_page_options(&options);
 *     options.options.reader = HTMD_HTML5;
 *     options.select.bytes = (const uint8_t *)"main";
 *     options.select.len = 4;
 *     status = htmd_convert_page(page, page_len, &options, out, out_len, &needed, &place, &kind);
 *
 * Texts are bytes in UTF-8 with a length, without a 0 at the end; places are bytes from 0.
 *
 * What is proved holds for callers that meet these conditions; nothing checks them.
 * - No pointer is null, not even where its length is 0, and each has as many bytes as its length says.
 * - What is written (out, needed, place, kind, options, line, column) overlaps nothing else that is passed.
 * - malloc, realloc and free are one allocator, which aligns a block to each power of two up to 16 that divides its
 *   size.
 * - No call is made in a signal handler, nor in the forked child of a process with threads.
 * - The calling thread has HTMD_STACK bytes of stack left.
 * Calls from several threads at once are fine: the library keeps nothing between calls and has no lock.
 */
#ifndef HTMD_H
#define HTMD_H

#include <stddef.h>
#include <stdint.h>

#ifdef __cplusplus
extern "C" {
#endif

/* The version of the library. */
#define HTMD_VERSION "0.6.0"

/* The version of the struct below. */
#define HTMD_OPTIONS_VERSION 1

/* The bytes of stack that are enough for a call. That is measured, and not proved: README.md says how much the deepest
 * texts took. */
#define HTMD_STACK (4 * 1024 * 1024)

/* Later versions may add readers and values, with numbers that are bad options today; no number changes its meaning. */

/* reader: how the text is read */
enum {
    HTMD_STRICT = 0, /* all of it, by the strict grammar */
    HTMD_PAGE = 1,   /* what is between the tags of the page's body, by the same grammar */
    HTMD_HTML5 = 2   /* any page, as browsers read it; none is refused */
};

/* mode: what is written for a page */
enum {
    HTMD_PURE = 0,     /* the Markdown of the Rust crate htmd */
    HTMD_FAITHFUL = 1, /* the same, but what Markdown can't express stays HTML */
    HTMD_GUARDED = 2   /* what a reader sees, without styles, so that its Markdown is read back as the same */
};

/* output: the form in which it is written */
enum {
    HTMD_MARKDOWN = 0, /* Markdown */
    HTMD_MDAST = 1     /* what a reader sees, as JSON in the form of mdast; mode and styles have no effect then */
};

/* chunk_bytes: pieces are lines of JSON, each with a line feed behind it; mode, output and link_style have no effect
 * then. crates/htmd_chunks/README.md of the repository says where pages are cut, and what the lines have. */

/* anchors: which places of links the document has that a reader sees */
enum {
    HTMD_ANCHORS_LINKED = 0, /* those that links of the page lead to */
    HTMD_ANCHORS_ALL = 1,    /* all: links of other pages may lead there */
    HTMD_ANCHORS_NONE = 2    /* none */
};

/* images: how they are kept */
enum {
    HTMD_IMAGES_KEEP = 0,   /* as they are */
    HTMD_IMAGES_LINKED = 1, /* those that have an address; those whose data stands in the page are their text */
    HTMD_IMAGES_ALT = 2,    /* each is its text */
    HTMD_IMAGES_DROP = 3    /* none is kept */
};

enum { HTMD_HEADING_ATX = 0, HTMD_HEADING_SETEXT = 1 };
enum { HTMD_HR_ASTERISKS = 0, HTMD_HR_DASHES = 1, HTMD_HR_UNDERSCORES = 2 };
enum { HTMD_BR_TWO_SPACES = 0, HTMD_BR_BACKSLASH = 1 };
enum { HTMD_LINK_INLINED = 0, HTMD_LINK_INLINED_PREFER_AUTOLINKS = 1, HTMD_LINK_REFERENCED = 2 };
enum { HTMD_REFERENCE_FULL = 0, HTMD_REFERENCE_COLLAPSED = 1, HTMD_REFERENCE_SHORTCUT = 2 };
enum { HTMD_CODE_FENCED = 0, HTMD_CODE_INDENTED = 1 };
enum { HTMD_FENCE_BACKTICKS = 0, HTMD_FENCE_TILDES = 1 };
enum { HTMD_BULLET_ASTERISK = 0, HTMD_BULLET_DASH = 1 };

/* The options of a conversion. Fill the struct with htmd_default_options, and then change fields. */
typedef struct htmd_options {
    uint8_t version; /* HTMD_OPTIONS_VERSION */
    uint8_t reader;
    uint8_t mode;
    uint8_t scripting; /* 1: the content of noscript is one text; 0: it is nodes */
    uint8_t heading_style;
    uint8_t hr_style;
    uint8_t br_style;
    uint8_t link_style;
    uint8_t link_reference_style;
    uint8_t code_block_style;
    uint8_t code_block_fence;
    uint8_t bullet_list_marker;
    uint8_t ul_bullet_spacing; /* any number; the spaces after the marker of an item of a bullet list; Guarded 1 to 4 */
    uint8_t ol_number_spacing; /* any number; the spaces after the longest number of an ordered list; Guarded 1 to 4 */
    uint8_t preformatted_code; /* 1: the white space of a code span is kept; 0: it is not */
    uint8_t output;
    uint8_t front_matter;      /* 1: what the head of the page says about it is written first; 0: it is not */
    uint8_t anchors;
    uint8_t rich;              /* 1: the document also says what Markdown has no form for; 0: it doesn't */
    uint8_t article;           /* 1: only the main content of the page is converted; 0: all of it */
    uint8_t visible;           /* 1: what the page hides by its attributes is left out; 0: it is not */
    uint8_t images;
    uint8_t links_as_text;     /* 1: links are written as their text; 0: with their addresses */
    uint8_t title;             /* 1: the page's title comes first, as a heading, if no h1 shows anything; 0: no */
    uint32_t chunk_bytes;      /* not 0: pieces of at most so many bytes of Markdown are written; 0: all in one */
    uint8_t reserved[4];       /* 0 */
} htmd_options;

/* A text, and the number of its bytes. With none it says nothing; the pointer isn't null even then. */
typedef struct htmd_text {
    const uint8_t *bytes;
    size_t len;
} htmd_text;

/* The options of a page. Fill the struct with htmd_default_page_options, and then change fields. */
typedef struct htmd_page_options {
    htmd_options options;
    htmd_text select;   /* only the outermost elements that these selectors name are converted: main,.note */
    htmd_text drop;     /* the elements that these selectors name are left out, before others are selected */
    htmd_text skip;     /* elements with these names give nothing: nav,footer */
    htmd_text base;     /* the URL of the page: addresses are made absolute */
    htmd_text encoding; /* the label of the encoding of a page whose bytes have no mark: windows-1252 */
} htmd_page_options;

/* The status that a call returns. */
enum {
    HTMD_DONE = 0,
    HTMD_TOO_SMALL = 1,  /* out_len is less than needed */
    HTMD_REFUSED = 2,    /* the text is outside the grammar */
    HTMD_NOT_UTF8 = 3,   /* the bytes are not UTF-8 */
    HTMD_NO_MEMORY = 4,  /* out of memory */
    HTMD_BAD_OPTIONS = 5, /* a field of the struct has a number that isn't valid for it */
    /* only htmd_convert_page returns these */
    HTMD_UNSUPPORTED = 6,      /* never returned: each encoding is supported */
    HTMD_NOTHING_SELECTED = 7, /* no element of the page is selected */
    HTMD_BAD_SELECT = 8,       /* select isn't selectors with commas between them */
    HTMD_BAD_DROP = 9,         /* drop isn't selectors with commas between them */
    HTMD_BAD_SKIP = 10,        /* skip isn't names with commas between them */
    HTMD_BAD_BASE = 11,        /* base isn't an absolute URL */
    HTMD_BAD_ENCODING = 12     /* encoding isn't the label of an encoding */
};

/* The kinds of a refusal; docs/GRAMMAR.md says what each means, and what to do. */
enum {
    HTMD_NUL = 1,
    HTMD_MALFORMED_TAG = 2,
    HTMD_MALFORMED_COMMENT = 3,
    HTMD_MALFORMED_DECLARATION = 4,
    HTMD_UNKNOWN_REFERENCE = 5,
    HTMD_BAD_NUMBER = 6,
    HTMD_DUPLICATE_ATTRIBUTE = 7,
    HTMD_SELF_CLOSING = 8,
    HTMD_TAG_OUTSIDE = 9,
    HTMD_NOT_ALLOWED_HERE = 10,
    HTMD_STRAY_END_TAG = 11,
    HTMD_STRAY_TEXT = 12,
    HTMD_UNCLOSED = 13,
    HTMD_SCRIPT_ESCAPE = 14,
    HTMD_TOO_DEEP = 15
};

/* Writes the default options: strict, Pure, scripting on, spacings of 3 and 2, 0 in all other fields, so Markdown. */
void htmd_default_options(htmd_options *options);

/* Writes the default options of a page: those above, and no texts. */
void htmd_default_page_options(htmd_page_options *options);

/*
 * Writes the Markdown of a text, its JSON or its pieces to the front of out, and returns the status. It checks the
 * options first, then whether the bytes are UTF-8.
 *
 * needed: with HTMD_DONE and HTMD_TOO_SMALL the length of the whole output, else 0.
 * place: with HTMD_REFUSED the place of the first U+0000 of what is read, if it has one, and else the first place where
 * the text is wrong; with HTMD_NOT_UTF8 the first bad byte; else 0.
 * kind: with HTMD_REFUSED the kind, else 0.
 *
 * Nothing is written to out unless the status is HTMD_DONE, and then only the first needed bytes. Each call converts
 * the text again, so a buffer that is large enough the first time saves a conversion. Most Markdown is shorter than its
 * HTML, but that of a text made for it can be thousands of times as long, and takes memory accordingly.
 */
uint32_t htmd_convert(const uint8_t *html, size_t html_len, const htmd_options *options, uint8_t *out, size_t out_len,
                      size_t *needed, size_t *place, uint8_t *kind);

/*
 * The same for a page. With HTMD_HTML5 its bytes may be in any encoding that is supported: a byte order mark at their
 * beginning says it, and else options.encoding; without that, bytes in UTF-8 are taken as such, and else what the page
 * says about itself counts.
 */
uint32_t htmd_convert_page(const uint8_t *page, size_t page_len, const htmd_page_options *options, uint8_t *out,
                           size_t out_len, size_t *needed, size_t *place, uint8_t *kind);

/*
 * Writes the HTML of Markdown, as CommonMark 0.31.2 and GitHub (tables, strikethrough, tasks) say it, to the front of
 * out, and returns the status: HTMD_DONE, HTMD_TOO_SMALL, HTMD_NOT_UTF8 or HTMD_NO_MEMORY. needed and place are as
 * above, and out too. HTML that stands in the Markdown stays as it is, also what isn't safe to show.
 */
uint32_t htmd_markdown_to_html(const uint8_t *markdown, size_t markdown_len, uint8_t *out, size_t out_len,
                               size_t *needed, size_t *place);

/*
 * The line and the column of a place in a text, both from 1. A line ends with a line feed, a carriage return and a line
 * feed, or a carriage return; columns are characters. The status is HTMD_DONE, or HTMD_NOT_UTF8 and both are 0.
 */
uint32_t htmd_line_and_column(const uint8_t *html, size_t html_len, size_t place, size_t *line, size_t *column);

#ifdef __cplusplus
}
#endif

#endif
