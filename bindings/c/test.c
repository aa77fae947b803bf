/* Tests of the library from C: what no clause can say of the header, of the linking and of real calls. With one request
 * for memory refused after the other it is linked so that malloc and realloc are those below. */
#define _POSIX_C_SOURCE 200112L

#include "htmd.h"

#include <pthread.h>
#include <stddef.h>
#include <stdio.h>
#include <stdlib.h>
#include <string.h>

static int failures = 0;

#define CHECK(condition)                                                                                              \
    do {                                                                                                              \
        if (!(condition)) {                                                                                           \
            fprintf(stderr, "%s:%d: %s\n", __FILE__, __LINE__, #condition);                                           \
            failures++;                                                                                               \
        }                                                                                                             \
    } while (0)

enum { ROOM = 4096, UNTOUCHED = 0xA5 };

/* A call, and all that it answers. The buffer lies on the heap, so that valgrind sees what is written behind it. */
struct answer {
    uint32_t status;
    size_t needed;
    size_t place;
    uint8_t kind;
    uint8_t out[ROOM];
};

static struct answer call(const char *html, size_t html_len, const htmd_options *options, size_t out_len) {
    struct answer answer;
    uint8_t *text = malloc(html_len + 1);
    uint8_t *out = malloc(out_len + 1);
    if (text == NULL || out == NULL || out_len > ROOM)
        abort();
    memcpy(text, html, html_len);
    memset(out, UNTOUCHED, out_len + 1);
    text = realloc(text, html_len == 0 ? 1 : html_len);
    out = realloc(out, out_len == 0 ? 1 : out_len);
    answer.needed = answer.place = SIZE_MAX;
    answer.kind = UINT8_MAX;
    memset(answer.out, UNTOUCHED, ROOM);
    answer.status =
        htmd_convert(text, html_len, options, out, out_len, &answer.needed, &answer.place, &answer.kind);
    memcpy(answer.out, out, out_len);
    free(text);
    free(out);
    return answer;
}

static int is_untouched(const uint8_t *bytes, size_t from, size_t to) {
    for (size_t i = from; i < to; i++)
        if (bytes[i] != UNTOUCHED)
            return 0;
    return 1;
}

static int says(const struct answer *answer, const char *markdown) {
    size_t length = strlen(markdown);
    return answer->status == HTMD_DONE && answer->needed == length && memcmp(answer->out, markdown, length) == 0 &&
           is_untouched(answer->out, length, ROOM) && answer->place == 0 && answer->kind == 0;
}

static htmd_options defaults(void) {
    htmd_options options;
    memset(&options, UNTOUCHED, sizeof options);
    htmd_default_options(&options);
    return options;
}

static void test_struct(void) {
    htmd_options options = defaults();
    const uint8_t wanted[32] = {1, 0, 0, 1, 0, 0, 0, 0, 0, 0, 0, 0, 3, 2};
    CHECK(sizeof(htmd_options) == 32);
    CHECK(memcmp(&options, wanted, sizeof wanted) == 0);
    CHECK(offsetof(htmd_options, version) == 0);
    CHECK(offsetof(htmd_options, ul_bullet_spacing) == 12);
    CHECK(offsetof(htmd_options, output) == 15);
    CHECK(offsetof(htmd_options, front_matter) == 16);
    CHECK(offsetof(htmd_options, anchors) == 17);
    CHECK(offsetof(htmd_options, rich) == 18);
    CHECK(offsetof(htmd_options, article) == 19);
    CHECK(offsetof(htmd_options, visible) == 20);
    CHECK(offsetof(htmd_options, images) == 21);
    CHECK(offsetof(htmd_options, links_as_text) == 22);
    CHECK(offsetof(htmd_options, title) == 23);
    CHECK(offsetof(htmd_options, chunk_bytes) == 24);
    CHECK(offsetof(htmd_options, reserved) == 28);
}

/* A call for a page, into a buffer that is large enough. */
static struct answer call_page(const char *page, size_t page_len, const htmd_page_options *options) {
    struct answer answer;
    uint8_t *text = malloc(page_len + 1);
    if (text == NULL)
        abort();
    memcpy(text, page, page_len);
    answer.needed = answer.place = SIZE_MAX;
    answer.kind = UINT8_MAX;
    memset(answer.out, UNTOUCHED, ROOM);
    answer.status = htmd_convert_page(text, page_len, options, answer.out, ROOM, &answer.needed, &answer.place,
                                      &answer.kind);
    free(text);
    return answer;
}

static htmd_text text_of(const char *text) {
    htmd_text it = {(const uint8_t *)text, strlen(text)};
    return it;
}

static uint32_t status_of_page(const char *page, const htmd_page_options *options) {
    struct answer answer = call_page(page, strlen(page), options);
    CHECK(answer.status == HTMD_DONE || answer.needed == 0);
    CHECK(answer.status == HTMD_DONE || is_untouched(answer.out, 0, ROOM));
    return answer.status;
}

static void test_pages(void) {
    const char *page = "<title>T</title><nav>n</nav><main><p>a <a href=b>b</a><p class=note>c</main>";
    htmd_page_options options;
    memset(&options, UNTOUCHED, sizeof options);
    htmd_default_page_options(&options);
    CHECK(sizeof(htmd_page_options) == 32 + 10 * sizeof(size_t));
    CHECK(options.select.len == 0 && options.drop.len == 0 && options.skip.len == 0);
    CHECK(options.base.len == 0 && options.encoding.len == 0 && options.select.bytes != NULL);
    options.options.reader = HTMD_HTML5;
    options.select = text_of("main");
    options.drop = text_of(".note");
    struct answer answer = call_page(page, strlen(page), &options);
    CHECK(says(&answer, "a [b](b)"));
    options.select = text_of("");
    options.options.article = 1;
    answer = call_page(page, strlen(page), &options);
    CHECK(says(&answer, "a [b](b)"));
    options.options.article = 2;
    CHECK(status_of_page(page, &options) == HTMD_BAD_OPTIONS);
    options.options.article = 0;
    options.select = text_of("main");
    options.base = text_of("https://example.org/docs/");
    options.options.front_matter = 1;
    answer = call_page(page, strlen(page), &options);
    CHECK(says(&answer, "---\ntitle: \"T\"\n---\n\na [b](https://example.org/docs/b)"));
    options.skip = text_of("a,aside");
    answer = call_page(page, strlen(page), &options);
    CHECK(says(&answer, "---\ntitle: \"T\"\n---\n\na"));
    options.select = text_of("table");
    CHECK(status_of_page(page, &options) == HTMD_NOTHING_SELECTED);
    options.select = text_of("main >");
    CHECK(status_of_page(page, &options) == HTMD_BAD_SELECT);
    options.select = text_of("");
    options.drop = text_of("..");
    CHECK(status_of_page(page, &options) == HTMD_BAD_DROP);
    options.drop = text_of("");
    options.skip = text_of("a,,b");
    CHECK(status_of_page(page, &options) == HTMD_BAD_SKIP);
    options.skip = text_of("");
    options.base = text_of("docs/");
    CHECK(status_of_page(page, &options) == HTMD_BAD_BASE);
    options.base = text_of("");
    options.encoding = text_of("utf-7");
    CHECK(status_of_page(page, &options) == HTMD_BAD_ENCODING);
    options.options.version = 0;
    CHECK(status_of_page(page, &options) == HTMD_BAD_OPTIONS);
}

static void test_encodings(void) {
    const char *russian = "<p>\xf0\xd2\xc9\xd7\xc5\xd4";
    htmd_page_options options;
    htmd_default_page_options(&options);
    options.options.reader = HTMD_HTML5;
    options.encoding = text_of("koi8-r");
    struct answer answer = call_page(russian, strlen(russian), &options);
    CHECK(says(&answer, "\xd0\x9f\xd1\x80\xd0\xb8\xd0\xb2\xd0\xb5\xd1\x82"));
    options.encoding = text_of("");
    const char *chinese = "<meta charset=big5><p>\xa7\x41";
    answer = call_page(chinese, strlen(chinese), &options);
    CHECK(says(&answer, "\xe4\xbd\xa0"));
    options.options.reader = HTMD_STRICT;
    answer = call_page(russian, strlen(russian), &options);
    CHECK(answer.status == HTMD_NOT_UTF8 && answer.place == 3);
}

static void test_sizes(void) {
    const char *html = "<h1>Tea</h1><p>Use <b>fresh</b> water.</p>";
    const char *markdown = "# Tea\n\nUse **fresh** water.";
    size_t length = strlen(markdown);
    htmd_options options = defaults();
    for (size_t room = 0; room <= length + 2; room++) {
        struct answer answer = call(html, strlen(html), &options, room);
        if (room >= length) {
            CHECK(says(&answer, markdown));
            continue;
        }
        CHECK(answer.status == HTMD_TOO_SMALL);
        CHECK(answer.needed == length && answer.place == 0 && answer.kind == 0);
        CHECK(is_untouched(answer.out, 0, ROOM));
    }
    struct answer nothing = call("", 0, &options, 0);
    CHECK(says(&nothing, ""));
}

static void test_readers(void) {
    const char *page = "<!DOCTYPE html><html><head><title>t</title></head><body><h1>Hi</h1></body></html>";
    htmd_options options = defaults();
    struct answer refused = call(page, strlen(page), &options, ROOM);
    CHECK(refused.status == HTMD_REFUSED && refused.place == 15 && refused.kind == HTMD_TAG_OUTSIDE);
    CHECK(refused.needed == 0 && is_untouched(refused.out, 0, ROOM));
    options.reader = HTMD_PAGE;
    struct answer answer = call(page, strlen(page), &options, ROOM);
    CHECK(says(&answer, "# Hi"));
    const char *broken = "<ul><li>a<li>b</ul><p>x<b>y<p>z";
    answer = call(broken, strlen(broken), &options, ROOM);
    CHECK(answer.status == HTMD_REFUSED && answer.place == 9 && answer.kind == HTMD_NOT_ALLOWED_HERE);
    options.reader = HTMD_HTML5;
    answer = call(broken, strlen(broken), &options, ROOM);
    CHECK(says(&answer, "*   a\n*   b\n\nx**y**\n\n**z**"));
    answer = call("\xff", 1, &options, ROOM);
    CHECK(answer.status == HTMD_NOT_UTF8 && answer.place == 0);
}

static void test_options(void) {
    const char *html = "<h1>A</h1><hr><p>b<br>c <a href=\"/x\">d</a></p><ul><li>e</li></ul><ol><li>f</li></ol>"
                       "<pre><code>g</code></pre><p>h <code> i  j </code></p>";
    htmd_options options = defaults();
    struct answer plain = call(html, strlen(html), &options, ROOM);
    CHECK(says(&plain, "# A\n\n* * *\n\nb  \nc [d](/x)\n\n*   e\n\n1.  f\n\n```\ng\n```\n\nh `i  j`"));
    options.heading_style = HTMD_HEADING_SETEXT;
    options.hr_style = HTMD_HR_DASHES;
    options.br_style = HTMD_BR_BACKSLASH;
    options.link_style = HTMD_LINK_REFERENCED;
    options.link_reference_style = HTMD_REFERENCE_COLLAPSED;
    options.code_block_fence = HTMD_FENCE_TILDES;
    options.bullet_list_marker = HTMD_BULLET_DASH;
    options.ul_bullet_spacing = 1;
    options.ol_number_spacing = 1;
    options.preformatted_code = 1;
    struct answer other = call(html, strlen(html), &options, ROOM);
    CHECK(says(&other, "A\n=\n\n- - -\n\nb\\\nc [d][]\n\n- e\n\n1. f\n\n~~~\ng\n~~~\n\nh `  i  j  `\n\n[d]: /x"));
    options.code_block_style = HTMD_CODE_INDENTED;
    options.hr_style = HTMD_HR_UNDERSCORES;
    options.link_reference_style = HTMD_REFERENCE_SHORTCUT;
    other = call(html, strlen(html), &options, ROOM);
    CHECK(says(&other, "A\n=\n\n_ _ _\n\nb\\\nc [d]\n\n- e\n\n1. f\n\n    g\n\nh `  i  j  `\n\n[d]: /x"));
    options.link_style = HTMD_LINK_INLINED_PREFER_AUTOLINKS;
    const char *autolink = "<a href=\"http://a.b/\">http://a.b/</a>";
    struct answer link = call(autolink, strlen(autolink), &options, ROOM);
    CHECK(says(&link, "<http://a.b/>"));
}

static void test_modes(void) {
    const char *html = "<p>10<sup>3</sup> &amp;copy;</p>";
    htmd_options options = defaults();
    struct answer pure = call(html, strlen(html), &options, ROOM);
    CHECK(says(&pure, "103 &copy;"));
    options.mode = HTMD_GUARDED;
    struct answer guarded = call(html, strlen(html), &options, ROOM);
    CHECK(says(&guarded, "10<sup>3</sup> \\&copy;"));
    options.mode = HTMD_FAITHFUL;
    struct answer faithful = call(html, strlen(html), &options, ROOM);
    CHECK(says(&faithful, "10<sup>3</sup> &copy;"));
    options.output = HTMD_MDAST;
    struct answer mdast = call("<p>a<br>b</p>", 13, &options, ROOM);
    CHECK(says(&mdast, "{\"children\":[{\"children\":[{\"type\":\"text\",\"value\":\"a\"},{\"type\":\"break\"},"
                       "{\"type\":\"text\",\"value\":\"b\"}],\"type\":\"paragraph\"}],\"type\":\"root\"}"));
}

static void test_anchors(void) {
    const char *html = "<p id=x>a<p id=y>b<a href=#y>c</a>";
    htmd_options options = defaults();
    options.reader = HTMD_HTML5;
    options.mode = HTMD_GUARDED;
    struct answer linked = call(html, strlen(html), &options, ROOM);
    CHECK(says(&linked, "a\n\n<a id=\"y\"></a>b[c](#y)"));
    options.anchors = HTMD_ANCHORS_ALL;
    struct answer all = call(html, strlen(html), &options, ROOM);
    CHECK(says(&all, "<a id=\"x\"></a>a\n\n<a id=\"y\"></a>b[c](#y)"));
    options.anchors = HTMD_ANCHORS_NONE;
    struct answer none = call(html, strlen(html), &options, ROOM);
    CHECK(says(&none, "a\n\nb[c](#y)"));
}

static void test_rich(void) {
    const char *html = "<details><summary>a</summary>b</details>";
    htmd_options options = defaults();
    options.reader = HTMD_HTML5;
    options.mode = HTMD_GUARDED;
    struct answer plain = call(html, strlen(html), &options, ROOM);
    CHECK(says(&plain, "a\n\nb"));
    options.rich = 1;
    struct answer rich = call(html, strlen(html), &options, ROOM);
    CHECK(says(&rich, "<details>\n<summary>a</summary>\n\nb\n\n</details>"));
}

static void test_changes(void) {
    const char *html = "<title>T</title><p hidden>x</p><p><a href=\"b\">c</a> <img src=\"data:,\" alt=\"d\"></p>";
    htmd_options options = defaults();
    options.reader = HTMD_HTML5;
    options.mode = HTMD_GUARDED;
    options.visible = 1;
    options.images = HTMD_IMAGES_LINKED;
    options.title = 1;
    struct answer linked = call(html, strlen(html), &options, ROOM);
    CHECK(says(&linked, "# T\n\n[c](b) d"));
    options.links_as_text = 1;
    options.images = HTMD_IMAGES_DROP;
    struct answer dropped = call(html, strlen(html), &options, ROOM);
    CHECK(says(&dropped, "# T\n\nc"));
}

static void test_pieces(void) {
    const char *html = "<title>t</title><h1>T</h1><p>a<h2>A</h2><p>b<h2>B</h2><p>c";
    htmd_options options = defaults();
    options.reader = HTMD_HTML5;
    options.output = HTMD_MDAST;
    options.chunk_bytes = 18;
    struct answer pieces = call(html, strlen(html), &options, ROOM);
    CHECK(says(&pieces, "{\"n\":0,\"path\":[],\"start\":0,\"continues\":[],\"markdown\":\"# T\\n\\na\\n\\n## A\\n\\nb\"}\n"
                        "{\"n\":1,\"path\":[\"T\"],\"start\":4,\"continues\":[],\"markdown\":\"## B\\n\\nc\"}\n"));
    options.chunk_bytes = UINT32_MAX;
    options.front_matter = 1;
    pieces = call(html, strlen(html), &options, ROOM);
    CHECK(says(&pieces, "{\"front\":{\"title\":\"t\"},\"n\":0,\"path\":[],\"start\":0,\"continues\":[],"
                        "\"markdown\":\"# T\\n\\na\\n\\n## A\\n\\nb\\n\\n## B\\n\\nc\"}\n"));
    pieces = call("", 0, &options, 0);
    CHECK(says(&pieces, ""));
}

/* Each number of each byte of the struct: all but the good ones answer the status for them, and write nothing. */
static void test_numbers(void) {
    const int counts[32] = {0, 3, 3, 2, 2, 3, 2, 3, 3, 2, 2, 2, 256, 256, 2, 2, 2, 3, 2, 2, 2, 4, 2, 2, 1, 1, 1, 1};
    for (int at = 0; at < 32; at++) {
        for (int number = 0; number < 256; number++) {
            htmd_options options = defaults();
            memcpy((uint8_t *)&options + at, &(uint8_t){(uint8_t)number}, 1);
            int is_good = at == 0 ? number == HTMD_OPTIONS_VERSION : at > 27 ? number == 0 : number < counts[at];
            if (at == offsetof(htmd_options, output) && number == HTMD_MDAST)
                continue; /* JSON, which test_modes asks for */
            if (at > 23 && at < 28 && number != 0)
                continue; /* pieces, which test_pieces asks for */
            struct answer answer = call("<p>a</p>", 8, &options, 8);
            if (is_good) {
                CHECK(says(&answer, "a"));
                continue;
            }
            CHECK(answer.status == HTMD_BAD_OPTIONS);
            CHECK(answer.needed == 0 && answer.place == 0 && answer.kind == 0);
            CHECK(is_untouched(answer.out, 0, ROOM));
        }
    }
    htmd_options options = defaults();
    options.reader = 3;
    struct answer both = call("\xff", 1, &options, 8);
    CHECK(both.status == HTMD_BAD_OPTIONS);
}

static void test_utf8(void) {
    htmd_options options = defaults();
    struct answer answer = call("<p>\xc3\xa4</p>", 9, &options, ROOM);
    CHECK(says(&answer, "\xc3\xa4"));
    answer = call("<p>\xc3</p>", 8, &options, ROOM);
    CHECK(answer.status == HTMD_NOT_UTF8 && answer.place == 3 && answer.kind == 0 && answer.needed == 0);
    CHECK(is_untouched(answer.out, 0, ROOM));
    answer = call("a\0b", 3, &options, ROOM);
    CHECK(answer.status == HTMD_REFUSED && answer.place == 1 && answer.kind == HTMD_NUL);
}

static void test_places(void) {
    const char *html = "<p>one</p>\n<p>\xc3\xa4wo &nosuch; three</p>\n";
    const uint8_t *text = (const uint8_t *)html;
    htmd_options options = defaults();
    struct answer answer = call(html, strlen(html), &options, ROOM);
    CHECK(answer.status == HTMD_REFUSED && answer.place == 19 && answer.kind == HTMD_UNKNOWN_REFERENCE);
    size_t line = 0, column = 0;
    CHECK(htmd_line_and_column(text, strlen(html), answer.place, &line, &column) == HTMD_DONE);
    CHECK(line == 2 && column == 8);
    CHECK(htmd_line_and_column(text, strlen(html), SIZE_MAX, &line, &column) == HTMD_DONE);
    CHECK(line == 3 && column == 1);
    CHECK(htmd_line_and_column((const uint8_t *)"\xff", 1, 0, &line, &column) == HTMD_NOT_UTF8);
    CHECK(line == 0 && column == 0);
}

/* Tags that stand around a text so often that it is on one of the last of 1,024 levels. */
struct nesting {
    const char *open;
    const char *close;
    int levels;
};

static const struct nesting NESTINGS[] = {
    {"<div>", "</div>", 1},
    {"<b>", "</b>", 1},
    {"<my-tag>", "</my-tag>", 1},
    {"<ol><li>", "</li></ol>", 2},
    {"<table><caption>", "</caption></table>", 2},
    {"<table><tbody><tr><td>", "</td></tr></tbody></table>", 4},
};

static char *nested(const struct nesting *nesting) {
    int times = 1021 / nesting->levels; /* of html, body and the text there is one level each */
    size_t open = strlen(nesting->open), close = strlen(nesting->close);
    char *html = malloc(times * (open + close) + 2);
    if (html == NULL)
        abort();
    char *end = html;
    for (int i = 0; i < times; i++, end += open)
        memcpy(end, nesting->open, open);
    *end++ = 'x';
    for (int i = 0; i < times; i++, end += close)
        memcpy(end, nesting->close, close);
    *end = 0;
    return html;
}

/* Each nesting by each reader, in each mode and in pieces: that the call ends, whatever the Markdown is. */
static void *convert_nestings(void *unused) {
    for (size_t i = 0; i < sizeof NESTINGS / sizeof NESTINGS[0]; i++) {
        char *html = nested(&NESTINGS[i]);
        htmd_options options = defaults();
        for (int way = 0; way < 8; way++) {
            options.reader = way % 2 == 0 ? HTMD_STRICT : HTMD_HTML5;
            options.mode = (uint8_t)(way / 2 % 3);
            options.chunk_bytes = way < 6 ? 0 : 100;
            uint8_t out[1];
            size_t needed, place;
            uint8_t kind;
            uint32_t status =
                htmd_convert((uint8_t *)html, strlen(html), &options, out, 0, &needed, &place, &kind);
            CHECK(status == HTMD_TOO_SMALL && needed > 0);
        }
        free(html);
    }
    return unused;
}

static void test_stack(void) {
    pthread_attr_t attributes;
    pthread_t thread;
    CHECK(pthread_attr_init(&attributes) == 0);
    CHECK(pthread_attr_setstacksize(&attributes, HTMD_STACK) == 0);
    CHECK(pthread_create(&thread, &attributes, convert_nestings, NULL) == 0);
    CHECK(pthread_join(thread, NULL) == 0);
    CHECK(pthread_attr_destroy(&attributes) == 0);
}

#ifdef REFUSE_MEMORY
static long refused_request = 0;
static long requests = 0;

void *__real_malloc(size_t size);
void *__real_realloc(void *block, size_t size);
void *__wrap_malloc(size_t size);
void *__wrap_realloc(void *block, size_t size);

static int is_refused(void) { return refused_request != 0 && ++requests == refused_request; }

void *__wrap_malloc(size_t size) { return is_refused() ? NULL : __real_malloc(size); }

void *__wrap_realloc(void *block, size_t size) { return is_refused() ? NULL : __real_realloc(block, size); }

/* Each request of a call refused in turn: the call says so and writes nothing, or answers as ever. */
static void refuse_each(const char *html, uint8_t reader, uint32_t chunk_bytes) {
    const uint8_t *text = (const uint8_t *)html;
    htmd_options options = defaults();
    options.reader = reader;
    options.chunk_bytes = chunk_bytes;
    struct answer whole = call(html, strlen(html), &options, ROOM);
    CHECK(whole.status == HTMD_DONE);
    long refusals = 0;
    for (refused_request = 1;; refused_request++) {
        uint8_t out[ROOM];
        size_t needed, place;
        uint8_t kind;
        memset(out, UNTOUCHED, ROOM);
        requests = 0;
        uint32_t status = htmd_convert(text, strlen(html), &options, out, ROOM, &needed, &place, &kind);
        int is_whole = status == HTMD_DONE && needed == whole.needed && memcmp(out, whole.out, ROOM) == 0;
        int is_nothing = status == HTMD_NO_MEMORY && needed == 0 && is_untouched(out, 0, ROOM);
        CHECK((is_whole || is_nothing) && place == 0 && kind == 0);
        if (requests < refused_request)
            break;
        refusals += is_nothing;
    }
    CHECK(refusals > 10);
    refused_request = 0;
}

static void test_memory(void) {
    refuse_each("<h1>A <em>page</em></h1><ol start=9><li><a href=\"/x\" title=\"t\">one</a></li><li>b_c</li></ol>"
                "<table><tr><th>A</th></tr><tr><td>1|2</td></tr></table><pre><code>let</code></pre>",
                HTMD_STRICT, 0);
    const char *page = "<title>t</title><p>a<b>b<p>c</b>&copy d<table><tr><td>1<td>2<tr>x</table><ul><li>e<li>f";
    refuse_each(page, HTMD_HTML5, 0);
    refuse_each(page, HTMD_HTML5, 8);
}
#else
static void test_memory(void) {}
#endif

/* Markdown with room, with a byte too few, and with a byte that is no UTF-8. */
static void test_markdown(void) {
    const char *html = "<p>a <em>b</em></p>\n";
    size_t len = strlen(html), needed = SIZE_MAX, place = SIZE_MAX;
    uint8_t out[32];
    memset(out, UNTOUCHED, sizeof out);
    CHECK(htmd_markdown_to_html((const uint8_t *)"a *b*", 5, out, len - 1, &needed, &place) == HTMD_TOO_SMALL);
    CHECK(needed == len && place == 0 && is_untouched(out, 0, sizeof out));
    CHECK(htmd_markdown_to_html((const uint8_t *)"a *b*", 5, out, len, &needed, &place) == HTMD_DONE);
    CHECK(needed == len && place == 0 && memcmp(out, html, len) == 0 && is_untouched(out, len, sizeof out));
    CHECK(htmd_markdown_to_html((const uint8_t *)"a\xff", 2, out, len, &needed, &place) == HTMD_NOT_UTF8);
    CHECK(needed == 0 && place == 1);
}

int main(void) {
    test_struct();
    test_sizes();
    test_pages();
    test_encodings();
    test_readers();
    test_options();
    test_modes();
    test_anchors();
    test_rich();
    test_changes();
    test_pieces();
    test_numbers();
    test_utf8();
    test_markdown();
    test_places();
    test_stack();
    test_memory();
    return failures == 0 ? EXIT_SUCCESS : EXIT_FAILURE;
}
