/* Runs the worked sequences of ../tests/sequences through the plain model.   sequences FILE...
 *
 * A file is a trace as nib's text, with its answers in the comments:
 *   # case TITLE          what follows is on a part of its own, just reset (c ff)
 *   # part NAME NUMBERS   that part is not quite W: features or optional WORD (hex), programs N, count or flag PLACE N
 *   EVENTS # ANSWERS      a line of the trace; for each event a dot (accepted), two hex digits (a byte), xx (any byte)
 *                         or rN (refused)
 *   EVENTS # ANSWERS blank N, N   the same, and when the line has been run the record keeps these numbers of blank
 *                         blocks, LUN 0's and LUN 1's, and a walk gives them too; they end the line
 * Other lines that begin with # are remarks. A file that breaks this form ends the program with 2. */
#include "bench.h"

#include <ctype.h>
#include <stdlib.h>

enum { LINE = 256, MOST = 600 };        /* characters of a line, bytes of records or replies */
enum { ANY = 9 };                       /* first byte of an answer: any byte will do */
enum { LUNS = 2, BLOCKS = 8 };          /* of W */

/* What a case may change of part W. */
struct part {
    uint32_t features, optional, programs;
    uint8_t counts[64], flags[16];
};

static const struct part W = {.features = 0x010E, .optional = 0x005D, .programs = 4};

static const char *file;                /* being read, and which line of it */
static unsigned line_number, cases, lines, numbered;

static void bad(const char *what, const char *word)
{
    fprintf(stderr, "%s:%u: %s: %s\n", file, line_number, what, word);
    exit(2);
}

static unsigned number(const char *word, int base, unsigned most)
{
    char *end = NULL;
    unsigned long n = word == NULL || !isxdigit((unsigned char)word[0]) ? most + 1ul : strtoul(word, &end, base);
    if (end == NULL || *end != 0 || n > most)
        bad("not a number as it should be", word == NULL ? "" : word);
    return (unsigned)n;
}

static const char *next_word(void)
{
    return strtok(NULL, " \n");
}

/* The words after '# part'. */
static void change_part(struct part *p)
{
    const char *name = next_word();
    if (name == NULL)
        bad("no name", "");
    if (strcmp(name, "features") == 0)
        p->features = number(next_word(), 16, 0xFFFF);
    else if (strcmp(name, "optional") == 0)
        p->optional = number(next_word(), 16, 0xFFFF);
    else if (strcmp(name, "programs") == 0)
        p->programs = number(next_word(), 10, 8);
    else if (strcmp(name, "count") == 0) {
        unsigned place = number(next_word(), 10, sizeof p->counts - 1);
        p->counts[place] = (uint8_t)number(next_word(), 10, 255);
    } else if (strcmp(name, "flag") == 0) {
        unsigned place = number(next_word(), 10, sizeof p->flags - 1);
        p->flags[place] = (uint8_t)number(next_word(), 10, 255);
    } else
        bad("no such number of a part", name);
}

static void make_part(struct bench *b, const struct part *p)
{
    static const uint8_t reset[2] = {0, 0xFF};
    uint8_t got[3];
    make_bench(b, 512, 16, 4, BLOCKS, LUNS, p->programs, p->features, p->optional);
    memcpy(b->counts, p->counts, sizeof p->counts);
    memcpy(b->flags, p->flags, sizeof p->flags);
    check(power(b) == 0, "power-on with the case's counts and flags");
    check(run_records(b, reset, 2, got) && got[0] == 0, "FFh");
}

/* nib's text to records; how many bytes. A word of one letter is no value: values in hex have two digits. */
static size_t read_events(char *text, uint8_t *to)
{
    static const char letters[] = "cadofp";     /* kinds 0 to 5 */
    const char *letter = NULL;
    size_t n = 0;
    for (const char *w = strtok(text, " \n"); w != NULL; w = next_word()) {
        if (isalpha((unsigned char)w[0]) && w[1] == 0) {
            letter = strchr(letters, w[0]);
            if (letter == NULL)
                bad("no such letter", w);
            continue;
        }
        if (letter == NULL)
            bad("no letter before it", w);
        size_t kind = (size_t)(letter - letters);
        unsigned value = number(w, kind < 3 ? 16 : 10, kind == 3 ? MOST / 2 : 255);
        for (unsigned times = kind == 3 ? value : 1; times > 0; times--) {
            if (n + 2 > MOST)
                bad("a line too long", w);
            to[n++] = (uint8_t)kind;
            to[n++] = kind == 3 ? 0 : (uint8_t)value;
        }
    }
    return n;
}

/* The words after 'blank': a number for each LUN, and no more. */
static void read_blank(unsigned *blank)
{
    for (unsigned lun = 0; lun < LUNS; lun++)
        blank[lun] = number(strtok(NULL, lun + 1 < LUNS ? " ," : " \n"), 10, BLOCKS);
    const char *more = next_word();
    if (more != NULL)
        bad("more than the numbers of blank blocks", more);
}

/* The answers to replies; how many bytes. 'told': the line ends in numbers of blank blocks. */
static size_t read_answers(char *text, uint8_t *to, bool *told, unsigned *blank)
{
    size_t n = 0;
    *told = false;
    for (const char *w = strtok(text, " \n"); w != NULL; w = next_word()) {
        if (strcmp(w, "blank") == 0) {
            *told = true;
            read_blank(blank);
            break;
        }
        size_t dots = strspn(w, ".");
        if (n + 2 * dots + 2 > MOST || (dots != 0 && w[dots] != 0))
            bad("a line too long, or not an answer", w);
        for (size_t i = 0; i < dots; i++, n += 2)
            to[n] = to[n + 1] = 0;
        if (dots != 0)
            continue;
        bool refused = w[0] == 'r', any = strcmp(w, "xx") == 0;
        to[n++] = any ? ANY : refused ? 2 : 1;
        to[n++] = (uint8_t)(any ? 0 : refused ? number(w + 1, 10, 255) : number(w, 16, 0xFF));
    }
    return n;
}

static bool as_due(const uint8_t *want, const uint8_t *got, size_t n)
{
    bool same = true;
    for (size_t i = 0; i < n; i += 2)
        same = same && (want[i] == ANY ? got[i] == 1 : want[i] == got[i] && want[i + 1] == got[i + 1]);
    return same;
}

static void print_replies(const char *what, const uint8_t *replies, size_t n)
{
    printf("  %s", what);
    for (size_t i = 0; i < n; i += 2)
        printf(replies[i] == ANY ? " xx" : replies[i] == 0 ? " ." : replies[i] == 1 ? " %02X" : " r%u", replies[i + 1]);
    printf("\n");
}

/* Kept, and walked. */
static void check_blank(const struct bench *b, const unsigned *blank)
{
    numbered++;
    for (unsigned lun = 0; lun < LUNS; lun++) {
        unsigned kept = b->t.lun[lun].blank, walked = plain_blank_walk(&b->t, lun, b->counts, b->flags);
        check(kept == blank[lun] && walked == blank[lun], "blank blocks");
        if (kept != blank[lun] || walked != blank[lun])
            printf("  %s:%u: LUN %u: due %u, kept %u, walked %u\n", file, line_number, lun, blank[lun], kept, walked);
    }
}

static void run_line(struct bench *b, char *text)
{
    uint8_t in[MOST], want[MOST], got[MOST + 1];
    unsigned blank[LUNS];
    bool told;
    char *answers = strchr(text, '#');
    if (answers == NULL)
        bad("no answers", text);
    *answers++ = 0;
    size_t n = read_events(text, in), w = read_answers(answers, want, &told, blank);
    bool ran = run_records(b, in, n, got);
    bool ok = ran && w == n && as_due(want, got, n);

    lines++;
    check(ok, "a worked sequence");
    if (!ok) {
        printf("  %s:%u\n", file, line_number);
        print_replies("due", want, w);
        print_replies("got", got, n);
    }
    if (told)
        check_blank(b, blank);
}

static void run_file(void)
{
    static struct bench b;
    struct part p = W;
    bool made = false;
    char text[LINE], word[LINE];
    FILE *f = fopen(file, "r");

    if (f == NULL)
        bad("can't be read", "");
    for (line_number = 1; fgets(text, sizeof text, f) != NULL; line_number++) {
        if (strchr(text, '\n') == NULL)
            bad("a line too long, or a last one without its end", text);
        strcpy(word, text);
        const char *first = strtok(word, " \n");
        if (first == NULL)
            continue;
        if (strcmp(first, "#") == 0) {
            const char *what = next_word();
            if (what != NULL && strcmp(what, "case") == 0) {
                p = W;
                made = false;
                cases++;
            } else if (what != NULL && strcmp(what, "part") == 0) {
                if (made)
                    bad("the part is made already", text);
                change_part(&p);
            }
            continue;
        }
        if (!made)
            make_part(&b, &p);
        made = true;
        run_line(&b, text);
    }
    fclose(f);
}

int main(int argc, char **argv)
{
    for (int i = 1; i < argc; i++) {
        file = argv[i];
        run_file();
    }
    printf("%u worked sequences, %u lines, %u with blank blocks, %u checks, %u wrong\n", cases, lines, numbered, checks,
           wrong);
    return wrong != 0 || lines == 0;
}
