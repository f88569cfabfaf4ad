/* The same report from the same book in plain C: doubles and the C library's exp. A yardstick for speed and no reference: its last cents are
 * whatever doubles make of them, and nothing says how many.
 *
 *     peer < BOOK            the report's ten lines, or a refusal
 *     peer --cells < BOOK    the 60 cells after them
 *     peer --read < BOOK     reading alone: the number of lines
 *
 * It reads 64 KiB at a time, finds lines by memchr, compares every word, and tests every digit, range, count and index value: refusals 1 to 8, 11
 * and 12 of documents 01 and 02, in their order. It has no marks and no returns to them (L6: their lines are 2 here, and 13 to 15 never come) and
 * no sheet of factors (L3, 10); 9 is for a caller's buffer. Numbers in comments are those of documents 000 and 002. */
#include <math.h>
#include <stddef.h>
#include <stdint.h>
#include <stdio.h>
#include <stdlib.h>
#include <string.h>
#include <unistd.h>

enum { LONGEST = 240, CHUNK = 65536, MOST_OTHERS = 100000, MONTHS = 132, AREAS = 12, BANDS = 12, COLUMNS = 5 };
static const int64_t MOST_MONEY = 100000000000;

/* --- a line's text --- */

struct text { const char *at, *end; };

/* Left to itself gcc calls these two, and a loan takes an eighth longer. */
#define INLINED static inline __attribute__((always_inline))

INLINED int is_word(struct text *t, const char *word, size_t size)
{
    if ((size_t)(t->end - t->at) < size || memcmp(t->at, word, size) != 0)
        return 0;
    t->at += size;
    return 1;
}
#define WORD(t, word) is_word(t, word, sizeof(word) - 1)

INLINED int number(struct text *t, int64_t *x)
{
    const char *p = t->at;
    uint64_t n = 0; /* may wrap, where there are too many digits */
    while (p < t->end && (unsigned char)(*p - '0') < 10)
        n = n * 10 + (uint64_t)(*p++ - '0');
    ptrdiff_t digits = p - t->at;
    if (digits == 0 || digits > 14 || (digits > 1 && *t->at == '0'))
        return 0;
    t->at = p;
    *x = (int64_t)n;
    return 1;
}

static inline int signed_number(struct text *t, int64_t *x)
{
    int minus = WORD(t, "-");
    if (!number(t, x) || (minus && *x == 0))
        return 0;
    if (minus)
        *x = -*x;
    return 1;
}

static inline int ends(struct text *t, const char *word, size_t size) { return is_word(t, word, size) && t->at == t->end; }
#define ENDS(t, word) ends(t, word, sizeof(word) - 1)

static inline int within(int64_t x, int64_t low, int64_t high) { return low <= x && x <= high; }
static inline int is_month(int64_t x, int64_t low, int64_t high) { return within(x, low, high) && within(x % 100, 1, 12); }
static inline int month_place(int64_t month) { return (int)((month / 100 - 2005) * 12 + month % 100 - 1); }

/* By its first letters, then compared whole; -1 for no area. */
static inline int area(struct text *t)
{
    static const char *const names[AREAS] = {"calgary", "edmonton", "halifax", "hamilton", "montreal", "ottawagatineau", "quebec", "toronto",
                                             "vancouver", "victoria", "winnipeg", "other"};
    static const unsigned char sizes[AREAS] = {7, 8, 7, 8, 8, 14, 6, 7, 9, 8, 8, 5};
    int k;
    if (t->end - t->at < 5)
        return -1;
    switch (t->at[0]) {
    case 'c': k = 0; break;
    case 'e': k = 1; break;
    case 'h': k = t->at[2] == 'l' ? 2 : 3; break;
    case 'm': k = 4; break;
    case 'o': k = t->at[2] == 't' ? 5 : 11; break;
    case 'q': k = 6; break;
    case 't': k = 7; break;
    case 'v': k = t->at[1] == 'a' ? 8 : 9; break;
    case 'w': k = 10; break;
    default: return -1;
    }
    return is_word(t, names[k], sizes[k]) ? k : -1;
}

/* --- what is kept --- */

struct counts { int64_t loans, unscored, fresh; };
static struct counts header, taken;
static int64_t held;
static int aged;
static double no_score;
static int64_t others;
static double total, supplement, rest, moved, equity, aoci, category_b, category_c;
static double prices[AREAS][MONTHS]; /* 0 where none is set */
static struct { int64_t count, balance; double charge; } cells[BANDS][COLUMNS];

/* --- the charge of a loan --- */

/* 000, 1.1.2: t is in years */
struct curve { double mu1, mu2, sigma1, sigma2, c1, c2; };

static inline struct curve a_short(double t)
{
    return (struct curve){
        0.90, 1.25,
        t <= 10 ? 0.17 : t <= 25 ? 0.19 - 0.002 * t : 0.14,
        t <= 15.5 ? 0.16 : 0.0059 * t + 0.07,
        t <= 11 ? 123 * t + 520 : 2250 - 25 * t,
        t <= 17 ? 115 * t - 85 : 1900};
}

static inline struct curve a_long(double t)
{
    return (struct curve){
        0.90, 1.25, 0.17,
        t <= 15.5 ? 0.16 : 0.0109 * t - 0.0094,
        t <= 16 ? 123 * t + 520 : t <= 25 ? 3515 - 65 * t : 2885 - 39 * t,
        t <= 25 ? 115 * t - 85 : 68 * t + 1110};
}

static inline struct curve b_short(double t)
{
    return (struct curve){
        0.94,
        t <= 15 ? 0.0062 * t + 1.21 : 1.30,
        t <= 14 ? 0.23 : t <= 25 ? 0.32 - 0.0064 * t : 0.16,
        t <= 15 ? 0.14 : 0.004 * t + 0.08,
        t <= 11 ? 233 * t + 1975 : 4450,
        t <= 15 ? 1550 : t <= 18 ? 400 * t - 4450 : t <= 25 ? 130 * t + 420 : 30 * t + 3020};
}

static inline struct curve b_long(double t)
{
    return (struct curve){
        t <= 19.75 ? 0.94 : t <= 26 ? 1.40 - 0.0233 * t : 0.80,
        t <= 33.25 ? 0.0062 * t + 1.21 : 1.42,
        t <= 14.75 ? 0.23 : 0.0163 * t - 0.0082,
        t <= 19 ? 0.14 : t <= 27 ? 0.0103 * t - 0.0584 : 0.215,
        t <= 25 ? 233 * t + 1975 : 282 * t + 740,
        t <= 19.25 ? 1550 : t <= 26 ? 133 * t - 1030 : 5490 - 117 * t};
}

static inline double at(struct curve k, double z)
{
    double d1 = (z - k.mu1) / k.sigma1, d2 = (z - k.mu2) / k.sigma2;
    return k.c1 * exp(-0.5 * d1 * d1) + k.c2 * exp(-0.5 * d2 * d2);
}

/* 000, 1.1.3 */
static inline double supplement_rate(double z, double t, int first)
{
    double b = first && t > 10 ? 0 : 0.3;
    double c = !first || t <= 10 ? 0.08 : t <= 13 ? 0.32 - 0.013 * t : 0.19;
    double a = fmin(c + 0.1 * (z - 1), 1.15);
    return b == 0 ? a : a + b * exp(-0.1 * t);
}

/* 000, 1.1.4, table iii */
static inline double credit_factor(int band, int64_t age)
{
    static const double factors[11][6] = {
        {3.00, 3.00, 3.00, 3.00, 3.00, 3.00}, {2.05, 2.05, 2.05, 2.05, 2.05, 2.05}, {1.80, 1.80, 1.80, 1.80, 1.80, 1.80},
        {1.60, 1.60, 1.60, 1.60, 1.60, 1.60}, {1.35, 1.35, 1.35, 1.35, 1.35, 1.35}, {1.10, 1.10, 1.10, 1.10, 1.10, 1.10},
        {0.90, 1.00, 1.00, 1.00, 1.00, 1.00}, {0.65, 0.90, 1.00, 1.00, 1.00, 1.00}, {0.55, 0.65, 0.90, 1.00, 1.00, 1.00},
        {0.45, 0.55, 0.65, 0.90, 1.00, 1.00}, {0.40, 0.45, 0.55, 0.65, 0.90, 1.00}};
    return factors[band][!aged || age <= 12 ? 0 : age > 60 ? 5 : (age - 1) / 12];
}

/* --- a line of each form: read, its ranges tested, then its counts, and taken --- */

struct loan { int64_t balance, value, months, term, score, age, sup, from; int scored, area; };

static inline int read_score(struct text *t, struct loan *l)
{
    l->scored = !WORD(t, "none");
    l->score = l->age = 0;
    return !l->scored || (number(t, &l->score) && WORD(t, " ") && number(t, &l->age));
}

static inline int read_loan(struct text *t, struct loan *l)
{
    return number(t, &l->balance) && WORD(t, ") (val ") && number(t, &l->value) && WORD(t, ") (amort ") && number(t, &l->months)
        && WORD(t, ") (term ") && number(t, &l->term) && WORD(t, ") (score ") && read_score(t, l) && WORD(t, ") (sup ") && number(t, &l->sup)
        && WORD(t, ") (from ") && number(t, &l->from) && WORD(t, ") (area ") && (l->area = area(t)) >= 0 && ENDS(t, "))");
}

static inline int loan_in_range(const struct loan *l)
{
    return within(l->balance, 1, 200000000) && within(l->value, 1, 10000000000) && within(l->months, 1, 480) && within(l->term, 1, 480)
        && within(l->sup, 0, 1) && is_month(l->from, 190001, 209912)
        && (!l->scored || (within(l->score, 300, 900) && within(l->age, 0, 600)));
}

static inline void charge_loan(const struct loan *l, double value)
{
    int band = !l->scored ? 11 : l->score < 600 ? 0 : l->score >= 780 ? 10 : (int)(l->score - 580) / 20;
    double m = l->scored ? credit_factor(band, l->age) : no_score;
    double balance = (double)l->balance, t = (double)l->months / 12, z = value / balance, hundred = 100 * balance;
    int column = (hundred > 65 * value) + (hundred > 80 * value) + (hundred > 90 * value) + (hundred > 95 * value);
    int first = l->term <= 60;
    if (z < 1)
        z = 1;
    double base = 100 * m * (at(first ? a_short(t) : a_long(t), z) + at(first ? b_short(t) : b_long(t), z) * balance / 10000000);
    double extra = l->sup ? supplement_rate(z, t, first) * base : 0;
    double both = ceil(base + extra);
    total += both;
    supplement += floor(extra);
    cells[band][column].count++;
    cells[band][column].balance += l->balance;
    cells[band][column].charge += both;
}

static int feed_loan(struct text *t)
{
    struct loan l;
    if (!read_loan(t, &l))
        return 2;
    if (!loan_in_range(&l))
        return 3;
    int fresh = l.scored && l.age <= 12;
    if (taken.loans >= header.loans || (!l.scored && taken.unscored >= header.unscored) || (fresh && taken.fresh >= header.fresh))
        return 5;
    double value = (double)l.value;
    if (l.from >= 200501 && l.from <= 201511) { /* 000, 1.1.5 */
        double last = prices[l.area][MONTHS - 1], own = prices[l.area][month_place(l.from)];
        if (last == 0 || own == 0)
            return 12;
        value = value * last / own;
    }
    charge_loan(&l, value);
    taken.loans++;
    taken.unscored += !l.scored;
    taken.fresh += fresh;
    return 0;
}

static int feed_policy(struct text *t)
{
    static const double percent[4][20] = { /* 002, 3.3 */
        {2, 1, 0.5},
        {3, 2, 1, 1, 0.5, 0.5},
        {4, 4, 3.5, 3, 3, 2, 1, 1, 1, 1},
        {4, 4, 4, 5.5, 6, 5, 3.5, 2, 1.5, 1.5, 1, 1, 0.5, 0.5, 0.5, 0.5, 0.5, 0.5, 0.5}};
    int64_t premium, term, done;
    int multi = WORD(t, "multi");
    if (!((multi || WORD(t, "home")) && WORD(t, ") (prem ") && number(t, &premium) && WORD(t, ") (term ") && number(t, &term)
            && WORD(t, ") (done ") && number(t, &done) && ENDS(t, "))")))
        return 2;
    if (!within(premium, 0, 100000000) || !within(term, 1, 480) || !within(done, 0, 40))
        return 3;
    if (others >= MOST_OTHERS)
        return 8;
    int column = (term > 60) + (term > 120) + (term > 180);
    double provision = within(done, 1, 20) ? (double)premium * percent[column][done - 1] / 100 : 0;
    if (multi)
        rest += 1.25 * provision;
    else
        moved += provision;
    others++;
    return 0;
}

static int feed_deriv(struct text *t)
{
    static const char *const kinds[6] = {"rate", "float", "fx", "equity", "metal", "other"};
    static const double add_on[6][3] = { /* 002, 4.2.1.1 */
        {0, 0.005, 0.015}, {0, 0, 0}, {0.01, 0.05, 0.075}, {0.06, 0.08, 0.10}, {0.07, 0.07, 0.08}, {0.10, 0.12, 0.15}};
    int64_t cost, notional, months, pays, factor;
    int kind = 0;
    while (kind < 6 && !is_word(t, kinds[kind], strlen(kinds[kind])))
        kind++;
    if (!(kind < 6 && WORD(t, ") (cost ") && signed_number(t, &cost) && WORD(t, ") (notional ") && number(t, &notional) && WORD(t, ") (months ")
            && number(t, &months) && WORD(t, ") (pays ") && number(t, &pays) && WORD(t, ") (factor ") && number(t, &factor) && ENDS(t, "))")))
        return 2;
    if (!within(cost, -MOST_MONEY, MOST_MONEY) || !within(notional, 0, MOST_MONEY) || !within(months, 0, 600) || !within(pays, 1, 100)
        || !within(factor, 0, 10000))
        return 3;
    if (others >= MOST_OTHERS)
        return 8;
    double exposure = fmax((double)cost, 0) + (double)notional * add_on[kind][(months > 12) + (months > 60)] * (double)pays;
    rest += exposure * (double)factor / 10000;
    others++;
    return 0;
}

static int feed_asset(struct text *t)
{
    int64_t amount, factor;
    if (!(number(t, &amount) && WORD(t, ") (factor ") && number(t, &factor) && ENDS(t, "))")))
        return 2;
    if (!within(amount, 0, MOST_MONEY) || !within(factor, 0, 10000))
        return 3;
    if (others >= MOST_OTHERS)
        return 8;
    rest += (double)amount * (double)factor / 10000;
    others++;
    return 0;
}

static int feed_index(struct text *t)
{
    int64_t month, value;
    int k = area(t);
    if (!(k >= 0 && WORD(t, " ") && number(t, &month) && WORD(t, " ") && number(t, &value) && ENDS(t, ")")))
        return 2;
    if (!is_month(month, 200501, 201512) || !within(value, 1, 1000000))
        return 3;
    if (others >= MOST_OTHERS)
        return 8;
    double *price = &prices[k][month_place(month)];
    if (*price != 0)
        return 11;
    *price = (double)value;
    others++;
    return 0;
}

static int feed_amount(struct text *t, double *sum, double share, int (*read_amount)(struct text *, int64_t *))
{
    int64_t amount;
    if (!(read_amount(t, &amount) && ENDS(t, ")")))
        return 2;
    if (!within(amount, -MOST_MONEY, MOST_MONEY))
        return 3;
    if (others >= MOST_OTHERS)
        return 8;
    *sum += share * (double)amount;
    others++;
    return 0;
}

static int read_header(struct text *t, struct counts *h, int64_t *liabilities)
{
    return number(t, &h->loans) && WORD(t, ") (unscored ") && number(t, &h->unscored) && WORD(t, ") (fresh ") && number(t, &h->fresh)
        && WORD(t, ") (held ") && number(t, liabilities) && ENDS(t, "))");
}

static int feed(struct text t)
{
    if (WORD(&t, "(loan (bal ")) return feed_loan(&t);
    if (WORD(&t, "(policy (class ")) return feed_policy(&t);
    if (WORD(&t, "(deriv (kind ")) return feed_deriv(&t);
    if (WORD(&t, "(asset (amount ")) return feed_asset(&t);
    if (WORD(&t, "(index ")) return feed_index(&t);
    if (WORD(&t, "(claims ")) return feed_amount(&t, &rest, 0.2, number);
    if (WORD(&t, "(lossc ")) return feed_amount(&t, &rest, 0.4, number);
    if (WORD(&t, "(stated ")) return feed_amount(&t, &rest, 1, number);
    if (WORD(&t, "(equity ")) return feed_amount(&t, &equity, 1, signed_number);
    if (WORD(&t, "(aoci ")) return feed_amount(&t, &aoci, 1, signed_number);
    if (WORD(&t, "(b ")) return feed_amount(&t, &category_b, 1, number);
    if (WORD(&t, "(c ")) return feed_amount(&t, &category_c, 1, number);
    struct counts second;
    int64_t liabilities;
    return WORD(&t, "(book (loans ") && read_header(&t, &second, &liabilities) ? 7 : 2;
}

static int open_book(struct text t)
{
    if (!WORD(&t, "(book (loans "))
        return feed(t) == 2 ? 2 : 7; /* what has a form and is no header */
    if (!read_header(&t, &header, &held))
        return 2;
    if (!within(header.loans, 0, 1000000) || !within(held, 0, 10000000000000))
        return 3;
    if (header.unscored + header.fresh > header.loans)
        return 4;
    aged = 10 * header.fresh < 9 * header.loans;
    no_score = 20 * header.unscored > header.loans ? 3.0 : 1.3;
    return 0;
}

/* --- the input and the report --- */

static int alone; /* reading alone */

static inline int take(const char *from, const char *end, long line)
{
    if (end - from > LONGEST)
        return 1;
    if (alone)
        return 0;
    return line == 1 ? open_book((struct text){from, end}) : feed((struct text){from, end});
}

/* Takes all lines; the number of the line after the last one taken, and its refusal or 0. */
static long take_lines(int *refusal)
{
    static char room[LONGEST + CHUNK];
    size_t begun = 0;
    long line = 1;
    for (;;) {
        ssize_t got = read(STDIN_FILENO, room + begun, CHUNK);
        if (got < 0) {
            perror("peer");
            exit(1);
        }
        const char *from = room, *end = room + begun + got, *newline;
        for (; (newline = memchr(from, '\n', (size_t)(end - from))); from = newline + 1, line++)
            if ((*refusal = take(from, newline, line)))
                return line;
        begun = (size_t)(end - from);
        if (got == 0 || begun > LONGEST) {
            if (begun > 0 || line == 1)
                *refusal = take(from, end, line);
            return line + (begun > 0 && !*refusal);
        }
        memmove(room, from, begun);
    }
}

/* Rounded up, but for what a sum of doubles may have too much. */
static double up(double x) { return x > 0 ? ceil(x - 1e-6) : 0; }

static void print_report(void)
{
    double rest_up = up(rest), home = fmax(total - (double)held, 0);
    double oper = ceil(fmax(home + rest_up - supplement, 0) / 5), required = home + rest_up + oper;
    double e = fmax(equity, 0), two_thirds = floor(2 * e / 3), admitted_b = fmin(category_b, two_thirds);
    double admitted_c = fmin(fmin(category_c, two_thirds - admitted_b), floor(7 * (e + admitted_b) / 93));
    double capital = equity + aoci + admitted_b + admitted_c;
    printf("(loans %ld)\n(total %.0f)\n(supplement %.0f)\n(home %.0f)\n(moved %.0f)\n", (long)taken.loans, total, supplement, home, up(moved));
    printf("(rest %.0f)\n(oper %.0f)\n(required %.0f)\n(capital %.0f)\n", rest_up, oper, required, capital);
    if (required == 0)
        printf("(ratio none)\n");
    else
        printf("(ratio %.0f)\n", fmax(-10000000, fmin(10000000, floor(capital * 15000 / required))));
}

static void print_cells(void)
{
    for (int i = 0; i < BANDS; i++)
        for (int j = 0; j < COLUMNS; j++)
            printf("(cell %d %d %ld %ld %.0f)\n", i + 1, j + 1, (long)cells[i][j].count, (long)cells[i][j].balance, cells[i][j].charge);
}

int main(int count, char **words)
{
    int with_cells = count == 2 && strcmp(words[1], "--cells") == 0, refusal = 0;
    alone = count == 2 && strcmp(words[1], "--read") == 0;
    if (count > 2 || (count == 2 && !with_cells && !alone)) {
        fprintf(stderr, "usage: peer [--cells | --read] < BOOK\n");
        return 2;
    }
    long line = take_lines(&refusal);
    if (alone) {
        printf("(lines %ld)\n", line - 1);
        return 0;
    }
    if (refusal == 0 && (taken.loans < header.loans || taken.unscored < header.unscored || taken.fresh < header.fresh))
        refusal = 6;
    if (refusal != 0) {
        printf("(refused %d %ld)\n", refusal, line);
        return 0;
    }
    print_report();
    if (with_cells)
        print_cells();
    return 0;
}
