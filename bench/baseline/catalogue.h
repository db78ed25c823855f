/* Catalogues in C with the checks of docs/RULES.md: reading, the fold, lookup and the moves between the two forms.
   One lattice is told by the Hermite normal form, one for each entry. */
#define OWN_ENTRIES 256
#define OWN_BYTES 35844
#define OWN_NEW_BYTES 36868
#define OWN_NUMBER 1048575

/* The kind of a head's first word tells the form: one word, or a number and a size. */
#define OWN_OLD 1
#define OWN_NEW 6

/* A catalogue that the code of four coordinates refuses with 2 goes to that of eight. */
#if OWN_WIDTH == 4
size_t own8_fold(const uint8_t *bytes, size_t n, uint8_t *out);
size_t own8_in_form(const uint8_t *bytes, size_t n, uint32_t form, uint8_t *out);
uint32_t own8_lookup(const uint8_t *bytes, size_t n, uint32_t number);
#define OWN_WIDER(name, ...) (c.refusal == 2 ? own8_##name(__VA_ARGS__) : 0)
#else
#define OWN_WIDER(name, ...) 0
#endif

typedef struct {
    uint32_t number, see;
    int d, m, place, draft, sees, see_place;
    i64 b[4][OWN_WIDTH];
} own_entry;

typedef struct {
    int refusal, place, count;
    uint32_t form;
    own_entry entries[OWN_ENTRIES];
} own_catalogue;

static uint32_t own_word(const uint8_t *bytes, int i) {
    uint32_t w;
    memcpy(&w, bytes + 4 * i, 4);
    return w;
}

static int own_refuse(own_catalogue *c, int refusal, int place) {
    c->refusal = refusal;
    c->place = place;
    c->count = 0;
    return refusal;
}

static int own_find(const own_catalogue *c, uint32_t number) {
    for (int i = 0; i < c->count; i++)
        if (c->entries[i].number == number)
            return i;
    return -1;
}

/* d and m of the word at i, which is a head or its size: 0, or the refusal. */
static int own_read_size(uint32_t load, int i, own_catalogue *c, own_entry *e) {
    e->d = load >> 4 & 15;
    e->m = load & 15;
    if (e->d < 1 || e->d > 4)
        return own_refuse(c, 1, i);
    if (e->m < 1 || e->m > OWN_WIDTH)
        return own_refuse(c, 2, i);
    return 0;
}

static int own_read_number(uint32_t number, int i, own_catalogue *c, own_entry *e) {
    e->number = number;
    e->place = i;
    return number == 0 || own_find(c, number) >= 0 ? own_refuse(c, 11, i) : 0;
}

/* A head at word i, of one word or of two: gives the index of its last word, or -1 when it is refused. */
static int own_read_head(const uint8_t *bytes, int words, int i, own_catalogue *c, own_entry *e) {
    uint32_t w = own_word(bytes, i), load = w & 0xFFFFFFF;
    if (c->form == OWN_OLD)
        return own_read_size(load, i, c, e) || own_read_number(load >> 8, i, c, e) ? -1 : i;
    if (own_read_number(load, i, c, e))
        return -1;
    i++;
    if (i == words || own_word(bytes, i) >> 28 != 7)
        return own_refuse(c, 10, i), -1;
    load = own_word(bytes, i) & 0xFFFFFFF;
    if (load > 255)
        return own_refuse(c, 20, i), -1;
    return own_read_size(load, i, c, e) ? -1 : i;
}

/* An entry from its head at word i on: gives the index of the word behind it, or -1 when it is refused. */
static int own_read_entry(const uint8_t *bytes, int words, int i, own_catalogue *c) {
    uint32_t w, load;
    if (c->count == OWN_ENTRIES)
        return own_refuse(c, 15, i), -1;
    own_entry *e = &c->entries[c->count];
    i = own_read_head(bytes, words, i, c, e);
    if (i < 0)
        return -1;
    e->draft = e->sees = 0;
    memset(e->b, 0, sizeof e->b);
    for (int v = 0; v < e->d; v++) {
        i64 square = 0;
        for (int k = 0; k < e->m; k++) {
            i++;
            if (i == words)
                return own_refuse(c, 10, words), -1;
            w = own_word(bytes, i);
            load = w & 0xFFFFFFF;
            if (w >> 28 != 2)
                return own_refuse(c, 10, i), -1;
            if (load > 40000)
                return own_refuse(c, 4, i), -1;
            i64 x = (i64)load - 20000;
            e->b[v][k] = x;
            square += x * x;
        }
        if (square > OWN_LIM)
            return own_refuse(c, 4, i), -1;
    }
    i++;
    if (i < words && own_word(bytes, i) >> 28 == 5) {
        if ((own_word(bytes, i) & 0xFFFFFFF) != 1)
            return own_refuse(c, 18, i), -1;
        e->draft = 1;
        i++;
    }
    if (i < words && own_word(bytes, i) >> 28 == 3) {
        e->sees = 1;
        e->see = own_word(bytes, i) & 0xFFFFFFF;
        e->see_place = i++;
    }
    c->count++;
    return i;
}

/* 2 where an entry has more coordinates than OWN_WIDTH. */
OWN_API int OWN(read)(const uint8_t *bytes, size_t n, own_catalogue *c) {
    c->refusal = c->place = c->count = 0;
    c->form = n >= 4 && own_word(bytes, 0) >> 28 == OWN_NEW ? OWN_NEW : OWN_OLD;
    if (n % 4)
        return own_refuse(c, 8, 0);
    if (n > (c->form == OWN_NEW ? OWN_NEW_BYTES : OWN_BYTES))
        return own_refuse(c, 9, 0);
    int words = (int)(n / 4), i = 0;
    for (;;) {
        if (i == words)
            return own_refuse(c, 10, words);
        uint32_t w = own_word(bytes, i);
        if (w >> 28 == 4) {
            if ((int)(w & 0xFFFFFFF) != c->count)
                return own_refuse(c, 13, i);
            if (i + 1 < words)
                return own_refuse(c, 14, i + 1);
            break;
        }
        if (w >> 28 != c->form)
            return own_refuse(c, 10, i);
        i = own_read_entry(bytes, words, i, c);
        if (i < 0)
            return c->refusal;
    }
    for (int k = 0; k < c->count; k++) {
        const own_entry *e = &c->entries[k];
        if (!own_independent(e->d, e->m, e->b))
            return own_refuse(c, 5, e->place);
    }
    for (int k = 0; k < c->count; k++) {
        const own_entry *e = &c->entries[k];
        if (e->sees && own_find(c, e->see) < 0)
            return own_refuse(c, 12, e->see_place);
    }
    return 0;
}

/* The Hermite normal form: rows in steps, the numbers above a step from 0 to less than it. */
static void own_hermite(int d, int m, i64 b[4][OWN_WIDTH]) {
    int step[4], r = 0;
    for (int k = 0; k < m && r < d; k++) {
        for (;;) {
            int least = -1, others = 0;
            for (int i = r; i < d; i++)
                if (b[i][k]) {
                    others++;
                    if (least < 0 || own_iabs(b[i][k]) < own_iabs(b[least][k]))
                        least = i;
                }
            if (least < 0)
                break;
            i64 row[OWN_WIDTH];
            memcpy(row, b[least], sizeof row);
            memcpy(b[least], b[r], sizeof row);
            for (int j = 0; j < OWN_WIDTH; j++)
                b[r][j] = row[k] < 0 ? -row[j] : row[j];
            if (others == 1) {
                step[r++] = k;
                break;
            }
            for (int i = r + 1; i < d; i++) {
                i64 q = b[i][k] / b[r][k];
                for (int j = k; j < OWN_WIDTH; j++)
                    b[i][j] -= q * b[r][j];
            }
        }
    }
    for (int i = r - 1; i >= 0; i--)
        for (int k = i + 1; k < r; k++) {
            i64 p = b[k][step[k]], x = b[i][step[k]], q = x / p;
            if (x - q * p < 0)
                q--;
            for (int j = 0; j < OWN_WIDTH; j++)
                b[i][j] -= q * b[k][j];
        }
}

static int own_same(const own_entry *e, const own_entry *f, i64 g[4][OWN_WIDTH], i64 h[4][OWN_WIDTH]) {
    return e->m == f->m && e->d == f->d && !memcmp(g, h, sizeof(i64[4][OWN_WIDTH]));
}

/* For each entry the first of its lattice. */
static void own_firsts(const own_catalogue *c, int *firsts) {
    static i64 forms[OWN_ENTRIES][4][OWN_WIDTH];
    for (int i = 0; i < c->count; i++) {
        const own_entry *e = &c->entries[i];
        own_ans a;
        OWN(reduce)(e->d, e->m, e->b, &a);
        memcpy(forms[i], a.b, sizeof forms[i]);
        own_hermite(e->d, e->m, forms[i]);
        int s = 0;
        while (s < i && (firsts[s] != s || !own_same(e, &c->entries[s], forms[i], forms[s])))
            s++;
        firsts[i] = s;
    }
}

/* For each entry the first of its lattice that is no draft, or the first of all where every one is a draft. */
static void own_standing(const own_catalogue *c, int *standing) {
    int firsts[OWN_ENTRIES], stands[OWN_ENTRIES];
    own_firsts(c, firsts);
    for (int i = 0; i < c->count; i++) {
        int f = firsts[i];
        if (f == i || (c->entries[stands[f]].draft && !c->entries[i].draft))
            stands[f] = i;
    }
    for (int i = 0; i < c->count; i++)
        standing[i] = stands[firsts[i]];
}

/* For each standing entry the number in the see word that it carries, 0 for none: where its own leads, or else the first of its lattice
   that leads to another standing entry. */
static void own_carried(const own_catalogue *c, const int *standing, uint32_t *carried) {
    memset(carried, 0, OWN_ENTRIES * sizeof *carried);
    for (int own = 1; own >= 0; own--)
        for (int i = 0; i < c->count; i++) {
            const own_entry *e = &c->entries[i];
            int s = standing[i];
            if (!e->sees || carried[s] || (s == i) != own)
                continue;
            int there = standing[own_find(c, e->see)];
            if (there != s)
                carried[s] = c->entries[there].number;
        }
}

static uint8_t *own_put(uint8_t *out, uint32_t w) {
    memcpy(out, &w, 4);
    return out + 4;
}

static uint8_t *own_put_head(uint8_t *out, uint32_t form, const own_entry *e) {
    uint32_t size = (uint32_t)e->d << 4 | (uint32_t)e->m;
    if (form == OWN_OLD)
        return own_put(out, 1u << 28 | e->number << 8 | size);
    return own_put(own_put(out, 6u << 28 | e->number), 7u << 28 | size);
}

/* The length written; the output is long enough for any catalogue. */
OWN_API size_t OWN(fold)(const uint8_t *bytes, size_t n, uint8_t *out) {
    static own_catalogue c;
    int standing[OWN_ENTRIES];
    uint32_t carried[OWN_ENTRIES];
    if (OWN(read)(bytes, n, &c))
        return OWN_WIDER(fold, bytes, n, out);
    own_standing(&c, standing);
    own_carried(&c, standing, carried);
    uint8_t *at = out;
    int count = 0;
    for (int i = 0; i < c.count; i++) {
        const own_entry *e = &c.entries[i];
        if (standing[i] != i)
            continue;
        count++;
        own_ans a;
        OWN(reduce)(e->d, e->m, e->b, &a);
        at = own_put_head(at, c.form, e);
        for (int v = 0; v < e->d; v++)
            for (int k = 0; k < e->m; k++)
                at = own_put(at, 2u << 28 | (uint32_t)(a.b[v][k] + 20000));
        if (e->draft)
            at = own_put(at, 5u << 28 | 1);
        if (carried[i])
            at = own_put(at, 3u << 28 | carried[i]);
    }
    at = own_put(at, 4u << 28 | (uint32_t)count);
    return (size_t)(at - out);
}

/* The catalogue in this form, which it may not have: the length written, 0 where it is refused. What stands between two
   heads is copied. */
OWN_API size_t OWN(in_form)(const uint8_t *bytes, size_t n, uint32_t form, uint8_t *out) {
    static own_catalogue c;
    if (n >= 4 && own_word(bytes, 0) >> 28 == form)
        return 0;
    if (OWN(read)(bytes, n, &c))
        return OWN_WIDER(in_form, bytes, n, form, out);
    uint8_t *at = out;
    int head = c.form == OWN_NEW ? 2 : 1;
    for (int k = 0; k < c.count && form == OWN_OLD; k++)
        if (c.entries[k].number > OWN_NUMBER)
            return 0;
    for (int k = 0; k < c.count; k++) {
        const own_entry *e = &c.entries[k];
        int end = k + 1 < c.count ? c.entries[k + 1].place : (int)(n / 4) - 1;
        size_t length = 4 * (size_t)(end - e->place - head);
        at = own_put_head(at, form, e);
        memcpy(at, bytes + 4 * (e->place + head), length);
        at += length;
    }
    at = own_put(at, 4u << 28 | (uint32_t)c.count);
    return (size_t)(at - out);
}

/* The standing number, 0 where there is none. */
OWN_API uint32_t OWN(lookup)(const uint8_t *bytes, size_t n, uint32_t number) {
    static own_catalogue c;
    if (OWN(read)(bytes, n, &c))
        return OWN_WIDER(lookup, bytes, n, number);
    int k = own_find(&c, number);
    if (k < 0)
        return 0;
    own_entry *e = &c.entries[k];
    i64 form[4][OWN_WIDTH], other[4][OWN_WIDTH];
    own_ans a;
    OWN(reduce)(e->d, e->m, e->b, &a);
    memcpy(form, a.b, sizeof form);
    own_hermite(e->d, e->m, form);
    int first = -1;
    for (int i = 0; i < c.count; i++) {
        own_entry *f = &c.entries[i];
        if (f->m != e->m || f->d != e->d || (f->draft && first >= 0))
            continue;
        if (i != k) {
            OWN(reduce)(f->d, f->m, f->b, &a);
            memcpy(other, a.b, sizeof other);
            own_hermite(f->d, f->m, other);
            if (!own_same(e, f, form, other))
                continue;
        }
        if (!f->draft)
            return f->number;
        first = i;
    }
    return c.entries[first].number;
}
