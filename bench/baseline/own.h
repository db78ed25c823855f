/* What the engine is measured against: greedy reduction (Nguyen-Stehle, iterative form) of d <= 4 vectors in m <= 4
   coordinates, or m <= 8, squared lengths <= 4e8, and exact nearest vector.  int64 + double start values that are
   corrected exactly; ties by the least coefficient list (first coefficient first).  No proof, no claims.
   own_reduce: vectors only.  own_reduce_full: also U, V = U^-1, squared lengths, pass count.
   One text for two widths, each in its own object, so that four coordinates cost nothing for the sake of eight:
   own_ is of vectors of four numbers, own8_ of eight. */
#include <math.h>
#include <stdint.h>
#include <string.h>
typedef int64_t i64;
#ifndef OWN_API
#define OWN_API static inline
#endif
#ifndef OWN_WIDTH
#define OWN_WIDTH 4
#endif
#if OWN_WIDTH == 4
#define OWN(name) own_##name
#else
#define OWN(name) own8_##name
#endif
#define OWN_LIM 400000000LL
typedef struct {
    i64 b[4][OWN_WIDTH], U[4][4], V[4][4], n[4];
    i64 passes;
} own_ans;

static inline i64 own_iabs(i64 x) {
    return x < 0 ? -x : x;
}
static inline i64 own_dot(const i64 *a, const i64 *b) {
#if OWN_WIDTH == 4
    return a[0] * b[0] + a[1] * b[1] + a[2] * b[2] + a[3] * b[3];
#else
    return a[0] * b[0] + a[1] * b[1] + a[2] * b[2] + a[3] * b[3] + a[4] * b[4] + a[5] * b[5] + a[6] * b[6] + a[7] * b[7];
#endif
}
/* least integer nearest to c/g (half goes down): exact for |c|,g <= 4e8*8 */
static inline i64 own_rnd(double y) {
    return (i64)ceil(y - 0.5);
}

/* k <= 3: G = Gram of the k reduced vectors, c[i] = <b_i,t>.  On return x = coefficients of the nearest
   vector under the tie rule, c[i] = <b_i, t - sum x b>, result: |t-c|^2 - |t|^2 (change of squared length).
 */
static inline void own_move(int k, const i64 G[4][4], i64 *c, i64 *x, const i64 *e) {
    for (int i = 0; i < k; i++)
        x[i] += e[i];
    for (int i = 0; i < k; i++)
        for (int j = 0; j < k; j++)
            c[i] -= e[j] * G[i][j];
}
static void own_tie(int k, const i64 G[4][4], i64 *c, i64 *x) {
    /* r is a nearest residual; all nearest vectors differ from it by a Voronoi coordinate: entries in
       {-1,0,1}, or 2,1,1 up to order and signs.  Pick the lexicographically least with equal length. */
    i64 best[4] = {0, 0, 0, 0};
    int lim = k >= 3 ? 2 : 1;
    i64 e[3] = {0, 0, 0};
    for (e[0] = -lim; e[0] <= 0; e[0]++)
        for (e[1] = (k > 1 ? -lim : 0); e[1] <= (k > 1 ? lim : 0); e[1]++)
            for (e[2] = (k > 2 ? -lim : 0); e[2] <= (k > 2 ? lim : 0); e[2]++) {
                int twos = 0, zeros = 0;
                for (int i = 0; i < 3; i++) {
                    twos += (e[i] == 2 || e[i] == -2);
                    zeros += (e[i] == 0);
                }
                if (twos && !(twos == 1 && zeros == 0))
                    continue;
                i64 q = 0, l = 0;
                for (int i = 0; i < k; i++) {
                    l += e[i] * c[i];
                    for (int j = 0; j < k; j++)
                        q += e[i] * e[j] * G[i][j];
                }
                if (q == 2 * l) { /* equally near (0 vector included); loops run in lexicographic order: the
                                     first hit is the least */
                    best[0] = e[0];
                    best[1] = e[1];
                    best[2] = e[2];
                    goto done;
                }
            }
done:
    if (best[0] | best[1] | best[2])
        own_move(k, G, c, x, best);
}
static inline void own_near1(const i64 G[4][4], i64 *c, i64 *x) {
    x[0] = own_rnd((double)c[0] / (double)G[0][0]);
    c[0] -= x[0] * G[0][0];
}
static inline void own_near2(const i64 G[4][4], i64 *c, i64 *x) {
    const i64 a = G[0][0], b = G[0][1], d = G[1][1];
    x[0] = x[1] = 0;
    if (2 * own_iabs(c[0]) > a || 2 * own_iabs(c[1]) > d) {
        double inv = 1.0 / (double)(a * d - b * b);
        i64 e[2] = {(i64)rint((double)(c[0] * d - c[1] * b) * inv),
                    (i64)rint((double)(c[1] * a - c[0] * b) * inv)};
        own_move(2, G, c, x, e);
    }
    const i64 qp = a + d + 2 * b, qm = a + d - 2 * b;
    for (;;) {
        i64 c0 = 2 * c[0], c1 = 2 * c[1], s;
        i64 e[2] = {0, 0};
        if (own_iabs(c0) > a)
            e[0] = c0 > 0 ? 1 : -1;
        else if (own_iabs(c1) > d)
            e[1] = c1 > 0 ? 1 : -1;
        else if (own_iabs(s = c0 + c1) > qp)
            e[0] = e[1] = s > 0 ? 1 : -1;
        else if (own_iabs(s = c0 - c1) > qm) {
            e[0] = s > 0 ? 1 : -1;
            e[1] = -e[0];
        } else {
            if (own_iabs(c0) == a || own_iabs(c1) == d || own_iabs(c0 + c1) == qp || own_iabs(c0 - c1) == qm)
                own_tie(2, G, c, x);
            return;
        }
        own_move(2, G, c, x, e);
    }
}
static inline void own_near3(const i64 G[4][4], i64 *c, i64 *x) {
    static const signed char T[13][3] = {{1, 0, 0},  {0, 1, 0},  {0, 0, 1},  {1, 1, 0},  {1, -1, 0},
                                         {1, 0, 1},  {1, 0, -1}, {0, 1, 1},  {0, 1, -1}, {1, 1, 1},
                                         {1, 1, -1}, {1, -1, 1}, {1, -1, -1}};
    const i64 g00 = G[0][0], g11 = G[1][1], g22 = G[2][2], g01 = G[0][1], g02 = G[0][2], g12 = G[1][2];
    x[0] = x[1] = x[2] = 0;
    if (2 * own_iabs(c[0]) > g00 || 2 * own_iabs(c[1]) > g11 || 2 * own_iabs(c[2]) > g22) {
        double a00 = (double)(g11 * g22 - g12 * g12), a01 = (double)(g02 * g12 - g01 * g22),
               a02 = (double)(g01 * g12 - g02 * g11), a11 = (double)(g00 * g22 - g02 * g02),
               a12 = (double)(g01 * g02 - g00 * g12), a22 = (double)(g00 * g11 - g01 * g01);
        double inv = 1.0 / ((double)g00 * a00 + (double)g01 * a01 + (double)g02 * a02);
        double c0 = (double)c[0] * inv, c1 = (double)c[1] * inv, c2 = (double)c[2] * inv;
        i64 e[3] = {(i64)rint(a00 * c0 + a01 * c1 + a02 * c2), (i64)rint(a01 * c0 + a11 * c1 + a12 * c2),
                    (i64)rint(a02 * c0 + a12 * c1 + a22 * c2)};
        own_move(3, G, c, x, e);
    }
    const i64 s01 = g00 + g11, s02 = g00 + g22, s12 = g11 + g22, s = g00 + g11 + g22;
    const i64 q[13] = {g00,
                       g11,
                       g22,
                       s01 + 2 * g01,
                       s01 - 2 * g01,
                       s02 + 2 * g02,
                       s02 - 2 * g02,
                       s12 + 2 * g12,
                       s12 - 2 * g12,
                       s + 2 * (g01 + g02 + g12),
                       s + 2 * (g01 - g02 - g12),
                       s + 2 * (g02 - g01 - g12),
                       s + 2 * (g12 - g01 - g02)};
    for (;;) {
        const i64 c0 = 2 * c[0], c1 = 2 * c[1], c2 = 2 * c[2];
        const i64 p = c0 + c1, m = c0 - c1;
        const i64 l[13] = {c0,      c1,      c2,     p,      m,      c0 + c2, c0 - c2,
                           c1 + c2, c1 - c2, p + c2, p - c2, m + c2, m - c2};
        int hit = -1, tie = 0;
        for (int i = 0; i < 13; i++) {
            i64 w = own_iabs(l[i]) - q[i];
            if (w > 0)
                hit = i;
            tie |= (w == 0);
        }
        if (hit < 0) {
            if (tie)
                own_tie(3, G, c, x);
            return;
        }
        i64 sg = l[hit] > 0 ? 1 : -1, e[3] = {sg * T[hit][0], sg * T[hit][1], sg * T[hit][2]};
        own_move(3, G, c, x, e);
    }
}
static inline void own_near(int k, const i64 G[4][4], i64 *c, i64 *x) {
    if (k == 1)
        own_near1(G, c, x);
    else if (k == 2)
        own_near2(G, c, x);
    else
        own_near3(G, c, x);
}

static inline i64 own_det2(const i64 *a, const i64 *b, int i, int j) {
    return a[i] * b[j] - a[j] * b[i];
}
static inline i64 own_det3(const i64 *a, const i64 *b, const i64 *c, int i, int j, int k) {
    return a[i] * own_det2(b, c, j, k) - a[j] * own_det2(b, c, i, k) + a[k] * own_det2(b, c, i, j);
}
#if OWN_WIDTH == 4
static inline int own_independent(int d, int m, const i64 b[4][4]) {
    if (d > m)
        return 0;
    if (d == 1)
        return (b[0][0] | b[0][1] | b[0][2] | b[0][3]) != 0;
    if (d == 2) {
        for (int i = 0; i < m; i++)
            for (int j = i + 1; j < m; j++)
                if (own_det2(b[0], b[1], i, j))
                    return 1;
        return 0;
    }
    if (d == 3) {
        if (m == 3)
            return own_det3(b[0], b[1], b[2], 0, 1, 2) != 0;
        return own_det3(b[0], b[1], b[2], 0, 1, 2) || own_det3(b[0], b[1], b[2], 0, 1, 3) ||
               own_det3(b[0], b[1], b[2], 0, 2, 3) || own_det3(b[0], b[1], b[2], 1, 2, 3);
    }
    return b[0][0] * own_det3(b[1], b[2], b[3], 1, 2, 3) - b[0][1] * own_det3(b[1], b[2], b[3], 0, 2, 3) +
               b[0][2] * own_det3(b[1], b[2], b[3], 0, 1, 3) -
               b[0][3] * own_det3(b[1], b[2], b[3], 0, 1, 2) !=
           0;
}
#else
static inline i64 own_det4(const i64 b[4][8], int i, int j, int k, int l) {
    return b[0][i] * own_det3(b[1], b[2], b[3], j, k, l) - b[0][j] * own_det3(b[1], b[2], b[3], i, k, l) +
           b[0][k] * own_det3(b[1], b[2], b[3], i, j, l) - b[0][l] * own_det3(b[1], b[2], b[3], i, j, k);
}
/* some minor of d columns is not 0; most often the first that is tried */
static inline int own_independent(int d, int m, const i64 b[4][8]) {
    for (int i = 0; i < m; i++) {
        if (d == 1 && b[0][i])
            return 1;
        for (int j = i + 1; d > 1 && j < m; j++) {
            if (d == 2 && own_det2(b[0], b[1], i, j))
                return 1;
            for (int k = j + 1; d > 2 && k < m; k++) {
                if (d == 3 && own_det3(b[0], b[1], b[2], i, j, k))
                    return 1;
                for (int l = k + 1; d > 3 && l < m; l++)
                    if (own_det4(b, i, j, k, l))
                        return 1;
            }
        }
    }
    return 0;
}
#endif

/* one body for all variants: d and FULL are compile-time constants after inlining */
static inline __attribute__((always_inline)) int own_body(const int d, int m, const i64 in[4][OWN_WIDTH], own_ans *A,
                                                          const int FULL) {
    /* refusals: 4 = limit, 5 = dependent */
    for (int i = 0; i < d; i++) {
        for (int j = 0; j < m; j++)
            if (own_iabs(in[i][j]) > 20000)
                return 4;
        if (own_dot(in[i], in[i]) > OWN_LIM)
            return 4;
    }
    if (!own_independent(d, m, in))
        return 5;
    i64(*b)[OWN_WIDTH] = A->b;
    i64(*U)[4] = A->U;
    i64(*V)[4] = A->V;
    i64 G[4][4] = {{0}};
    int perm[4] = {0, 1, 2, 3};
    i64 n[4] = {0, 0, 0, 0};
    for (int i = 0; i < d; i++)
        n[i] = own_dot(in[i], in[i]);
    for (int i = 1; i < d; i++)
        for (int j = i; j > 0 && n[perm[j - 1]] > n[perm[j]]; j--) {
            int t = perm[j];
            perm[j] = perm[j - 1];
            perm[j - 1] = t;
        }
    memset(A->b, 0, sizeof A->b);
    for (int i = 0; i < d; i++)
        memcpy(b[i], in[perm[i]], sizeof b[i]);
    if (FULL) {
        memset(A->U, 0, sizeof A->U);
        memset(A->V, 0, sizeof A->V);
        for (int i = 0; i < d; i++) {
            U[i][perm[i]] = 1;
            V[perm[i]][i] = 1;
        }
    }
    for (int i = 0; i < d; i++)
        for (int j = 0; j <= i; j++)
            G[i][j] = G[j][i] = own_dot(b[i], b[j]);
    i64 passes = 0;
    int k = 1;
    while (k < d) {
        passes++;
        i64 c[4], x[4] = {0, 0, 0, 0};
        for (int i = 0; i < 3; i++)
            c[i] = G[k][i];
        if (d == 2 || k == 1)
            own_near1((const i64(*)[4])G, c, x);
        else if (d == 3 || k == 2)
            own_near2((const i64(*)[4])G, c, x);
        else
            own_near3((const i64(*)[4])G, c, x);
        if (x[0] | x[1] | x[2]) {
            for (int j = 0; j < OWN_WIDTH; j++)
                b[k][j] -= x[0] * b[0][j] + (k > 1 ? x[1] * b[1][j] : 0) + (k > 2 ? x[2] * b[2][j] : 0);
            if (FULL)
                for (int i = 0; i < k; i++) {
                    for (int j = 0; j < 4; j++)
                        U[k][j] = (i64)((uint64_t)U[k][j] - (uint64_t)x[i] * (uint64_t)U[i][j]);
                    for (int j = 0; j < 4; j++)
                        V[j][i] = (i64)((uint64_t)V[j][i] + (uint64_t)x[i] * (uint64_t)V[j][k]);
                }
            for (int i = 0; i < k; i++)
                G[i][k] = G[k][i] = c[i];
            for (int i = k; i < d; i++)
                G[i][k] = G[k][i] = own_dot(b[i], b[k]);
        }
        if (G[k][k] >= G[k - 1][k - 1]) {
            k++;
            continue;
        }
        int p = k - 1;
        while (p > 0 && G[p - 1][p - 1] > G[k][k])
            p--;
        for (int q = k; q > p; q--) { /* rotate into place */
            for (int j = 0; j < OWN_WIDTH; j++) {
                i64 t = b[q][j];
                b[q][j] = b[q - 1][j];
                b[q - 1][j] = t;
            }
            if (FULL)
                for (int j = 0; j < 4; j++) {
                    i64 t = U[q][j];
                    U[q][j] = U[q - 1][j];
                    U[q - 1][j] = t;
                    t = V[j][q];
                    V[j][q] = V[j][q - 1];
                    V[j][q - 1] = t;
                }
            for (int j = 0; j < d; j++) {
                i64 t = G[q][j];
                G[q][j] = G[q - 1][j];
                G[q - 1][j] = t;
            }
            for (int j = 0; j < d; j++) {
                i64 t = G[j][q];
                G[j][q] = G[j][q - 1];
                G[j][q - 1] = t;
            }
        }
        passes +=
            p > 1 ? p - 1
                  : 0; /* the recursion walks the already reduced prefix again: p-1 passes without effect */
        k = p ? p : 1;
    }
    A->passes = passes;
    for (int i = 0; i < 4; i++)
        A->n[i] = i < d ? G[i][i] : 0;
    return 0;
}
OWN_API int OWN(reduce)(int d, int m, const i64 in[4][OWN_WIDTH], own_ans *A) {
    switch (d) {
    case 1:
        return own_body(1, m, in, A, 0);
    case 2:
        return own_body(2, m, in, A, 0);
    case 3:
        return own_body(3, m, in, A, 0);
    case 4:
        return own_body(4, m, in, A, 0);
    }
    return 1;
}
OWN_API int OWN(reduce_full)(int d, int m, const i64 in[4][OWN_WIDTH], own_ans *A) {
    switch (d) {
    case 1:
        return own_body(1, m, in, A, 1);
    case 2:
        return own_body(2, m, in, A, 1);
    case 3:
        return own_body(3, m, in, A, 1);
    case 4:
        return own_body(4, m, in, A, 1);
    }
    return 1;
}

/* Exact nearest vector on a reduced basis b (d <= 4).  x = coefficients (tie rule), returns squared distance.
 */
OWN_API i64 OWN(nearest)(int d, const i64 b[4][OWN_WIDTH], const i64 t[OWN_WIDTH], i64 x[4], i64 v[OWN_WIDTH]) {
    i64 G[4][4], c[4];
    x[0] = x[1] = x[2] = x[3] = 0;
    for (int i = 0; i < d; i++) {
        c[i] = own_dot(b[i], t);
        for (int j = 0; j <= i; j++)
            G[i][j] = G[j][i] = own_dot(b[i], b[j]);
    }
    if (d < 4)
        own_near(d, (const i64(*)[4])G, c, x);
    else {
        /* Gram-Schmidt of the last vector in doubles: y4 = real coefficient, r4 = |b4*|^2; slices x4 outwards
         * from y4 */
        double g00 = G[0][0], g01 = G[0][1], g02 = G[0][2];
        double a00 = (double)(G[1][1] * G[2][2] - G[1][2] * G[1][2]),
               a01 = (double)(G[0][2] * G[1][2] - G[0][1] * G[2][2]),
               a02 = (double)(G[0][1] * G[1][2] - G[0][2] * G[1][1]),
               a11 = (double)(G[0][0] * G[2][2] - G[0][2] * G[0][2]),
               a12 = (double)(G[0][1] * G[0][2] - G[0][0] * G[1][2]),
               a22 = (double)(G[0][0] * G[1][1] - G[0][1] * G[0][1]);
        double inv = 1.0 / (g00 * a00 + g01 * a01 + g02 * a02);
        double h0 = G[3][0], h1 = G[3][1], h2 = G[3][2];
        double m0 = (a00 * h0 + a01 * h1 + a02 * h2) * inv, m1 = (a01 * h0 + a11 * h1 + a12 * h2) * inv,
               m2 = (a02 * h0 + a12 * h1 + a22 * h2) * inv; /* b4 on b1..b3 */
        double r4 = (double)G[3][3] - (m0 * h0 + m1 * h1 + m2 * h2);
        double y4 = ((double)c[3] - (m0 * c[0] + m1 * c[1] + m2 * c[2])) / r4;
        i64 mid = (i64)rint(y4), best = -1, bx[4] = {0, 0, 0, 0};
        i64 tt = own_dot(t, t);
#if OWN_WIDTH > 4
        /* the squared distance from the span, which every slice has besides its own; a little less, for rounding */
        double p = (c[0] * (a00 * c[0] + a01 * c[1] + a02 * c[2]) + c[1] * (a01 * c[0] + a11 * c[1] + a12 * c[2]) +
                    c[2] * (a02 * c[0] + a12 * c[1] + a22 * c[2])) *
                   inv;
        double off = (double)tt - p - y4 * y4 * r4 - 1e-3;
#define OWN_SLICE(w) (w * w * r4 + off)
#else
#define OWN_SLICE(w) (w * w * r4)
#endif
        int updone = 0, dndone = 0;
        for (i64 s = 0; !(updone && dndone); s++)
            for (int dir = 0; dir < (s ? 2 : 1); dir++) {
                i64 x4 = dir ? mid - s : mid + s;
                if (s) {
                    if (dir ? dndone : updone)
                        continue;
                    double w = (double)x4 - y4;
                    if (best >= 0 && OWN_SLICE(w) > (double)best * (1 + 1e-9) + 1e-3) {
                        if (dir)
                            dndone = 1;
                        else
                            updone = 1;
                        continue;
                    }
                }
                i64 cc[4], xx[4] = {0, 0, 0, 0};
                for (int i = 0; i < 3; i++)
                    cc[i] = c[i] - x4 * G[3][i];
                i64 c0 = cc[0], c1 = cc[1], c2 = cc[2];
                own_near3((const i64(*)[4])G, cc, xx);
                /* |t - x4 b4 - sum xx b|^2 = |t-x4 b4|^2 - sum xx_i (<b_i,u> + <b_i,r>) */
                i64 q = tt - 2 * x4 * c[3] + x4 * x4 * G[3][3] -
                        (xx[0] * (c0 + cc[0]) + xx[1] * (c1 + cc[1]) + xx[2] * (c2 + cc[2]));
                int better = best < 0 || q < best;
                if (!better && q == best) {
                    xx[3] = x4;
                    for (int i = 0; i < 4; i++)
                        if (xx[i] != bx[i]) {
                            better = xx[i] < bx[i];
                            break;
                        }
                }
                if (better) {
                    best = q;
                    bx[0] = xx[0];
                    bx[1] = xx[1];
                    bx[2] = xx[2];
                    bx[3] = x4;
                }
            }
        memcpy(x, bx, sizeof bx);
    }
    i64 r[OWN_WIDTH] = {0};
    for (int j = 0; j < OWN_WIDTH; j++) {
        i64 w = 0;
        for (int i = 0; i < d; i++)
            w += x[i] * b[i][j];
        v[j] = w;
        r[j] = t[j] - w;
    }
    return own_dot(r, r);
}
