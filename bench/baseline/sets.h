/* The sets that are measured: n bases of d vectors, each with a target, the same for the same seed (splitmix64).  The
   vectors have d coordinates, or eight where OWN_WIDTH is eight.
   sort a: uniform in the ball of squared radius 4e8, independent
   sort b: small random lattice (coordinates up to s, s log-uniform 1..200), scrambled by
           random moves b_i += k b_j (k in -3..3) as long as the length limit holds
   sort c: lattices of multiplicative generators x -> a x mod M, M <= 20000;
           even numbers primal (1,a,a^2,..),(0,M,..), odd numbers dual (M,0,..),(-a,1,0..),(-a^2,0,1..);
           in eight coordinates the d coordinates again and again
   Thirds in equal parts: a gets the remainder.  All bases are independent and inside the limit. */
#include <stdint.h>
#include <stdlib.h>
#include <string.h>
#define LIM 400000000LL
static uint64_t S;
static uint64_t rnd(void) {
    uint64_t z = (S += 0x9e3779b97f4a7c15ULL);
    z = (z ^ (z >> 30)) * 0xbf58476d1ce4e5b9ULL;
    z = (z ^ (z >> 27)) * 0x94d049bb133111ebULL;
    return z ^ (z >> 31);
}
static i64 uni(i64 lo, i64 hi) {
    uint64_t w = (uint64_t)(hi - lo + 1);
    return lo + (i64)(rnd() % w);
} /* w tiny against 2^64 */
static i64 n2(const i64 *v, int m) {
    i64 s = 0;
    for (int i = 0; i < m; i++)
        s += v[i] * v[i];
    return s;
}
static void ball(int d, i64 *v) {
    do
        for (int i = 0; i < d; i++)
            v[i] = uni(-20000, 20000);
    while (n2(v, d) > LIM);
}
static int prime(int n) {
    if (n < 2)
        return 0;
    for (int p = 2; p * p <= n; p++)
        if (n % p == 0)
            return 0;
    return 1;
}
/* One basis with its target; unused places are 0. */
typedef struct {
    i64 b[4][OWN_WIDTH], t[OWN_WIDTH];
} own_input;

void OWN(set)(int d, long n, uint64_t seed, own_input *out) {
    int m = OWN_WIDTH == 4 ? d : OWN_WIDTH;
    S = seed * 1000003ULL + (uint64_t)d;
    long nb = n / 3, nc = n / 3, na = n - nb - nc;
    for (long q = 0; q < n; q++) {
        char sort = q < na ? 'a' : q < na + nb ? 'b' : 'c';
        i64 b[4][OWN_WIDTH];
        memset(b, 0, sizeof b);
        if (sort == 'a') {
            do
                for (int i = 0; i < d; i++)
                    ball(m, b[i]);
            while (!own_independent(d, m, b));
        } else if (sort == 'b') {
            static const int scales[8] = {1, 2, 5, 10, 20, 50, 100, 200};
            do {
                i64 s = scales[uni(0, 7)];
                for (int i = 0; i < d; i++)
                    for (int j = 0; j < m; j++)
                        b[i][j] = uni(-s, s);
            } while (!own_independent(d, m, b));
            int fail = 0;
            while (fail < 40) {
                int i = (int)uni(0, d - 1), j = (int)uni(0, d - 2);
                if (j >= i)
                    j++;
                i64 k = uni(1, 3);
                if (rnd() & 1)
                    k = -k;
                i64 t[OWN_WIDTH];
                for (int z = 0; z < m; z++)
                    t[z] = b[i][z] + k * b[j][z];
                if (n2(t, m) <= LIM && n2(t, m) >= n2(b[i], m) / 4) {
                    memcpy(b[i], t, sizeof(i64) * m);
                    fail = 0;
                } else
                    fail++;
                if ((rnd() & 4095) == 0)
                    break; /* guard: walks that wander without growing */
            }
        } else {
            int ok = 0;
            while (!ok) {
                memset(b, 0, sizeof b);
                i64 M;
                int kind = (int)uni(0, 3);
                if (kind == 0)
                    M = 1LL << uni(6, 14);
                else {
                    M = uni(64, 19999);
                    if (kind == 1)
                        while (!prime((int)M))
                            M = uni(64, 19999);
                }
                i64 a = uni(2, M - 1), p = 1;
                i64 pw[4];
                for (int i = 0; i < d; i++) {
                    pw[i] = p;
                    p = p * a % M;
                }
                if (q & 1) {
                    b[0][0] = M;
                    for (int i = 1; i < d; i++) {
                        b[i][0] = -pw[i];
                        b[i][i] = 1;
                    }
                } else {
                    for (int i = 0; i < d; i++)
                        b[0][i] = pw[i];
                    for (int i = 1; i < d; i++)
                        b[i][i] = M;
                }
                for (int i = 0; i < d; i++)
                    for (int j = d; j < m; j++)
                        b[i][j] = b[i][j - d];
                ok = 1;
                for (int i = 0; i < d; i++)
                    if (n2(b[i], m) > LIM)
                        ok = 0;
            }
        }
        memcpy(out[q].b, b, sizeof b);
        memset(out[q].t, 0, sizeof out[q].t);
        ball(m, out[q].t);
    }
}

#if OWN_WIDTH == 4
/* Short vectors and far targets: the face-centred lattice (d = 3) or D4 (d = 4), targets near the limit. */
void own_far_set(int d, long n, uint64_t seed, own_input *out) {
    static const i64 face[4][4] = {{1, 1, 0, 0}, {1, 0, 1, 0}, {0, 1, 1, 0}, {0, 0, 0, 0}};
    static const i64 d4[4][4] = {{1, 1, 0, 0}, {1, -1, 0, 0}, {0, 1, -1, 0}, {0, 0, 1, -1}};
    S = seed * 1000003ULL + (uint64_t)d;
    for (long q = 0; q < n; q++) {
        memcpy(out[q].b, d == 3 ? face : d4, sizeof out[q].b);
        memset(out[q].t, 0, sizeof out[q].t);
        do
            ball(d, out[q].t);
        while (n2(out[q].t, d) < LIM / 10 * 9);
    }
}
#endif
