/* A check in C as an expert writes it for speed, right and not proved; bench/run sets the proved one against it. 128-bit vector
   instructions, two lines at a time, values kept in arrays, figures judged by 32 x 32 -> 64 bit products in a loop that vectorises. The
   fast path only says "this pair of lines is right"; a pair that it does not pass is looked at line by line by plain code, which names the
   fault. The answers are those of edr_check: 1 and n, SO2, CO2, heat, mean, NOx tons, or 0 and number, line. Needs SSSE3 and SSE4.1
   (x86-64-v2). */
#include <immintrin.h>
#include <stddef.h>
#include <stdint.h>
#include <string.h>
typedef uint64_t u64;
typedef uint32_t u32;
typedef uint16_t u16;
typedef uint8_t u8;
typedef int64_t i64;
#define LIKELY(x) __builtin_expect(!!(x), 1)
#define MOST 2208
static inline u64 r64(const u8 *p) {
    u64 v;
    memcpy(&v, p, 8);
    return v;
}
static inline u64 r16(const u8 *p) {
    u16 v;
    memcpy(&v, p, 2);
    return v;
}
static inline __m128i r128(const u8 *p) { return _mm_loadu_si128((const __m128i *)p); }
enum { BLANK = -1, MALFORMED = -2 };
/* ---- exact and plain: one line at a time ---- */
static __attribute__((noinline)) i64 field(const u8 *p, int w, int d) {
    int i = 0;
    while (i < w && p[i] == ' ')
        i++;
    if (i == w)
        return BLANK;
    int e = d ? w - d - 1 : w;
    if (i >= e)
        return MALFORMED;
    i64 v = 0;
    for (; i < e; i++) {
        u8 c = p[i] - '0';
        if (c > 9)
            return MALFORMED;
        v = v * 10 + c;
    }
    if (d) {
        if (p[e] != '.')
            return MALFORMED;
        for (i = e + 1; i < w; i++) {
            u8 c = p[i] - '0';
            if (c > 9)
                return MALFORMED;
            v = v * 10 + c;
        }
    }
    return v;
}
static int printable(const u8 *p, size_t n) {
    u8 bad = 0;
    for (size_t i = 0; i < n; i++)
        bad |= (u8)(p[i] - 32) > 94;
    return !bad;
}
typedef struct {
    u32 year, q, first;
    u32 dim[4], start[4];
    u64 yy;
    const u8 *f;
    size_t len;
    u64 h0;
    u64 n45;
} ctx;
static inline int type_is(const u8 *f, size_t len, size_t at, const char *t) { return len - at >= 3 && !memcmp(f + at, t, 3); }
static __attribute__((noinline)) int shape(const ctx *c, size_t at, const char *t, size_t L) {
    if (!type_is(c->f, c->len, at, t))
        return 2;
    const u8 *p = c->f + at, *e = memchr(p, 10, c->len - at);
    size_t l = e ? (size_t)(e - p) : c->len - at;
    if (l != L)
        return 3;
    return printable(p, L) ? 0 : 4;
}
static inline int common(const ctx *c, size_t at, const char *t, size_t L) {
    int s = shape(c, at, t, L);
    return s ? s : memcmp(c->f + at + 3, c->f + 3, 6) ? 5 : 0;
}
/* the hour of the quarter of YYMMDDHH, or -1 */
static inline int stamp(const ctx *c, u64 w) {
    u64 x = w ^ 0x3030303030303030ull, bad = (x | (x + 0x7676767676767676ull)) & 0x8080808080808080ull;
    u64 y = (x * 10 + (x >> 8)) & 0x00ff00ff00ff00ffull;
    u32 m = (u32)(y >> 16 & 255) - c->first, d = (u32)(y >> 32 & 255) - 1, h = y >> 48;
    if (bad | ((y & 255) != c->yy) | (m > 2))
        return -1;
    if ((d >= c->dim[m]) | (h > 23))
        return -1;
    return (c->start[m] + d) * 24 + h;
}
/* ---- fast: two 8-byte windows that end with a field's last column ----
   S is taken from each byte; LIM is what may be left (9 for a digit, 0 for the point, 255 for a byte outside the field); BL is a blank
   where one may stand (MAY, in bits); W1, W2, W3 are weights. LOW is where blanks must begin, in bits of both windows. */
typedef struct {
    __m128i s, lim, bl, w1, w2, w3;
    u32 low, may;
} fmt;
#define DUP(a) a, a
#define V8(a, b, c, d, e, f, g, h) _mm_setr_epi8(a, b, c, d, e, f, g, h, a, b, c, d, e, f, g, h)
#define Z '0'
#define P '.'
#define U 0
#define N (-1)
#define B ' '
#define W16(a, b, c, d) _mm_setr_epi16(a, b, c, d, a, b, c, d)
#define W3(a) _mm_setr_epi16(a, 1, a, 1, 0, 0, 0, 0)
static inline __m128i pair(const u8 *a, const u8 *b) {
    return _mm_castpd_si128(_mm_loadh_pd(_mm_castsi128_pd(_mm_loadl_epi64((const __m128i *)a)), (const double *)b));
}
/* the two numbers in one word, the first low; *err gets bits where one is malformed */
static inline u64 two(__m128i v, fmt k, u32 *err) {
    __m128i d = _mm_sub_epi8(v, k.s), ok = _mm_cmpeq_epi8(_mm_min_epu8(d, k.lim), d), bl = _mm_cmpeq_epi8(v, k.bl);
    u32 D = _mm_movemask_epi8(ok), b = _mm_movemask_epi8(bl) & k.may;
    *err |= (D ^ b ^ 0xffff) | ((b + k.low) & b);
    d = _mm_and_si128(d, ok);
    __m128i x = _mm_madd_epi16(_mm_maddubs_epi16(d, k.w1), k.w2);
    x = _mm_madd_epi16(_mm_packus_epi32(x, x), k.w3);
    return _mm_cvtsi128_si64(x);
}
#define F1_6 \
    ((fmt){V8(0, 0, Z, Z, Z, Z, P, Z), V8(N, N, 9, 9, 9, 9, 0, 9), V8(U, U, B, B, B, U, U, U), V8(0, 0, 10, 1, 10, 1, 0, 1), \
           W16(0, 1, 10, 1), W3(1000), 0x0404, 0x1c1c})
#define F1_7 \
    ((fmt){V8(0, Z, Z, Z, Z, Z, P, Z), V8(N, 9, 9, 9, 9, 9, 0, 9), V8(U, B, B, B, B, U, U, U), V8(0, 1, 10, 1, 10, 1, 0, 1), \
           W16(100, 1, 10, 1), W3(1000), 0x0202, 0x1e1e})
#define I_7 \
    ((fmt){V8(0, Z, Z, Z, Z, Z, Z, Z), V8(N, 9, 9, 9, 9, 9, 9, 9), V8(U, B, B, B, B, B, B, B), V8(0, 1, 10, 1, 10, 1, 10, 1), \
           W16(100, 1, 100, 1), W3(10000), 0x0202, 0xfefe})
/* time (F.2, 4 columns) in the low window, heat (F.1, 7) in the high one */
#define TIME_HEAT \
    ((fmt){_mm_setr_epi8(0, 0, 0, 0, Z, P, Z, Z, 0, Z, Z, Z, Z, Z, P, Z), _mm_setr_epi8(N, N, N, N, 9, 0, 9, 9, N, 9, 9, 9, 9, 9, 0, 9), \
           _mm_setr_epi8(U, U, U, U, U, U, U, U, U, B, B, B, B, U, U, U), \
           _mm_setr_epi8(0, 0, 0, 0, 1, 0, 10, 1, 0, 1, 10, 1, 10, 1, 0, 1), _mm_setr_epi16(0, 0, 100, 1, 100, 1, 10, 1), W3(1000), \
           0x0200, 0x1e00})
/* Fc (the last 8 of its 10 columns, F.1) and NOx (F.3, 6) */
#define FC_NOX \
    ((fmt){_mm_setr_epi8(Z, Z, Z, Z, Z, Z, P, Z, 0, 0, Z, Z, P, Z, Z, Z), _mm_setr_epi8(9, 9, 9, 9, 9, 9, 0, 9, N, N, 9, 9, 0, 9, 9, 9), \
           _mm_setr_epi8(B, B, B, B, B, U, U, U, U, U, B, U, U, U, U, U), \
           _mm_setr_epi8(10, 1, 10, 1, 10, 1, 0, 1, 0, 0, 10, 1, 0, 1, 10, 1), _mm_setr_epi16(100, 1, 10, 1, 0, 1, 100, 1), W3(1000), \
           0x0401, 0x041f})
#define OFF(p) _mm_sub_epi8(r128(p), _mm_set1_epi8(32))
#define MAX4(a, b, c, d) _mm_max_epu8(_mm_max_epu8(OFF(a), OFF(b)), _mm_max_epu8(OFF(c), OFF(d)))
#define MAX2(a, b) _mm_max_epu8(OFF(a), OFF(b))
static inline int clear(__m128i m) {
    m = _mm_subs_epu8(m, _mm_set1_epi8(94));
    return _mm_testz_si128(m, m);
}
#define TYPE(t) ((u64)(u8)t[0] | (u64)(u8)t[1] << 8 | (u64)(u8)t[2] << 16)
typedef struct {
    u32 so2[MOST], nox[MOST], co2[MOST], flow[MOST], time[MOST], heat[MOST], so2r[MOST], fc[MOST], noxr[MOST], co2r[MOST], hour[MOST],
        place[MOST];
} hours;
#define GAS 0xffffffffu
static inline u64 lo(u64 k) { return 2 * k - (k != 0); }
static inline u64 hi(u64 k) { return 2 * k + 1; }
static inline int meet(u64 a, u64 b, u64 c, u64 d) { return (a < d) & (c < b); }
/* 11 to 14 for one hour, or 0 */
static int figure(const hours *h, size_t k) {
    u64 C = h->co2[k], F = h->flow[k], H = h->heat[k], R = h->so2r[k], fc = h->fc[k], Q = h->co2r[k], S = h->so2[k], X = h->nox[k],
        V = h->noxr[k];
    if (!meet(100 * lo(C) * lo(F), 100 * hi(C) * hi(F), lo(H) * 2 * fc, hi(H) * 2 * fc))
        return 11;
    if (S == GAS ? !meet(3 * lo(H), 3 * hi(H), 5000 * lo(R), 5000 * hi(R))
                 : !meet(166 * lo(S) * lo(F), 166 * hi(S) * hi(F), lo(R) * 2000000, hi(R) * 2000000))
        return 12;
    if (!meet(lo(X) * 2388 * fc, hi(X) * 2388 * fc, lo(V) * 1000000 * lo(C), hi(V) * 1000000 * hi(C)))
        return 13;
    if (!meet(57 * lo(C) * lo(F), 57 * hi(C) * hi(F), lo(Q) * 200000, hi(Q) * 200000))
        return 14;
    return 0;
}
/* vectors of 64-bit numbers, whose factors have 32 bits */
#if defined(__AVX2__)
#define LANES 4
typedef __m256i vec;
#define LD(p) _mm256_cvtepu32_epi64(_mm_loadu_si128((const __m128i *)(p)))
#define MUL _mm256_mul_epu32
#define ADD _mm256_add_epi64
#define AND _mm256_and_si256
#define GT _mm256_cmpgt_epi64
#define SEL(m, a, b) _mm256_blendv_epi8(b, a, m)
#define SET(x) _mm256_set1_epi64x(x)
#define ALL(x) (_mm256_movemask_epi8(x) == -1)
static inline u64 SUM(vec x) {
    return (u64)_mm256_extract_epi64(x, 0) + _mm256_extract_epi64(x, 1) + _mm256_extract_epi64(x, 2) + _mm256_extract_epi64(x, 3);
}
#else
#define LANES 2
typedef __m128i vec;
#define LD(p) _mm_cvtepu32_epi64(_mm_loadl_epi64((const __m128i *)(p)))
#define MUL _mm_mul_epu32
#define ADD _mm_add_epi64
#define AND _mm_and_si128
#define GT _mm_cmpgt_epi64
#define SEL(m, a, b) _mm_blendv_epi8(b, a, m)
#define SET(x) _mm_set1_epi64x(x)
#define ALL(x) (_mm_movemask_epi8(x) == 0xffff)
static inline u64 SUM(vec x) { return (u64)_mm_extract_epi64(x, 0) + _mm_extract_epi64(x, 1); }
#endif
#define ZERO SET(0)
#define ONE SET(1)
#define ONES SET(-1)
#define REFUSE(no, ln) \
    do { \
        out[0] = (no); \
        out[1] = (ln); \
        return 0; \
    } while (0)
int expert_check(const u8 *f, size_t len, u64 *out) {
    if (!len || f[len - 1] != 10)
        REFUSE(1, 0);
    ctx c0 = {.f = f, .len = len}, *c = &c0;
    {
        int s = shape(c, 0, "100", 14);
        if (s)
            REFUSE(s, 1);
    }
    if (!memcmp(f + 3, "      ", 6))
        REFUSE(5, 1);
    {
        u32 y = 0;
        for (int i = 9; i < 13; i++) {
            u8 d = f[i] - '0';
            if (d > 9)
                REFUSE(6, 1);
            y = y * 10 + d;
        }
        u8 q = f[13] - '0';
        if (y < 1995 || y > 2094 || q < 1 || q > 4)
            REFUSE(6, 1);
        c->year = y;
        c->q = q;
    }
    c->yy = c->year % 100;
    c->first = 3 * c->q - 2;
    for (u32 m = 0, s = 0; m < 3; m++) {
        static const u8 dm[] = {31, 28, 31, 30, 31, 30, 31, 31, 30, 31, 30, 31};
        u32 y = c->year, d = dm[c->first - 1 + m];
        if (c->first + m == 2 && ((y % 4 == 0 && y % 100) || y % 400 == 0))
            d = 29;
        c->dim[m] = d;
        c->start[m] = s;
        s += d;
    }
    /* type and the first five of the name in one word; the sixth beside the fifth */
    u64 nm = 0;
    memcpy(&nm, f + 3, 5);
    nm <<= 24;
    u64 n45 = r16(f + 7);
    hours h;
    size_t n = 0, at = 15;
    int from = 0;
    const u8 *d200 = f + 15 + 15;
#define HEAD(p, T) ((r64(p) ^ T) | (r16((p) + 7) ^ n45))
    /* 200 */
    {
        u64 T = TYPE("200") | nm;
        const size_t L = 40;
        for (;;) {
            const u8 *p = f + at;
            if (LIKELY(len - at >= 2 * (L + 1))) {
                const u8 *r = p + L + 1;
                u32 e = 0;
                u64 z = HEAD(p, T) | HEAD(r, T) | (u64)(p[L] ^ 10) | (u64)(r[L] ^ 10);
                u64 v = two(pair(p + 32, r + 32), F1_6, &e);
                __m128i m = MAX4(p + 9, p + 18, r + 9, r + 18);
                int a = stamp(c, r64(p + 15)), b = stamp(c, r64(r + 15));
                if (LIKELY(!(z | e) && clear(m) && a >= from && b > a && n + 2 <= MOST)) {
                    h.so2[n] = (u32)v;
                    h.so2[n + 1] = (u32)(v >> 32);
                    h.hour[n] = a;
                    h.hour[n + 1] = b;
                    from = b + 1;
                    n += 2;
                    at += 2 * (L + 1);
                    continue;
                }
            }
            if (at == len || !type_is(f, len, at, "200"))
                break;
            int s = common(c, at, "200", L);
            if (s)
                REFUSE(s, 2 + n);
            int a = stamp(c, r64(p + 15));
            if (a < from)
                REFUSE(6, 2 + n);
            i64 v = field(p + 34, 6, 1);
            if (v == MALFORMED)
                REFUSE(8, 2 + n);
            h.so2[n] = v < 0 ? GAS : (u32)v;
            h.hour[n] = a;
            from = a + 1;
            n++;
            at += L + 1;
        }
    }
    size_t line = 2 + n;
    /* runs of n lines of one length: PAIRTEST computes e and v and the largest byte, KEEP stores the pair; ONE does one line exactly */
#define RUN(TY, LEN, DC, MAXES, FMT, WIN, EXTRA, KEEP, ONE) \
    { \
        const u64 T = TYPE(TY) | nm; \
        const size_t L = LEN; \
        size_t k = 0; \
        while (k < n) { \
            const u8 *p = f + at; \
            if (LIKELY(n - k >= 2 && len - at >= 2 * (L + 1))) { \
                const u8 *r = p + L + 1, *d = d200 + 41 * k; \
                u32 e = 0; \
                u64 z = \
                    HEAD(p, T) | HEAD(r, T) | (u64)(p[L] ^ 10) | (u64)(r[L] ^ 10) | (r64(p + DC) ^ r64(d)) | (r64(r + DC) ^ r64(d + 41)); \
                u64 v = two(pair(p + WIN, r + WIN), FMT, &e); \
                u32 v0 = (u32)v, v1 = (u32)(v >> 32); \
                if (LIKELY(!(z | e) && MAXES && (EXTRA))) { \
                    KEEP at += 2 * (L + 1); \
                    k += 2; \
                    line += 2; \
                    continue; \
                } \
            } \
            if (at == len) \
                REFUSE(10, line); \
            { \
                int s = common(c, at, TY, L); \
                if (s) \
                    REFUSE(s, line); \
                if (r64(p + DC) != r64(d200 + 41 * k)) \
                    REFUSE(7, line); \
                i64 v; \
                ONE \
            } \
            at += L + 1; \
            k++; \
            line++; \
        } \
    }
    RUN("201", 34, 15, clear(MAX4(p + 9, p + 12, r + 9, r + 12)), F1_6, 26, 1, h.nox[k] = v0; h.nox[k + 1] = v1;, v = field(p + 28, 6, 1);
        if (v < 0) REFUSE(8, line); h.nox[k] = v;)
    RUN("202", 34, 15, clear(MAX4(p + 9, p + 12, r + 9, r + 12)), F1_6, 26, (v0 - 1 < 1000) & (v1 - 1 < 1000), h.co2[k] = v0;
        h.co2[k + 1] = v1;, v = field(p + 28, 6, 1); if (v < 0) REFUSE(8, line); if (v < 1 || v > 1000) REFUSE(9, line); h.co2[k] = v;)
#define LAST3(p) ((r64((p) + 40) >> 40) ^ 0x303030)
#define NOFLOW(p) ((r64((p) + 37) >> 8 == 0x20202020202020u) & (LAST3(p) == 0x001010))
#define WHOLE(p) (LAST3(p) == 0 || NOFLOW(p))
    RUN("220", 48, 15, clear(MAX4(p + 9, p + 22, r + 9, r + 22)), I_7, 37, WHOLE(p) && WHOLE(r),
        h.flow[k] = v0;
        h.flow[k + 1] = v1;, v = field(p + 38, 10, 0); if (v < 0) REFUSE(8, line); if (v > 9999999000) REFUSE(9, line);
        if (v % 1000) REFUSE(43, line); h.flow[k] = v / 1000;)
    /* 300 */
    size_t ops = 0;
    from = 0;
    {
        u64 T = TYPE("300") | nm;
        const size_t L = 42;
        size_t k = 0;
        for (;;) {
            const u8 *p = f + at;
            if (LIKELY(len - at > L)) {
                u32 e = 0;
                u64 w = r64(p + 9), z = HEAD(p, T) | (u64)(p[L] ^ 10);
                int pr = clear(OFF(p + 20));
                if (LIKELY(!z && pr)) {
                    if (k < n && w == r64(d200 + 41 * k)) {
                        u64 v = two(pair(p + 13, p + 34), TIME_HEAT, &e);
                        u32 t = (u32)v;
                        if (LIKELY(!e && t - 1 < 100 && (int)h.hour[k] >= from)) {
                            h.time[k] = t;
                            h.heat[k] = (u32)(v >> 32);
                            h.place[k] = ops;
                            from = h.hour[k] + 1;
                            k++;
                            ops++;
                            at += L + 1;
                            line++;
                            continue;
                        }
                    } else {
                        u32 t;
                        memcpy(&t, p + 17, 4);
                        int a = stamp(c, w);
                        if (LIKELY(t == 0x30302e30u && (((r64(p + 34) ^ 0x2020202020202020ull) >> 8) == 0) && a >= from)) {
                            from = a + 1;
                            ops++;
                            at += L + 1;
                            line++;
                            continue;
                        }
                    }
                }
            }
            if (at == len) {
                if (k < n)
                    REFUSE(10, line);
                break;
            }
            if (!type_is(f, len, at, "300")) {
                if (k < n)
                    REFUSE(2, line);
                break;
            }
            int s = common(c, at, "300", L);
            if (s)
                REFUSE(s, line);
            int a = stamp(c, r64(p + 9));
            if (a < from)
                REFUSE(6, line);
            i64 t = field(p + 17, 4, 2);
            if (t < 0)
                REFUSE(8, line);
            if (t > 100)
                REFUSE(9, line);
            i64 v = field(p + 35, 7, 1);
            if (t == 0) {
                if (v != BLANK)
                    REFUSE(47, line);
            } else {
                if (k >= n || r64(p + 9) != r64(d200 + 41 * k))
                    REFUSE(7, line);
                if (v < 0)
                    REFUSE(8, line);
                h.time[k] = t;
                h.heat[k] = v;
                h.place[k] = ops;
                k++;
            }
            from = a + 1;
            ops++;
            at += L + 1;
            line++;
        }
    }
    /* 301 */
    u64 tot[5];
    size_t line301 = line;
    {
        if (at == len)
            REFUSE(10, line);
        int s = common(c, at, "301", 59);
        if (s)
            REFUSE(s, line);
        static const u8 cs[] = {9, 20, 31, 42, 48}, ws[] = {11, 11, 11, 6, 11}, ds[] = {1, 1, 1, 3, 1};
        for (int i = 0; i < 5; i++) {
            i64 v = field(f + at + cs[i], ws[i], ds[i]);
            if (v < 0)
                REFUSE(8, line);
            tot[i] = v;
        }
        at += 60;
        line++;
    }
    /* 310: GAS and a blank 200 value go together */
#define ISGAS(p) ((r64((p) + 26) >> 40) == 0x534147u)
    RUN("310", 34, 9, clear(MAX4(p + 17, p + 18, r + 17, r + 18)), F1_7, 23,
        (ISGAS(p) == (h.so2[k] == GAS)) & (ISGAS(r) == (h.so2[k + 1] == GAS)), h.so2r[k] = v0;
        h.so2r[k + 1] = v1;, if (ISGAS(p) != (h.so2[k] == GAS)) REFUSE(49, line); v = field(p + 24, 7, 1); if (v < 0) REFUSE(8, line);
        h.so2r[k] = v;)
    /* 320: two values, one line at a time */
    {
        const u64 T = TYPE("320") | nm;
        const size_t L = 54;
        for (size_t k = 0; k < n; k++, at += L + 1, line++) {
            const u8 *p = f + at;
            if (LIKELY(len - at > L)) {
                u32 e = 0;
                const u8 *d = d200 + 41 * k;
                u64 z = HEAD(p, T) | (u64)(p[L] ^ 10) | (r64(p + 12) ^ r64(d));
                u64 pre = r16(p + 25);
                if (pre != 0x2020)
                    z |= !(((pre == 0x3030) | (pre == 0x3020)) & (p[27] != ' '));
                u64 v = two(pair(p + 27, p + 33), FC_NOX, &e);
                if (LIKELY(!(z | e) && clear(MAX2(p + 9, p + 38)) && (u32)v - 5000 <= 25000)) {
                    h.fc[k] = (u32)v;
                    h.noxr[k] = (u32)(v >> 32);
                    continue;
                }
            }
            if (at == len)
                REFUSE(10, line);
            int s = common(c, at, "320", L);
            if (s)
                REFUSE(s, line);
            if (r64(p + 12) != r64(d200 + 41 * k))
                REFUSE(7, line);
            i64 v = field(p + 25, 10, 1);
            if (v < 0)
                REFUSE(8, line);
            if (v < 5000 || v > 30000)
                REFUSE(9, line);
            h.fc[k] = v;
            v = field(p + 35, 6, 3);
            if (v < 0)
                REFUSE(8, line);
            h.noxr[k] = v;
        }
    }
    RUN("330", 24, 9, 1, F1_7, 16, 1, h.co2r[k] = v0; h.co2r[k + 1] = v1;, v = field(p + 17, 7, 1); if (v < 0) REFUSE(8, line);
        h.co2r[k] = v;)
    if (at < len)
        REFUSE(2, line);
    /* the hours, in blocks */
    u64 a = 0, b = 0, g = 0, s = 0, t = 0;
    vec A = ZERO, Bs = ZERO, G = ZERO, Ss = ZERO, Tt = ZERO;
    for (size_t k0 = 0; k0 < n; k0 += 64) {
        size_t k1 = k0 + 64 < n ? k0 + 64 : n, k = k0;
        u64 bad = 0;
        vec ok = ONES;
        for (; k + LANES <= k1; k += LANES) {
#define LO(x) ADD(ADD(x, x), GT(x, ZERO))
#define HI(x) ADD(ADD(x, x), ONE)
#define C(x) SET(x)
#define PASS(a, b, c, d) ok = AND(ok, AND(GT(d, a), GT(b, c)))
            vec Cv = LD(h.co2 + k), F = LD(h.flow + k), H = LD(h.heat + k), R = LD(h.so2r + k), fc = LD(h.fc + k), Q = LD(h.co2r + k),
                S = LD(h.so2 + k), X = LD(h.nox + k), V = LD(h.noxr + k), m = LD(h.time + k);
            vec cl = LO(Cv), ch = HI(Cv), fl = LO(F), fh = HI(F), hl = LO(H), hh = HI(H), rl = LO(R), rh = HI(R),
                f2 = ADD(fc, fc), w = MUL(C(2388), fc), xl = LO(X), xh = HI(X), vl = LO(V), vh = HI(V), ql = LO(Q),
                qh = HI(Q);
            PASS(MUL(MUL(C(100), cl), fl), MUL(MUL(C(100), ch), fh), MUL(hl, f2), MUL(hh, f2));
            vec gas = GT(S, C(0xfffffffe));
            S = AND(S, C(0x1ffff));
            vec sl = LO(S), sh = HI(S);
            PASS(SEL(gas, MUL(C(3), hl), MUL(MUL(C(166), sl), fl)), SEL(gas, MUL(C(3), hh), MUL(MUL(C(166), sh), fh)),
                 MUL(SEL(gas, C(5000), C(2000000)), rl), MUL(SEL(gas, C(5000), C(2000000)), rh));
            PASS(MUL(xl, w), MUL(xh, w), MUL(vl, MUL(C(1000000), cl)), MUL(vh, MUL(C(1000000), ch)));
            PASS(MUL(MUL(C(57), cl), fl), MUL(MUL(C(57), ch), fh), MUL(C(200000), ql), MUL(C(200000), qh));
            A = ADD(A, MUL(R, m));
            Bs = ADD(Bs, MUL(Q, m));
            G = ADD(G, MUL(H, m));
            Ss = ADD(Ss, V);
            Tt = ADD(Tt, MUL(MUL(V, m), H));
        }
        bad = !ALL(ok);
        for (; k < k1; k++) {
            u64 V = h.noxr[k], m = h.time[k];
            bad |= figure(&h, k) != 0;
            a += h.so2r[k] * m;
            b += h.co2r[k] * m;
            g += h.heat[k] * m;
            s += V;
            t += V * m * h.heat[k];
        }
        if (bad)
            for (size_t k = k0; k < k1; k++) {
                int no = figure(&h, k);
                if (!no)
                    continue;
                size_t z = no == 11 ? 2 + 4 * n + h.place[k] : 3 + 4 * n + ops + (no - 12) * n + k;
                REFUSE(no, z);
            }
    }
    a += SUM(A);
    b += SUM(Bs);
    g += SUM(G);
    s += SUM(Ss);
    t += SUM(Tt);
    u64 r[5] = {(2 * a + 200000) / 400000, (2 * b + 100) / 200, (2 * g + 100) / 200, n ? (2 * s + n) / (2 * n) : 0,
                (2 * t + 200000000) / 400000000};
    for (int i = 0; i < 5; i++)
        if (r[i] != tot[i])
            REFUSE(i < 4 ? 21 + i : 48, line301);
    out[0] = n;
    for (int i = 0; i < 5; i++)
        out[1 + i] = r[i];
    return 1;
}
