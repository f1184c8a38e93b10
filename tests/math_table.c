/* The table of crates/math_table from the hardware's IEEE floats, by the rules of the scope's
   'Float leaves'. It makes the expected output:
   cc -std=c11 -O0 -ffp-contract=off -fno-fast-math -msse2 -mfpmath=sse -o target/math_table tests/math_table.c -lm && target/math_table > crates/math_table/stdout */
#include <math.h>
#include <stdint.h>
#include <stdio.h>
#include <string.h>

typedef struct { float x, y, z; } vec;
typedef struct { vec b; float w; } quat;
typedef struct { vec col[3]; } mat;

static float of_bits(uint32_t u) { float f; memcpy(&f, &u, sizeof f); return f; }
static uint32_t to_bits(float f) { uint32_t u; memcpy(&u, &f, sizeof u); return isnan(f) ? 0x7fc00000u : u; }

/* Printing: a name, then each number after a tab. */
static void hex(uint32_t u) { printf("\t%08X", (unsigned)u); }
static void num(float f) { hex(to_bits(f)); }
static void vec_out(vec v) { num(v.x); num(v.y); num(v.z); }
static void quat_out(quat q) { vec_out(q.b); num(q.w); }
static void line_num(const char *n, float f) { printf("%s", n); num(f); putchar('\n'); }
static void line_vec(const char *n, vec v) { printf("%s", n); vec_out(v); putchar('\n'); }
static void line_quat(const char *n, quat q) { printf("%s", n); quat_out(q); putchar('\n'); }

/* Maximum and minimum ignore one NaN; on equal operands the left is taken. */
static float larger(float a, float b) {
    if (isnan(a)) return b;
    if (isnan(b)) return a;
    return a >= b ? a : b;
}
static float smaller(float a, float b) {
    if (isnan(a)) return b;
    if (isnan(b)) return a;
    return a <= b ? a : b;
}

/* Vectors. */
static vec plus(vec a, vec b) { return (vec){a.x + b.x, a.y + b.y, a.z + b.z}; }
static vec minus(vec a, vec b) { return (vec){a.x - b.x, a.y - b.y, a.z - b.z}; }
static vec scaled(vec a, float k) { return (vec){a.x * k, a.y * k, a.z * k}; }
static vec opposite(vec a) { return (vec){-a.x, -a.y, -a.z}; }
static float dot(vec a, vec b) { return (a.x * b.x + a.y * b.y) + a.z * b.z; }
static vec cross(vec a, vec b) {
    return (vec){a.y * b.z - b.y * a.z, a.z * b.x - b.z * a.x, a.x * b.y - b.x * a.y};
}
static float length(vec a) { return sqrtf(dot(a, a)); }
static float distance2(vec a, vec b) { vec d = minus(a, b); return dot(d, d); }
/* maximum x (v / length) if squared length > maximum squared, else v */
static vec clamp(vec v, float most) {
    if (!(dot(v, v) > most * most)) return v;
    float l = length(v);
    return (vec){most * (v.x / l), most * (v.y / l), most * (v.z / l)};
}
/* v - n(v.n) */
static vec reject(vec v, vec n) { return minus(v, scaled(n, dot(v, n))); }

/* Quaternions: b is the vector part. */
static float dot4(quat p, quat q) { return dot(p.b, q.b) + p.w * q.w; }
static quat product(quat p, quat q) {
    float x1 = p.b.x, y1 = p.b.y, z1 = p.b.z, w1 = p.w;
    float x2 = q.b.x, y2 = q.b.y, z2 = q.b.z, w2 = q.w;
    quat r;
    r.b.x = ((w1 * x2 + x1 * w2) + y1 * z2) - z1 * y2;
    r.b.y = ((w1 * y2 - x1 * z2) + y1 * w2) + z1 * x2;
    r.b.z = ((w1 * z2 + x1 * y2) - y1 * x2) + z1 * w2;
    r.w = ((w1 * w2 - x1 * x2) - y1 * y2) - z1 * z2;
    return r;
}
static quat inverse(quat q) { return (quat){opposite(q.b), q.w}; }
/* v(w^2 - b.b) + b(2(v.b)) + (b cross v)(2w) */
static vec rotate(quat q, vec v) {
    vec a = scaled(v, q.w * q.w - dot(q.b, q.b));
    vec b = scaled(q.b, 2.0f * dot(v, q.b));
    vec c = scaled(cross(q.b, v), 2.0f * q.w);
    return plus(plus(a, b), c);
}
/* 2 x length of x, y, z */
static float chord(quat q) { return 2.0f * length(q.b); }
static mat matrix(quat q) {
    float x = q.b.x, y = q.b.y, z = q.b.z, w = q.w;
    float X = x + x, Y = y + y, Z = z + z;
    return (mat){{
        {1.0f - (y * Y + z * Z), x * Y + w * Z, x * Z - w * Y},
        {x * Y - w * Z, 1.0f - (x * X + z * Z), y * Z + w * X},
        {x * Z + w * Y, y * Z - w * X, 1.0f - (x * X + y * Y)}}};
}
static vec apply(mat m, vec v) {
    return plus(plus(scaled(m.col[0], v.x), scaled(m.col[1], v.y)), scaled(m.col[2], v.z));
}

/* Roots. */
static void line_root(uint32_t u) { printf("root"); hex(u); num(sqrtf(of_bits(u))); putchar('\n'); }

static void roots(void) {
    static const uint32_t fraction[] = {0, 1, 2, 0x400000, 0x7fffff, 0x7ffffe, 0x2aaaaa, 0x555555, 0x3504f3, 0x3504f4};
    static const uint32_t special[] = {
        0x00000000, 0x80000000, 0x7f800000, 0xff800000, 0x7fc00000, 0x7f800001, 0x7fbfffff, 0x7fffffff, 0xffc00000,
        0xff800001, 0xffffffff, 0x80000001, 0x807fffff, 0x80800000, 0xbf800000, 0xc0000000, 0xbdcccccd, 0xff7fffff};
    for (uint32_t e = 0; e <= 254; e++)
        for (int i = 0; i < 10; i++) line_root(e << 23 | fraction[i]);
    for (int n = 2048; n <= 4095; n++) {
        float square = (float)(n * n);
        line_root(to_bits(nextafterf(square, 0.0f)));
        line_root(to_bits(square));
        line_root(to_bits(nextafterf(square, INFINITY)));
    }
    for (int i = 0; i < 18; i++) line_root(special[i]);
}

/* The estimate of the root of the normal number with pattern u, by the operations of crates/math/src/root.rt in the same order. */
static float estimate(uint32_t u) {
    float x = of_bits(u), y = of_bits(u / 2 + 0x1fbb4f2eu);
    float z = (y + x / y) * 0.49985f;
    return (z + x / z) * 0.5f;
}

/* How far estimates are from the hardware's roots, in last places: how many lie below the root, on it and above it, by
   2 at most, how many are further off, and the most that one is off. */
typedef struct { uint32_t below, on, above, beyond, greatest; } tally;

static void count(tally *t, uint32_t u) {
    int64_t root = to_bits(sqrtf(of_bits(u)));
    /* A subnormal number is multiplied by 2^24 first, and its root is then 2^12 times as large. */
    int64_t guess = u < 0x800000 ? (int64_t)to_bits(estimate(to_bits(of_bits(u) * 0x1p24f))) - (12 << 23) : to_bits(estimate(u));
    int64_t up = root - guess, off = up < 0 ? -up : up;
    if (off > t->greatest) t->greatest = (uint32_t)off;
    if (off == 0) t->on++;
    else if (off > 2) t->beyond++;
    else if (up > 0) t->below++;
    else t->above++;
}

static void count_from(tally *t, uint32_t first, uint32_t n) { for (uint32_t k = 0; k < n; k++) count(t, first + k); }

static uint32_t xorshift(uint32_t x) { x ^= x << 13; x ^= x >> 17; return x ^ x << 5; }

static void tally_out(const char *n, uint32_t field, const tally *t) {
    printf("%s", n); hex(field); hex(t->below); hex(t->on); hex(t->above); hex(t->beyond); hex(t->greatest); putchar('\n');
}

/* Fails where an estimate is more than 2 last places off. */
static int corrections(void) {
    uint32_t greatest = 0;
    for (uint32_t field = 127; field <= 128; field++) {
        tally t = {0};
        count_from(&t, field << 23, 1u << 23);
        tally_out("corrected all", field, &t);
        if (t.greatest > greatest) greatest = t.greatest;
    }
    for (uint32_t field = 0; field <= 254; field++) {
        tally t = {0};
        count_from(&t, field ? field << 23 : 1, 8);
        count_from(&t, (field << 23) + 0x7ffff8, 8);
        /* Squares and the floats beside them; of subnormal numbers 2k^2 units of 2^-149, the squares of 2k units of 2^-75. */
        for (uint32_t n = 2049; n <= 4095; n++)
            count_from(&t, (field ? field << 23 | (to_bits((float)(n * n)) & 0x7fffff) : 2 * (n - 2048) * (n - 2048)) - 1, 3);
        uint32_t word = xorshift(0x9e3779b9u ^ field);
        for (uint32_t k = 0; k < 4096; k++) {
            word = xorshift(word);
            count(&t, field ? field << 23 | (word & 0x7fffff) : ((word & 0x7fffff) | 0x400000) >> k % 23);
        }
        tally_out("corrected", field, &t);
        if (t.greatest > greatest) greatest = t.greatest;
    }
    printf(greatest > 2 ? "corrected by too much" : "corrected by at most"); hex(greatest); putchar('\n');
    if (greatest > 2) fprintf(stderr, "math_table: an estimate is %u last places off\n", (unsigned)greatest);
    return greatest > 2;
}

static void choices(void) {
    static const uint32_t u[12] = {
        0x7fc00000, 0x7f800000, 0xff800000, 0x00000000, 0x80000000, 0x3f800000,
        0xbf800000, 0x00000001, 0x80000001, 0x007fffff, 0x7f7fffff, 0xff7fffff};
    for (int i = 0; i < 12; i++)
        for (int j = 0; j < 12; j++) {
            float a = of_bits(u[i]), b = of_bits(u[j]);
            printf("maximum"); num(a); num(b); num(larger(a, b)); putchar('\n');
            printf("minimum"); num(a); num(b); num(smaller(a, b)); putchar('\n');
        }
}

static const uint32_t patterns[31] = {
    0x7fc00000, 0x7f800000, 0xff800000, 0x7f7fffff, 0xff7fffff, 0x00000000, 0x80000000, 0x00000001,
    0x807fffff, 0x00800000, 0x1e3ce508, 0x5e268890, 0x3f800000, 0xbf800000, 0x3dcccccd, 0x3eaaaaab,
    0x40200000, 0xc0e80000, 0x42f6e979, 0xbf19999a, 0x3f4ccccd, 0x3f3504f3, 0x4b7fffff, 0x3f800001,
    0x3f7fffff, 0xbe99999a, 0x40add3c3, 0xbfd9999a, 0x40490fdb, 0xc02df854, 0xc228c7ae};

/* Case c takes every stride-th pattern, from the stride's square on, of all or of those past the twelfth. */
static float pick(int c, int tame, int stride) {
    int k = c * stride + stride * stride;
    return of_bits(tame ? patterns[12 + k % 19] : patterns[k % 31]);
}
static vec pick_vec(int c, int tame, int s) {
    return (vec){pick(c, tame, s), pick(c, tame, s + 1), pick(c, tame, s + 2)};
}
static quat pick_quat(int c, int tame, int s) {
    return (quat){{pick(c, tame, s), pick(c, tame, s + 2), pick(c, tame, s + 3)}, pick(c, tame, s + 7)};
}

static void vectors(int c, int tame) {
    vec a = pick_vec(c, tame, 1), b = pick_vec(c, tame, 6);
    float k = pick(c, tame, 11);
    printf("vectors"); vec_out(a); vec_out(b); num(k); putchar('\n');
    line_vec("add", plus(a, b));
    line_vec("sub", minus(a, b));
    line_vec("mul", scaled(a, k));
    line_vec("neg", opposite(a));
    line_num("dot", dot(a, b));
    line_vec("cross", cross(a, b));
    line_num("length", length(a));
    line_num("distance_squared", distance2(a, b));
    line_vec("clamp_length_max", clamp(a, k));
    line_vec("reject_from_normalized", reject(a, b));
}

static void lengths_kept(void) {
    for (int k = 0; k < 31; k++) {
        float x = of_bits(patterns[k]);
        printf("kept"); num(x); vec_out(clamp((vec){x, 0.0f, 0.0f}, x)); putchar('\n');
    }
}

static void quats(int c, int tame) {
    quat a = pick_quat(c, tame, 1), b = pick_quat(c, tame, 10);
    vec v = pick_vec(c, tame, 5), u = pick_vec(c, tame, 14);
    mat m = matrix(a);
    printf("quats"); quat_out(a); quat_out(b); vec_out(v); vec_out(u); putchar('\n');
    line_num("dot4", dot4(a, b));
    line_quat("mul_quat", product(a, b));
    line_quat("inverse", inverse(a));
    line_vec("mul_vec3", rotate(a, v));
    line_num("chord_length", chord(a));
    line_vec("x_axis", m.col[0]);
    line_vec("y_axis", m.col[1]);
    line_vec("z_axis", m.col[2]);
    line_vec("matrix_mul_vec3", apply(m, v));
    /* Pose (u, b) in the space of pose (v, a). */
    line_vec("position", rotate(inverse(a), minus(u, v)));
    line_quat("rotation", product(inverse(a), b));
}

int main(void) {
    roots();
    int failed = corrections();
    choices();
    for (int c = 0; c < 40; c++) { vectors(c, 0); vectors(c, 1); }
    lengths_kept();
    for (int c = 0; c < 40; c++) { quats(c, 0); quats(c, 1); }
    return failed;
}
