typedef unsigned int u32;
typedef unsigned char u8;
static const u32 K[64] = {
    0x428a2f98, 0x71374491, 0xb5c0fbcf, 0xe9b5dba5, 0x3956c25b, 0x59f111f1, 0x923f82a4, 0xab1c5ed5,
    0xd807aa98, 0x12835b01, 0x243185be, 0x550c7dc3, 0x72be5d74, 0x80deb1fe, 0x9bdc06a7, 0xc19bf174,
    0xe49b69c1, 0xefbe4786, 0x0fc19dc6, 0x240ca1cc, 0x2de92c6f, 0x4a7484aa, 0x5cb0a9dc, 0x76f988da,
    0x983e5152, 0xa831c66d, 0xb00327c8, 0xbf597fc7, 0xc6e00bf3, 0xd5a79147, 0x06ca6351, 0x14292967,
    0x27b70a85, 0x2e1b2138, 0x4d2c6dfc, 0x53380d13, 0x650a7354, 0x766a0abb, 0x81c2c92e, 0x92722c85,
    0xa2bfe8a1, 0xa81a664b, 0xc24b8b70, 0xc76c51a3, 0xd192e819, 0xd6990624, 0xf40e3585, 0x106aa070,
    0x19a4c116, 0x1e376c08, 0x2748774c, 0x34b0bcb5, 0x391c0cb3, 0x4ed8aa4a, 0x5b9cca4f, 0x682e6ff3,
    0x748f82ee, 0x78a5636f, 0x84c87814, 0x8cc70208, 0x90befffa, 0xa4506ceb, 0xbef9a3f7, 0xc67178f2};
static u32 rotr(u32 x, int n) {
    return x >> n | x << (32 - n);
}
struct ctx {
    u32 h[8];
    u8 buf[64];
    unsigned long len;
};
static void block(u32 *h, const u8 *p) {
    u32 w[64];
    for (int i = 0; i < 16; i++)
        w[i] =
            (u32)p[4 * i] << 24 | (u32)p[4 * i + 1] << 16 | (u32)p[4 * i + 2] << 8 | p[4 * i + 3];
    for (int i = 16; i < 64; i++) {
        u32 s0 = rotr(w[i - 15], 7) ^ rotr(w[i - 15], 18) ^ w[i - 15] >> 3,
            s1 = rotr(w[i - 2], 17) ^ rotr(w[i - 2], 19) ^ w[i - 2] >> 10;
        w[i] = w[i - 16] + s0 + w[i - 7] + s1;
    }
    u32 a = h[0], b = h[1], c = h[2], d = h[3], e = h[4], f = h[5], g = h[6], hh = h[7];
    for (int i = 0; i < 64; i++) {
        u32 S1 = rotr(e, 6) ^ rotr(e, 11) ^ rotr(e, 25), ch = (e & f) ^ (~e & g),
            t1 = hh + S1 + ch + K[i] + w[i], S0 = rotr(a, 2) ^ rotr(a, 13) ^ rotr(a, 22),
            mj = (a & b) ^ (a & c) ^ (b & c), t2 = S0 + mj;
        hh = g;
        g = f;
        f = e;
        e = d + t1;
        d = c;
        c = b;
        b = a;
        a = t1 + t2;
    }
    h[0] += a;
    h[1] += b;
    h[2] += c;
    h[3] += d;
    h[4] += e;
    h[5] += f;
    h[6] += g;
    h[7] += hh;
}
static void init(struct ctx *c) {
    static const u32 H[8] = {0x6a09e667, 0xbb67ae85, 0x3c6ef372, 0xa54ff53a,
                             0x510e527f, 0x9b05688c, 0x1f83d9ab, 0x5be0cd19};
    for (int i = 0; i < 8; i++)
        c->h[i] = H[i];
    c->len = 0;
}
static void update(struct ctx *c, const u8 *p, unsigned long n) {
    for (unsigned long i = 0; i < n; i++) {
        c->buf[c->len++ & 63] = p[i];
        if ((c->len & 63) == 0)
            block(c->h, c->buf);
    }
}
static void final(struct ctx *c, u8 *out) {
    unsigned long bits = c->len * 8;
    u8 x = 0x80;
    update(c, &x, 1);
    x = 0;
    while ((c->len & 63) != 56)
        update(c, &x, 1);
    u8 l[8];
    for (int i = 0; i < 8; i++)
        l[i] = bits >> (56 - 8 * i);
    update(c, l, 8);
    for (int i = 0; i < 32; i++)
        out[i] = c->h[i / 4] >> (24 - 8 * (i & 3));
}
int main(void) {
    static u8 m[3000];
    for (int i = 0; i < 3000; i++)
        m[i] = i * 7 + 3;
    struct ctx c;
    u8 o[32];
    init(&c);
    update(&c, m, 3000);
    final(&c, o);
    int s = 0;
    for (int i = 0; i < 32; i++)
        s = s * 31 + o[i];
    return s & 127;
}
