typedef unsigned int u;
typedef unsigned char b;
static u tab[256];
static void mk(void) {
    for (u i = 0; i < 256; i++) {
        u c = i;
        for (int k = 0; k < 8; k++)
            c = c & 1 ? 0xedb88320u ^ (c >> 1) : c >> 1;
        tab[i] = c;
    }
}
static u crc(const b *p, u n) {
    u c = ~0u;
    while (n--)
        c = tab[(c ^ *p++) & 255] ^ (c >> 8);
    return ~c;
}
static u adler(const b *p, u n) {
    u a = 1, d = 0;
    for (u i = 0; i < n; i++) {
        a = (a + p[i]) % 65521;
        d = (d + a) % 65521;
    }
    return d << 16 | a;
}
static b S[256];
static void rc4(b *d, u n, const b *k, u kl) {
    for (u i = 0; i < 256; i++)
        S[i] = i;
    for (u i = 0, j = 0; i < 256; i++) {
        j = (j + S[i] + k[i % kl]) & 255;
        b t = S[i];
        S[i] = S[j];
        S[j] = t;
    }
    u i = 0, j = 0;
    for (u x = 0; x < n; x++) {
        i = (i + 1) & 255;
        j = (j + S[i]) & 255;
        b t = S[i];
        S[i] = S[j];
        S[j] = t;
        d[x] ^= S[(S[i] + S[j]) & 255];
    }
}
static int b64(const b *s, int n, char *o) {
    static const char e[] = "ABCDEFGHIJKLMNOPQRSTUVWXYZabcdefghijklmnopqrstuvwxyz0123456789+/";
    int k = 0;
    for (int i = 0; i < n; i += 3) {
        u v = s[i] << 16 | (i + 1 < n ? s[i + 1] << 8 : 0) | (i + 2 < n ? s[i + 2] : 0);
        o[k++] = e[v >> 18];
        o[k++] = e[v >> 12 & 63];
        o[k++] = i + 1 < n ? e[v >> 6 & 63] : '=';
        o[k++] = i + 2 < n ? e[v & 63] : '=';
    }
    return k;
}
static u pop(u x) {
    x = x - (x >> 1 & 0x55555555);
    x = (x & 0x33333333) + (x >> 2 & 0x33333333);
    x = (x + (x >> 4)) & 0x0f0f0f0f;
    return x * 0x01010101 >> 24;
}
static u bitrev(u x) {
    u r = 0;
    for (int i = 0; i < 32; i++) {
        r = r << 1 | (x & 1);
        x >>= 1;
    }
    return r;
}
static b m[2000];
static char o[3000];
int main(void) {
    mk();
    for (u i = 0; i < 2000; i++)
        m[i] = i * i + i / 7;
    u s = crc(m, 2000) ^ adler(m, 2000);
    rc4(m, 2000, (const b *)"Secret", 6);
    int k = b64(m, 2000, o);
    s += crc((b *)o, k);
    for (u i = 0; i < 300; i++)
        s += pop(i * 2654435761u) ^ bitrev(i);
    return s & 127;
}
