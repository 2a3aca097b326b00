#define N 12
static long a[N][N], b[N][N], c[N][N];
static void mul(long x[N][N], long y[N][N], long z[N][N]) {
    for (int i = 0; i < N; i++)
        for (int j = 0; j < N; j++) {
            long s = 0;
            for (int k = 0; k < N; k++)
                s += x[i][k] * y[k][j];
            z[i][j] = s % 1000003;
        }
}
static int sieve(int n) {
    static unsigned char f[3001];
    int c = 0;
    for (int i = 2; i <= n; i++)
        f[i] = 1;
    for (int i = 2; i * i <= n; i++)
        if (f[i])
            for (int j = i * i; j <= n; j += i)
                f[j] = 0;
    for (int i = 2; i <= n; i++)
        c += f[i];
    return c;
}
static long det(void) {
    long m[6][6];
    for (int i = 0; i < 6; i++)
        for (int j = 0; j < 6; j++)
            m[i][j] = (a[i][j] % 17) - 8;
    long sg = 1, pr = 1;
    for (int k = 0; k < 5; k++) {
        if (!m[k][k]) {
            int s = k + 1;
            while (s < 6 && !m[s][k])
                s++;
            if (s == 6)
                return 0;
            for (int j = 0; j < 6; j++) {
                long t = m[k][j];
                m[k][j] = m[s][j];
                m[s][j] = t;
            }
            sg = -sg;
        }
        for (int i = k + 1; i < 6; i++)
            for (int j = k + 1; j < 6; j++)
                m[i][j] = (m[i][j] * m[k][k] - m[i][k] * m[k][j]) / pr;
        pr = m[k][k];
    }
    return sg * m[5][5];
}
static unsigned long gcd(unsigned long x, unsigned long y) {
    while (y) {
        unsigned long t = x % y;
        x = y;
        y = t;
    }
    return x;
}
static long powmod(long b, long e, long m) {
    long r = 1;
    while (e) {
        if (e & 1)
            r = r * b % m;
        b = b * b % m;
        e >>= 1;
    }
    return r;
}
int main(void) {
    for (int i = 0; i < N; i++)
        for (int j = 0; j < N; j++) {
            a[i][j] = i * j + 1;
            b[i][j] = i - j + 20;
        }
    for (int k = 0; k < 4; k++) {
        mul(a, b, c);
        mul(b, c, a);
    }
    long s = 0;
    for (int i = 0; i < N; i++)
        for (int j = 0; j < N; j++)
            s += a[i][j];
    s = s * 31 + sieve(3000);
    s = s * 31 + det();
    s = s * 31 + gcd(1234567890, 987654321) + powmod(3, 1000003, 1000000007);
    return (s ^ s >> 24) & 127;
}
