typedef long l;
static int mandel(int W, int H) {
    int s = 0;
    for (int y = 0; y < H; y++)
        for (int x = 0; x < W; x++) {
            int cr = (x * 3 * 4096) / W - 2 * 4096, ci = (y * 2 * 4096) / H - 4096, zr = 0, zi = 0,
                n = 0;
            while (n < 40 && (zr * zr >> 12) + (zi * zi >> 12) < 4 * 4096) {
                int t = (zr * zr >> 12) - (zi * zi >> 12) + cr;
                zi = (2 * zr * zi >> 12) + ci;
                zr = t;
                n++;
            }
            s += n;
        }
    return s;
}
static int isqrt(l n) {
    l r = 0, b = 1L << 40;
    while (b > n)
        b >>= 2;
    while (b) {
        if (n >= r + b) {
            n -= r + b;
            r = (r >> 1) + b;
        } else
            r >>= 1;
        b >>= 2;
    }
    return r;
}
static int fib(int n) {
    return n < 2 ? n : fib(n - 1) + fib(n - 2);
}
static int ack(int m, int n) {
    return m == 0 ? n + 1 : n == 0 ? ack(m - 1, 1) : ack(m - 1, ack(m, n - 1));
}
static int collatz(int lim) {
    int best = 0;
    for (int i = 1; i < lim; i++) {
        l n = i;
        int c = 0;
        while (n != 1) {
            n = n % 2 ? 3 * n + 1 : n / 2;
            c++;
        }
        if (c > best)
            best = c;
    }
    return best;
}
static void hanoi(int n, int a, int b, int c, int *k) {
    if (!n)
        return;
    hanoi(n - 1, a, c, b, k);
    *k += a * b;
    hanoi(n - 1, c, b, a, k);
}
static int perm(int *a, int n) {
    int c = 0, p[8];
    for (int i = 0; i < n; i++)
        p[i] = 0;
    c = 1;
    int i = 0;
    while (i < n) {
        if (p[i] < i) {
            int j = i & 1 ? p[i] : 0, t = a[j];
            a[j] = a[i];
            a[i] = t;
            c += a[0] * a[n - 1];
            p[i]++;
            i = 0;
        } else {
            p[i] = 0;
            i++;
        }
    }
    return c;
}
static int sim(int n) {
    int x = 0, y = 0, vx = 37, vy = 11, b = 0;
    for (int i = 0; i < n; i++) {
        x += vx;
        y += vy;
        if (x < 0 || x >= 1000) {
            vx = -vx;
            x += 2 * vx;
            b++;
        }
        if (y < 0 || y >= 700) {
            vy = -vy;
            y += 2 * vy;
            b++;
        }
        if ((x ^ y) % 17 == 3)
            vx += 1;
    }
    return b + x + y;
}
int main(void) {
    int a[6] = {1, 2, 3, 4, 5, 6}, k = 0;
    l s = mandel(24, 16);
    for (int i = 0; i < 60; i++)
        s += isqrt(i * i * 977L + i);
    s += fib(16) + ack(2, 6) + collatz(300);
    hanoi(9, 1, 2, 3, &k);
    s += k + perm(a, 6) + sim(1500);
    return (s ^ s >> 16) & 127;
}
