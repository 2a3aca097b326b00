static int lcs(const char *a, const char *b) {
    static int t[128][128];
    int n = 0, m = 0;
    while (a[n])
        n++;
    while (b[m])
        m++;
    for (int i = 1; i <= n; i++)
        for (int j = 1; j <= m; j++)
            t[i][j] = a[i - 1] == b[j - 1]        ? t[i - 1][j - 1] + 1
                      : t[i - 1][j] > t[i][j - 1] ? t[i - 1][j]
                                                  : t[i][j - 1];
    return t[n][m];
}
static int min3(int a, int b, int c) {
    int m = a < b ? a : b;
    return m < c ? m : c;
}
static int lev(const char *a, const char *b) {
    int row[128];
    int n = 0, m = 0;
    while (a[n])
        n++;
    while (b[m])
        m++;
    for (int j = 0; j <= m; j++)
        row[j] = j;
    for (int i = 1; i <= n; i++) {
        int d = row[0];
        row[0] = i;
        for (int j = 1; j <= m; j++) {
            int o = row[j];
            row[j] = min3(row[j] + 1, row[j - 1] + 1, d + (a[i - 1] != b[j - 1]));
            d = o;
        }
    }
    return row[m];
}
static int knap(const int *w, const int *v, int n, int W) {
    static int best[2000];
    for (int i = 0; i <= W; i++)
        best[i] = 0;
    for (int i = 0; i < n; i++)
        for (int c = W; c >= w[i]; c--)
            if (best[c - w[i]] + v[i] > best[c])
                best[c] = best[c - w[i]] + v[i];
    return best[W];
}
static long coins(const int *c, int n, int s) {
    static long w[1001];
    for (int i = 0; i <= s; i++)
        w[i] = 0;
    w[0] = 1;
    for (int i = 0; i < n; i++)
        for (int x = c[i]; x <= s; x++)
            w[x] += w[x - c[i]];
    return w[s];
}
static int chain(const int *d, int n) {
    static int m[20][20];
    for (int l = 2; l < n; l++)
        for (int i = 1; i + l - 1 < n; i++) {
            int j = i + l - 1;
            m[i][j] = 1 << 30;
            for (int k = i; k < j; k++) {
                int c = m[i][k] + m[k + 1][j] + d[i - 1] * d[k] * d[j];
                if (c < m[i][j])
                    m[i][j] = c;
            }
        }
    return m[1][n - 1];
}
int main(void) {
    static const char
        a[] = "the quick brown fox jumps over the lazy dog and then some more text to compare",
        b[] = "a quack brawn fix jumped above a lizard dug and than same mere tests two compete";
    static const int w[] = {12, 7, 25, 31, 9, 44, 3, 18, 27, 6},
                     v[] = {40, 21, 70, 99, 30, 120, 8, 55, 83, 17},
                     c[] = {1, 2, 5, 10, 20, 50, 100},
                     d[] = {30, 35, 15, 5, 10, 20, 25, 40, 12, 9, 33};
    long s = lcs(a, b);
    s = s * 31 + lev(a, b);
    s = s * 31 + knap(w, v, 10, 150);
    s = s * 31 + coins(c, 7, 500);
    s = s * 31 + chain(d, 11);
    return (s ^ s >> 20) & 127;
}
