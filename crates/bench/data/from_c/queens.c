static int n = 7, cnt;
static int cols[16], d1[32], d2[32];
static void go(int r) {
    if (r == n) {
        cnt++;
        return;
    }
    for (int c = 0; c < n; c++) {
        if (cols[c] || d1[r + c] || d2[r - c + n])
            continue;
        cols[c] = d1[r + c] = d2[r - c + n] = 1;
        go(r + 1);
        cols[c] = d1[r + c] = d2[r - c + n] = 0;
    }
}
static int bits(int all, int l, int c, int r) {
    int k = 0;
    if (c == all)
        return 1;
    int p = all & ~(l | c | r);
    while (p) {
        int b = p & -p;
        p -= b;
        k += bits(all, (l | b) << 1, c | b, (r | b) >> 1);
    }
    return k;
}
int main(void) {
    go(0);
    return (cnt + bits((1 << 8) - 1, 0, 0, 0)) & 127;
}
