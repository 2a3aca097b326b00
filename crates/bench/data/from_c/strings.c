static int len(const char *s) {
    int n = 0;
    while (s[n])
        n++;
    return n;
}
static int find(const char *h, const char *n) {
    int i, j;
    for (i = 0; h[i]; i++) {
        for (j = 0; n[j] && h[i + j] == n[j]; j++)
            ;
        if (!n[j])
            return i;
    }
    return -1;
}
static void rev(char *s) {
    int i = 0, j = len(s) - 1;
    while (i < j) {
        char t = s[i];
        s[i++] = s[j];
        s[j--] = t;
    }
}
static int cmp(const char *a, const char *b) {
    while (*a && *a == *b)
        a++, b++;
    return (unsigned char)*a - (unsigned char)*b;
}
static int isw(int c) {
    return (c >= 'a' && c <= 'z') || (c >= 'A' && c <= 'Z') || c == '_';
}
static int words(const char *s) {
    int n = 0, in = 0;
    for (; *s; s++) {
        if (isw(*s)) {
            if (!in) {
                n++;
                in = 1;
            }
        } else
            in = 0;
    }
    return n;
}
static unsigned fnv(const unsigned char *p, unsigned n) {
    unsigned h = 2166136261u;
    for (unsigned i = 0; i < n; i++) {
        h ^= p[i];
        h *= 16777619;
    }
    return h;
}
static void upper(char *s) {
    for (; *s; s++)
        if (*s >= 'a' && *s <= 'z')
            *s -= 32;
}
static int atoi_(const char *s) {
    int n = 0, neg = 0;
    while (*s == ' ')
        s++;
    if (*s == '-') {
        neg = 1;
        s++;
    }
    while (*s >= '0' && *s <= '9')
        n = n * 10 + *s++ - '0';
    return neg ? -n : n;
}
static int kmp(const char *t, const char *p) {
    int f[64], m = len(p), k = 0, c = 0;
    f[0] = 0;
    for (int i = 1; i < m; i++) {
        while (k && p[k] != p[i])
            k = f[k - 1];
        if (p[k] == p[i])
            k++;
        f[i] = k;
    }
    k = 0;
    for (int i = 0; t[i]; i++) {
        while (k && p[k] != t[i])
            k = f[k - 1];
        if (p[k] == t[i])
            k++;
        if (k == m) {
            c++;
            k = f[k - 1];
        }
    }
    return c;
}
static char buf[600];
int main(void) {
    const char *t = "It was the best of times, it was the worst of times, it was the age of "
                    "wisdom, it was the age of foolishness, it was the epoch of belief";
    int s = 0;
    for (int r = 0; r < 5; r++) {
        int n = len(t);
        for (int i = 0; i <= n; i++)
            buf[i] = t[i];
        s += find(buf, "epoch") + find(buf, "zebra");
        rev(buf);
        s += words(buf);
        upper(buf);
        s += cmp(buf, t);
        s = s * 7 + fnv((const unsigned char *)buf, n) % 1000;
        s += kmp(t, "it was");
        s += atoi_("  -12345") + atoi_("987654");
    }
    return s & 127;
}
