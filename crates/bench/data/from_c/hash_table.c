typedef unsigned long u64;
struct ent {
    struct ent *next;
    char key[12];
    int val;
};
static struct ent pool[600];
static int used;
static struct ent *tab[128];
static unsigned hash(const char *s) {
    unsigned h = 2166136261u;
    while (*s) {
        h ^= (unsigned char)*s++;
        h *= 16777619u;
    }
    return h;
}
static int eq(const char *a, const char *b) {
    while (*a && *a == *b) {
        a++;
        b++;
    }
    return *a == *b;
}
static void cpy(char *d, const char *s) {
    while ((*d++ = *s++))
        ;
}
static struct ent *find(const char *k) {
    for (struct ent *e = tab[hash(k) & 127]; e; e = e->next)
        if (eq(e->key, k))
            return e;
    return 0;
}
static void put(const char *k, int v) {
    struct ent *e = find(k);
    if (e) {
        e->val += v;
        return;
    }
    e = &pool[used++];
    cpy(e->key, k);
    e->val = v;
    unsigned h = hash(k) & 127;
    e->next = tab[h];
    tab[h] = e;
}
static int itoa(int n, char *s) {
    char b[12];
    int k = 0, i = 0;
    if (!n)
        b[k++] = '0';
    while (n) {
        b[k++] = '0' + n % 10;
        n /= 10;
    }
    while (k)
        s[i++] = b[--k];
    s[i] = 0;
    return i;
}
int main(void) {
    char b[16];
    int r = 1;
    for (int i = 0; i < 1500; i++) {
        r = (r * 75 + 74) % 65537;
        b[0] = 'k';
        itoa(r % 500, b + 1);
        put(b, i);
    }
    int s = 0;
    for (int i = 0; i < 128; i++)
        for (struct ent *e = tab[i]; e; e = e->next)
            s = s * 17 + e->val;
    for (int i = 0; i < 500; i++) {
        b[0] = 'k';
        itoa(i, b + 1);
        struct ent *e = find(b);
        if (e)
            s ^= e->val;
    }
    return s & 127;
}
