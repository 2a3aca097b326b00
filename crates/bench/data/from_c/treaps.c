struct t {
    struct t *l, *r;
    int k, pri;
};
static struct t pool[500];
static int used;
static unsigned sd = 99;
static unsigned rnd(void) {
    sd ^= sd << 13;
    sd ^= sd >> 17;
    sd ^= sd << 5;
    return sd;
}
static struct t *rotr(struct t *x) {
    struct t *y = x->l;
    x->l = y->r;
    y->r = x;
    return y;
}
static struct t *rotl(struct t *x) {
    struct t *y = x->r;
    x->r = y->l;
    y->l = x;
    return y;
}
static struct t *ins(struct t *x, int k) {
    if (!x) {
        x = &pool[used++];
        x->l = x->r = 0;
        x->k = k;
        x->pri = rnd() & 0xffff;
        return x;
    }
    if (k < x->k) {
        x->l = ins(x->l, k);
        if (x->l->pri > x->pri)
            x = rotr(x);
    } else if (k > x->k) {
        x->r = ins(x->r, k);
        if (x->r->pri > x->pri)
            x = rotl(x);
    }
    return x;
}
static int depth(struct t *x) {
    if (!x)
        return 0;
    int a = depth(x->l), b = depth(x->r);
    return 1 + (a > b ? a : b);
}
static long sum(struct t *x) {
    return x ? sum(x->l) + x->k + sum(x->r) : 0;
}
static int rank(struct t *x, int k) {
    int r = 0;
    while (x) {
        if (k <= x->k)
            x = x->l;
        else {
            r++;
            x = x->r;
        }
    }
    return r;
}
int main(void) {
    struct t *r = 0;
    for (int i = 0; i < 500; i++)
        r = ins(r, rnd() % 1000);
    long s = sum(r) + depth(r);
    for (int i = 0; i < 1000; i += 7)
        s = s * 5 + rank(r, i);
    return (s ^ s >> 31) & 127;
}
