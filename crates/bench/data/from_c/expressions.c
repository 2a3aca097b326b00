struct node {
    int kind;
    long val;
    struct node *l, *r;
};
static struct node pool[400];
static int used;
static const char *p;
static struct node *mk(int k, long v, struct node *l, struct node *r) {
    struct node *n = &pool[used++];
    n->kind = k;
    n->val = v;
    n->l = l;
    n->r = r;
    return n;
}
static void sp(void) {
    while (*p == ' ')
        p++;
}
static struct node *expr(void);
static struct node *atom(void) {
    sp();
    if (*p == '(') {
        p++;
        struct node *n = expr();
        sp();
        if (*p == ')')
            p++;
        return n;
    }
    if (*p == '-') {
        p++;
        return mk('~', 0, atom(), 0);
    }
    if (*p >= 'a' && *p <= 'z')
        return mk('v', *p++ - 'a', 0, 0);
    long v = 0;
    while (*p >= '0' && *p <= '9')
        v = v * 10 + (*p++ - '0');
    return mk('n', v, 0, 0);
}
static struct node *term(void) {
    struct node *n = atom();
    for (;;) {
        sp();
        if (*p == '*' || *p == '/' || *p == '%') {
            int k = *p++;
            n = mk(k, 0, n, atom());
        } else
            return n;
    }
}
static struct node *expr(void) {
    struct node *n = term();
    for (;;) {
        sp();
        if (*p == '+' || *p == '-') {
            int k = *p++;
            n = mk(k, 0, n, term());
        } else
            return n;
    }
}
static long vars[26];
static long eval(struct node *n) {
    switch (n->kind) {
    case 'n':
        return n->val;
    case 'v':
        return vars[n->val];
    case '~':
        return -eval(n->l);
    case '+':
        return eval(n->l) + eval(n->r);
    case '-':
        return eval(n->l) - eval(n->r);
    case '*':
        return eval(n->l) * eval(n->r);
    case '/': {
        long d = eval(n->r);
        return d ? eval(n->l) / d : 0;
    }
    case '%': {
        long d = eval(n->r);
        return d ? eval(n->l) % d : 0;
    }
    }
    return 0;
}
int main(void) {
    static const char *t[] = {"1+2*3-4",
                              "(a+b)*(c-d)/7",
                              "x*x*x+3*x*x-17*x+5",
                              "-(-(-(12345%677)))*((a))",
                              "1000000/3/3/3*27+z%5",
                              "a*b+c*d+e*f+g*h+i*j+k*l",
                              "((((((1+2)*3+4)*5+6)*7+8)*9)))"};
    long s = 0;
    for (int r = 0; r < 20; r++) {
        for (int i = 0; i < 26; i++)
            vars[i] = i * r + r % 3;
        for (int i = 0; i < 7; i++) {
            used = 0;
            p = t[i];
            struct node *n = expr();
            for (int k = 0; k < 3; k++) {
                vars[23] = k;
                s = s * 31 + eval(n);
            }
        }
    }
    return (s ^ s >> 32) & 127;
}
