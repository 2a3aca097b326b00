enum { ID, NUM, STR, OP, KW, END };
static const char *src;
static int pos, line;
static char tok[64];
static const char *kws[] = {"if", "else", "while", "return", "int", "char", "for", "break"};
static int alpha(int c) {
    return (c >= 'a' && c <= 'z') || (c >= 'A' && c <= 'Z') || c == '_';
}
static int digit(int c) {
    return c >= '0' && c <= '9';
}
static int eq(const char *a, const char *b) {
    while (*a && *a == *b) {
        a++;
        b++;
    }
    return *a == *b;
}
static int next(void) {
    for (;;) {
        int c = src[pos];
        if (c == ' ' || c == '\t') {
            pos++;
        } else if (c == '\n') {
            pos++;
            line++;
        } else if (c == '/' && src[pos + 1] == '/') {
            while (src[pos] && src[pos] != '\n')
                pos++;
        } else
            break;
    }
    int c = src[pos], n = 0;
    if (!c)
        return END;
    if (alpha(c)) {
        while (alpha(src[pos]) || digit(src[pos])) {
            if (n < 63)
                tok[n++] = src[pos];
            pos++;
        }
        tok[n] = 0;
        for (int i = 0; i < 8; i++)
            if (eq(tok, kws[i]))
                return KW;
        return ID;
    }
    if (digit(c)) {
        while (digit(src[pos]))
            tok[n++] = src[pos++];
        tok[n] = 0;
        return NUM;
    }
    if (c == '"') {
        pos++;
        while (src[pos] && src[pos] != '"') {
            if (src[pos] == '\\')
                pos++;
            tok[n++] = src[pos++];
        }
        pos++;
        tok[n] = 0;
        return STR;
    }
    tok[n++] = src[pos++];
    switch (c) {
    case '=':
    case '<':
    case '>':
    case '!':
    case '+':
    case '-':
    case '&':
    case '|':
        if (src[pos] == '=' || (src[pos] == c && c != '!'))
            tok[n++] = src[pos++];
        break;
    }
    tok[n] = 0;
    return OP;
}
static int counts[6];
int main(void) {
    static const char *t = "int main(int argc) {\n  // a comment here\n  int x = 10, y_1 = 0x20;\n "
                           " while (x >= 0 && y_1 != 3) { x -= 1; if (x == 5) break; else y_1++; "
                           "}\n  char *s = \"hello \\\"world\\\" and more\";\n  for (int i = 0; i "
                           "< 100; i++) { total += i * i - x << 2; }\n  return x + y_1 | 7;\n}\n";
    int s = 0;
    for (int r = 0; r < 8; r++) {
        src = t;
        pos = 0;
        line = 1;
        int k;
        while ((k = next()) != END) {
            counts[k]++;
            for (int i = 0; tok[i]; i++)
                s = s * 31 + tok[i];
        }
        s += line;
    }
    for (int i = 0; i < 6; i++)
        s = s * 7 + counts[i];
    return s & 127;
}
