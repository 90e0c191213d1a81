# Writes the lines of the partial butterfly as C, every product written out: functions {inverse,forward}_N_KIND, of the rows in
# bench/first_rows.
#
# L = 2N+1 is p * q, and the rows of weights come in three classes (source documents 000 and 004, features 1 to 3): those
# where p divides 2i+1, those where q does, and the others. A place n of a row in class c is a signed sum of the row's
# first m places, which law(c, n) gives as a list "sign g sign g ..". At 8 points there is one class, with nothing to share.
#   forward: inputs that share a weight are added first, then multiplied once for each row
#   inverse: a row is multiplied by its input at the first m places only, and the sums are then added for each place
# At the places that q divides, all rows of the first class have one of (p-1)/2 sizes, so those products are shared too.

function weight(i, n,    m, sign) {
    m = (2 * i + 1) * n % (2 * L)
    sign = m > L ? -1 : 1
    m %= L
    if (L - m < m) m = L - m
    return m == 0 ? 0 : sign * first[N, m]
}

function class(i) {
    if (N == 8) return 1
    return (2 * i + 1) % p == 0 ? 2 : (2 * i + 1) % q == 0 ? 3 : 1
}

function places(c) { return N == 8 ? 8 : c == 1 ? N - (q - 1) / 2 : c == 2 ? (q - 1) / 2 : (p - 1) / 2 }

# n = b * f + k or b * f - k with k at most half of f
function repeated(n, f,    b, k) {
    b = int(n / f); k = n % f
    if (k == 0) return ""
    if (k <= f / 2) return (b % 2 ? "-" : "+") " " k
    return (b % 2 ? "-" : "+") " " f - k
}

function law(c, n,    k) {
    if (c == 2) return repeated(n, q)
    if (c == 3) return repeated(n, p)
    k = n - places(1)
    if (k <= 0) return "+ " n
    if (p == 3) return "+ " k " + " q - k
    return "- " k " - " q - k " + " q + k " + " 2 * q - k
}

function shared(c, g) { return N != 8 && c == 1 && g % q == 0 }
function kept(n) { return n < 16 ? n : 16 }
function term(sign, name) { return " " sign " " name }
# a sum that starts with a sign and may be empty
function sum(s) { return s == "" ? "0" : substr(s, 1, 3) == " + " ? substr(s, 4) : "-" substr(s, 4) }
function scaled(w, name) { return w < 0 ? " - " (-w) " * " name : w > 0 ? " + " w " * " name : "" }
function let(name, s) { printf "    int32_t %s = %s;\n", name, sum(s) }

function begin(direction) {
    printf "ALWAYS void %s_%d_%d(const int16_t *x, int step, int32_t *z) {\n", direction, N, kind
}

# DCT-VIII: rows with alternate signs, read backwards
function row_sign(i) { return kind == 2 && i % 2 ? -1 : 1 }
function end_of(j) { return kind == 2 ? N - j : j - 1 }

function inverse(    i, c, g, r, s, n, k, e, count) {
    begin("inverse")
    for (i = 0; i < kept(N); i++) printf "    const int32_t x%d = x[%d * step];\n", i, i
    for (c = 1; c <= 3; c++) if (inputs_of(c)) for (g = 1; g <= places(c); g++) {
        s = ""
        if (shared(c, g)) s = shared_sums(g)
        else for (i = 0; i < kept(N); i++) if (class(i) == c) s = s scaled(row_sign(i) * weight(i, g), "x" i)
        let("a" c "_" g, s)
    }
    for (n = 1; n <= N; n++) {
        s = ""
        for (c = 1; c <= 3; c++) if (inputs_of(c)) {
            count = split(law(c, n), e, " ")
            for (k = 1; k < count; k += 2) s = s term(e[k], "a" c "_" e[k + 1])
        }
        printf "    z[%d] = %s;\n", end_of(n), sum(s)
    }
    print "}\n"
}

function inputs_of(c,    i) {
    for (i = 0; i < kept(N); i++) if (class(i) == c) return 1
    return 0
}

# place g of the first class: inputs whose weights have one size are added, then multiplied once
function shared_sums(g,    r, i, w, s, all) {
    for (r = 1; r <= (p - 1) / 2; r++) {
        s = ""
        for (i = 0; i < kept(N); i++) if (class(i) == 1) {
            w = row_sign(i) * weight(i, g)
            if (w == first[N, q * r]) s = s " + x" i
            if (w == -first[N, q * r]) s = s " - x" i
        }
        if (s != "") all = all " + " first[N, q * r] " * (" sum(s) ")"
    }
    return all
}

function forward(    n, c, g, i, r, s) {
    begin("forward")
    for (n = 1; n <= N; n++) printf "    const int32_t x%d = x[%d * step];\n", n, end_of(n)
    for (c = 1; c <= 3; c++) if (inputs_of(c)) for (g = 1; g <= places(c); g++) {
        let("t" c "_" g, folded_input(c, g))
        if (shared(c, g)) for (r = 1; r <= (p - 1) / 2; r++) let("u" g "_" r, scaled(first[N, q * r], "t1_" g))
    }
    for (i = 0; i < kept(N); i++) {
        c = class(i); s = ""
        for (g = 1; g <= places(c); g++) s = s product(i, c, g)
        printf "    z[%d] = %s;\n", i, sum(s)
    }
    print "}\n"
}

function folded_input(c, g,    n, e, k, count, s) {
    s = ""
    for (n = 1; n <= N; n++) {
        count = split(law(c, n), e, " ")
        for (k = 1; k < count; k += 2) if (e[k + 1] == g) s = s term(e[k], "x" n)
    }
    return s
}

function product(i, c, g,    w, r) {
    w = row_sign(i) * weight(i, g)
    if (!shared(c, g)) return scaled(w, "t" c "_" g)
    for (r = 1; r <= (p - 1) / 2; r++) {
        if (w == first[N, q * r]) return " + u" g "_" r
        if (w == -first[N, q * r]) return " - u" g "_" r
    }
}

function both(n, a, b) {
    N = n; p = a; q = b; L = 2 * n + 1
    for (kind = 1; kind <= 2; kind++) { inverse(); forward() }
}

# a line of bench/first_rows: N and s1 to sN
{ for (k = 1; k <= $1; k++) first[$1, k] = $(k + 1) }

END {
    both(4, 3, 3)
    both(8, 1, 17)
    both(16, 3, 11)
    both(32, 5, 13)
}
