# Tables and the aims, from lines of: measure, direction, size, fill, implementation, number.

{ if (!($1 in seen)) { seen[$1] = 1; measure[++measures] = $1 } }
$1 == "skipped" { skipped += $6; next }
{
    name = $2 " " $3 " " $4
    if (!(name in known)) { known[name] = 1; group[name] = $2 == "dct2" ? "live" : $2 == "transform" ? $2 : $2 ~ /-(line|row)$/ ? "line" : "block"; order[++names] = name }
    value[$1, name, $5] = $6
}

function has(m, name, who) { return (m, name, who) in value }

function best(m, name,    k, who, least) {
    least = 0
    for (k = 1; k <= BASELINES; k++) if (has(m, name, baseline[k])) {
        who = value[m, name, baseline[k]]
        if (!least || who < least) least = who
    }
    return least
}

function ratio(a, b) { return b ? sprintf("%.2f", a / b) : "-" }
function number(m, v) { return m == "ns" ? sprintf("%.1f", v) : v }
function shown(m, name, who) { return has(m, name, who) ? number(m, value[m, name, who]) : "-" }

function blocks(m,    k, j, name, head, library) {
    for (k = 1; k <= names; k++) head += group[order[k]] == "block" && has(m, order[k], "library")
    if (!head) return
    printf "\n%-22s %10s", m, "library"
    for (j = 1; j <= BASELINES; j++) printf " %10s", baseline[j]
    printf " %14s %14s %10s %12s\n", "reference/lib.", "lib./best of C", "long", "long/library"
    for (k = 1; k <= names; k++) if (group[name = order[k]] == "block" && has(m, name, "library")) {
        library = value[m, name, "library"]
        printf "%-22s %10s", name, number(m, library)
        for (j = 1; j <= BASELINES; j++) printf " %10s", shown(m, name, baseline[j])
        printf " %14s %14s", ratio(value[m, name, "reference"], library), ratio(library, best(m, name))
        if (has(m, name, "long")) printf " %10s %12s", number(m, value[m, name, "long"]), ratio(value[m, name, "long"], library)
        printf "\n"
    }
}

function lines(m,    k, name, head, fast, product) {
    for (k = 1; k <= names; k++) if (group[name = order[k]] == "line" && has(m, name, "fast")) {
        if (!head++) printf "\n%-22s %10s %10s %14s\n", m, "fast", "product", "product/fast"
        fast = value[m, name, "fast"]; product = value[m, name, "product"]
        printf "%-22s %10s %10s %14s\n", name, number(m, fast), number(m, product), ratio(product, fast)
    }
}

function rows(m,    k, name, head, one, calls) {
    for (k = 1; k <= names; k++) if (group[name = order[k]] == "line" && has(m, name, "one-call")) {
        if (!head++) printf "\n%-22s %10s %10s %14s\n", m, "one call", "64 calls", "64 calls/one"
        one = value[m, name, "one-call"]; calls = value[m, name, "64-calls"]
        printf "%-22s %10s %10s %14s\n", name, number(m, one), number(m, calls), ratio(calls, one)
    }
}

# Inverse blocks of kind 0. The decoder's numbers are without the copy that stands before each of its calls.
function live(m,    k, name, head, decoder, share, part, least, where) {
    for (k = 1; k <= names; k++) if (group[name = order[k]] == "live" && has(m, name, "library") && has(m, name, "decoder") && has(m, name, "copy")) {
        if (!head++) printf "\n%-22s %10s %10s %10s %10s %16s\n", m, "library", "decoder", "copy", "halves", "decoder/library"
        decoder = value[m, name, "decoder"] - value[m, name, "copy"]
        share = decoder / value[m, name, "library"]
        printf "%-22s %10s %10s %10s %10s %16.2f\n", name, shown(m, name, "library"), number(m, decoder), shown(m, name, "copy"), shown(m, name, "halves"), share
        part = name ~ / one$/ ? "one" : "the others"
        if (!(part in least) || share < least[part]) { least[part] = share; where[part] = name }
    }
    if (m == "products") return
    if ("one" in least) printf "%-22s %60.2f  %s\n", "least of one", least["one"], where["one"]
    if ("the others" in least) printf "%-22s %60.2f  %s\n", "least of the others", least["the others"], where["the others"]
}

# What a transform block is to take: "one" has one coefficient of kind 0.
function part_of(name) {
    if (name ~ / low-/) return "LFNST"
    if (name ~ / behind-/) return "none"
    if (name ~ / live-1x1$/) return "one"
    if (name ~ / ([12]x|[0-9]+x[12] )/) return "sides of 1 and 2"
    return name ~ / (4x|[0-9]+x4 )/ ? "sides of 4" : "the others"
}

# Transform blocks. All numbers are without the copy that stands before each call.
function transforms(m,    k, name, head, copy, library, decoder, share, part, least, where, most) {
    for (k = 1; k <= names; k++) if (group[name = order[k]] == "transform" && has(m, name, "library") && has(m, name, "decoder") && has(m, name, "copy")) {
        if (!head++) printf "\n%-28s %10s %10s %10s %16s\n", m, "library", "decoder", "copy", "decoder/library"
        copy = value[m, name, "copy"]; library = value[m, name, "library"] - copy; decoder = value[m, name, "decoder"] - copy
        share = library > 0 ? decoder / library : 0
        printf "%-28s %10s %10s %10s %16.2f\n", name, number(m, library), number(m, decoder), number(m, copy), share
        part = part_of(name)
        if (part == "none") continue
        if (part == "one" && (!(part in most) || library - decoder > most[part])) { most[part] = library - decoder; where[part] = name }
        if (part != "one" && (!(part in least) || share < least[part])) { least[part] = share; where[part] = name }
    }
    if (m == "products") return
    if ("one" in most) printf "%-28s %49s  %s\n", "most above the fill, of one", number(m, most["one"]), where["one"]
    for (part in least) printf "%-28s %49.2f  %s\n", "least of " part, least[part], where[part]
}

# LFNST alone: what a block with it takes more than the same stages on what it writes, in the same call.
function low(m, sides, who,    w, h, size) {
    split(sides, size, "x"); w = size[1]; h = size[2]
    return value[m, "transform " sides " low-4x4", who] - value[m, "transform " sides " behind-" (w < 8 || h < 8 ? "4x4" : "8x8"), who]
}

function lows(m,    k, part, head, library, decoder) {
    for (k = 1; k <= names; k++) if (order[k] ~ /^transform .* low-4x4$/ && has(m, order[k], "library") && has(m, order[k], "decoder")) {
        split(order[k], part, " ")
        if (!head++) printf "\n%-28s %10s %10s %27s\n", m " of LFNST alone", "library", "decoder", "decoder/library"
        library = low(m, part[2], "library"); decoder = low(m, part[2], "decoder")
        printf "%-28s %10s %10s %27s\n", part[2], number(m, library), number(m, decoder), ratio(decoder, library)
    }
}

function amount(m, name, who) { return who == "best of C" ? best(m, name) : has(m, name, who) ? value[m, name, who] : 0 }

# The ratio of two numbers of a case, which is to be at least or at most so much.
function aim(m, name, over, under, bound, limit,    a, b) {
    a = amount(m, name, over); b = amount(m, name, under)
    if (!a || !b) return
    printf "%-8s %-22s %-20s %5.2f, %s %.2f\n", (bound == "at least" ? a / b >= limit : a / b <= limit) ? "reached" : "short",
        name, over "/" under, a / b, bound, limit
}

# What the library takes of a block that keeps less, beside one that keeps the most.
function less(m, direction,    most, few) {
    if (!has(m, direction " 32x32 dense", "library") || !has(m, direction " 32x32 keeps-4x4", "library")) return
    most = value[m, direction " 32x32 dense", "library"]; few = value[m, direction " 32x32 keeps-4x4", "library"]
    printf "%-8s %-22s %-20s %5.2f, more than %.2f\n", (most > few ? "reached" : "short"), direction " 32x32", "keeps 16x16/4x4", most / few, 1
}

function aims(m,    k, f) {
    print "\naims, in " m
    for (k = 1; k <= 2; k++) aim(m, "inverse " large[k] " dense", "reference", "library", "at least", 2)
    for (k = 1; k <= 2; k++) aim(m, "inverse " large[k] " dense", "library", "best of C", "at most", 1.4)
    for (f = 2; f <= 3; f++) for (k = 1; k <= 3; k++) aim(m, "inverse " large[k] " " fill[f], "reference", "library", "at least", 4)
    for (k = 1; k <= 2; k++) for (f = 1; f <= 3; f++) aim(m, "inverse " small[k] " " fill[f], "reference", "library", "at least", 1)
    for (k = 1; k <= 2; k++) aim(m, "dct2 " small[k] " dense", "halves", "library", "at least", 1)
    for (k = 1; k <= 2; k++) aim(m, "dct2 " large[k] " dense", "halves", "library", "at least", k)
    less(m, "inverse")
    less(m, "forward")
}

END {
    BASELINES = split("reference triple rows folded butterfly halves", baseline)
    split("16x16 32x32 32x8", large)
    split("4x4 8x8", small)
    split("dense corner one", fill)
    for (k = 1; k <= measures; k++) if (measure[k] != "skipped") { blocks(measure[k]); lines(measure[k]); rows(measure[k]); live(measure[k]); transforms(measure[k]); lows(measure[k]) }
    if (skipped) print "\n" skipped " instructions were left out of the cycles, since llvm-mca does not know them"
    if ("ns" in seen) aims("ns")
    else if ("cycles" in seen) aims("cycles")
}
