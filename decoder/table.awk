# Makes tables, in Markdown, of the lines that decoder/run gathered:
#   plain STREAM frames, equal, seconds as it is, seconds on the library
#   compare|exchange|measure STREAM log2 of both sides, both kinds, LFNST, switch, then blocks, refused, different, clocks of the decoder and
#     of the library: see decoder/watch.h; or the word skipped and how many blocks have no transform
# Status 1 if a frame or a block differs, one is refused, nothing was compared, or the exchanged kinds do not show.
!($2 in known) { known[$2] = 1; streams[++count] = $2 }
{ asked[$1] = 1 }
$1 == "plain" { frames[$2] += $3; equal[$2] += $4; own_seconds[$2] += $5; seconds[$2] += $6; next }
$3 == "skipped" { skipped[$1, $2] += $4; next }
$1 == "exchange" { turned[$2] += $11; if ($5 || $6) others[$2] += $9; next }
{ blocks[$1, $2] += $9; refused[$1, $2] += $10; different[$1, $2] += $11 }
$1 == "measure" {
    own[$2] += $12; clocks[$2] += $13
    kind = $8 ? "extended" : $7 ? "LFNST" : $5 || $6 ? "MTS" : "DCT-II"
    put($3 * 7 + $4, kind)
    put("all", kind)
}
function put(sides, kind) { met[sides] += $9; own_of[sides, kind] += $12; clocks_of[sides, kind] += $13; met_of[sides, kind] += $9 }

function big(n, text) { # with commas
    text = sprintf("%d", n)
    while (match(text, /[0-9][0-9][0-9][0-9](,|$)/)) text = substr(text, 1, RSTART) "," substr(text, RSTART + 1)
    return text
}
function ratio(a, b) { return b ? sprintf("%.2f", a / b) : "" }
function rule(n, line, k) { line = "|---|"; for (k = 1; k < n; k++) line = line "---:|"; return line }
function cell(mode, text) { return (mode in asked ? " " text : "") " |" }

# the clocks of a stream are in millions
function row(name, counted, line) {
    counted = "compare" in asked ? "compare" : "measure"
    line = "| " name " |" cell("plain", big(frames[name])) cell("plain", big(equal[name]))
    line = line cell(counted, big(blocks[counted, name])) cell(counted, big(skipped[counted, name])) cell(counted, big(refused[counted, name]))
    line = line cell(counted, big(different[counted, name])) cell("exchange", big(turned[name]))
    line = line cell("measure", sprintf("%.1f", own[name] / 1e6)) cell("measure", sprintf("%.1f", clocks[name] / 1e6))
    line = line cell("measure", ratio(clocks[name], own[name])) cell("plain", sprintf("%.2f", own_seconds[name])) cell("plain", sprintf("%.2f", seconds[name]))
    print line
}

function add(name, k, mode) {
    frames["all"] += frames[name]; equal["all"] += equal[name]; own_seconds["all"] += own_seconds[name]; seconds["all"] += seconds[name]
    turned["all"] += turned[name]; own["all"] += own[name]; clocks["all"] += clocks[name]
    for (k = 1; k <= 2; k++) {
        mode = k == 1 ? "compare" : "measure"
        blocks[mode, "all"] += blocks[mode, name]; skipped[mode, "all"] += skipped[mode, name]
        refused[mode, "all"] += refused[mode, name]; different[mode, "all"] += different[mode, name]
    }
}

function by_stream(k) {
    print "\n| Stream | Frames | equal | Blocks | skipped | refused | different | if kinds are exchanged | Clocks in millions: FFmpeg | Hoengtila | ratio | Seconds of the whole decoder: FFmpeg | on Hoengtila |"
    print rule(13)
    for (k = 1; k <= count; k++) { row(streams[k]); add(streams[k]) }
    row("all")
}

# the mean clocks of a block of these sides and each kind
function size_row(sides, title, line, k) {
    if (!met[sides]) return
    line = "| " title " | " big(met[sides]) " |"
    for (k = 1; k <= 4; k++) line = line of_kind(met_of[sides, kinds[k]], own_of[sides, kinds[k]], clocks_of[sides, kinds[k]])
    print line
}
function of_kind(b, o, c) { return b ? " " big(o / b) " | " big(c / b) " | " ratio(c, o) " |" : " | | |" }

function by_size(sides, k, line) {
    split("DCT-II MTS LFNST extended", kinds)
    line = "\n| Sides | Blocks |"
    for (k = 1; k <= 4; k++) line = line " " kinds[k] ": FFmpeg | Hoengtila | ratio |"
    print line "\n" rule(14)
    for (sides = 0; sides < 49; sides++) size_row(sides, 2 ^ int(sides / 7) "x" 2 ^ (sides % 7))
    size_row("all", "all")
}

function wrong(k, name, mode, bad) {
    for (k = 1; k <= count; k++) {
        name = streams[k]
        if ("plain" in asked && (!frames[name] || frames[name] != equal[name])) bad = 1
        for (mode in asked) if (mode == "compare" || mode == "measure")
            if (blocks[mode, name] + skipped[mode, name] == 0 || refused[mode, name] || different[mode, name]) bad = 1
        if (others[name] && !turned[name]) bad = 1
    }
    return bad || !count
}

END {
    by_stream()
    if ("measure" in asked) by_size()
    exit wrong()
}
