# Two panels of a picture, one for each input file: lines `event|answer`, the settings first. Used by scripts/incident-picture.

function text(x, y, size, anchor, colour, words) {
    printf "<text x=\"%d\" y=\"%d\" font-size=\"%d\" text-anchor=\"%s\" fill=\"%s\">%s</text>\n", x, y, size, anchor, colour, words
}

function line(x1, y1, x2, y2, colour, dashes) {
    printf "<line x1=\"%d\" y1=\"%d\" x2=\"%d\" y2=\"%d\" stroke=\"%s\" stroke-width=\"2\"%s/>\n", x1, y1, x2, y2, colour, dashes
}

# where so many messages in flight stand
function level(messages) { return FLOOR - messages * UNIT }

function frame(title, n) {
    text(left + PANEL / 2, 40, 18, "middle", "#222", title)
    line(left, FLOOR, left + PANEL, FLOOR, "#222", "")
    for (n = 0; n <= ceiling; n++) text(left - 8, level(n) + 4, 12, "end", "#666", n)
    line(left, level(ceiling), left + PANEL, level(ceiling), "#c0392b", " stroke-dasharray=\"6 4\"")
    text(left + 4, level(ceiling) - 10, 13, "start", "#c0392b", "the ceiling: " ceiling " messages in flight")
}

# who asked, what was said, and what is in flight after it
function event(who, says, messages, clock, x, colour) {
    x = left + (count - 1) * STEP + STEP / 2
    colour = who == "02" ? "#2471a3" : who == "03" ? "#1e8449" : "#666"
    printf "<rect x=\"%d\" y=\"%d\" width=\"%d\" height=\"%d\" fill=\"#d6dbdf\"/>\n", x - 14, level(messages), 28, FLOOR - level(messages)
    if (says == "Allow") printf "<circle cx=\"%d\" cy=\"%d\" r=\"7\" fill=\"%s\"/>\n", x, level(messages), colour
    if (says ~ /^Disconnect/) {
        line(x - 7, level(messages) - 17, x + 7, level(messages) - 3, colour, "")
        line(x - 7, level(messages) - 3, x + 7, level(messages) - 17, colour, "")
        text(x, level(messages) - 22, 8, "middle", colour, substr(says, length("Disconnect-") + 1))
    }
    text(x, FLOOR + 18, 12, "middle", colour, who == "" ? "done" : who)
    text(x, FLOOR + 36, 11, "middle", "#666", clock)
}

BEGIN {
    PANEL = 420; STEP = 42; FLOOR = 290; UNIT = 32
    titles[1] = "raw clock, which steps back by 5 ms"
    titles[2] = "the same with peer 02's time held"
    print "<svg xmlns=\"http://www.w3.org/2000/svg\" viewBox=\"0 0 980 400\" font-family=\"sans-serif\">"
    print "<rect width=\"980\" height=\"400\" fill=\"#fff\"/>"
}

FNR == 1 {
    panel++
    left = 50 + (panel - 1) * (PANEL + 60)
    split($1, setting, " ")
    ceiling = setting[8]
    count = 0
    frame(titles[panel])
    text(left - 8, FLOOR + 36, 11, "end", "#666", "ms")
    next
}

{
    count++
    split($1, asked, " ")
    split($2, said, " ")
    if (asked[1] == "r") { event("", said[1], said[2], ""); next }
    if (count == 1) start = asked[4]
    event(asked[2], said[1], said[2], asked[4] - start)
}

END {
    printf "<circle cx=\"60\" cy=\"365\" r=\"7\" fill=\"#2471a3\"/>\n<circle cx=\"80\" cy=\"365\" r=\"7\" fill=\"#1e8449\"/>\n"
    text(94, 370, 13, "start", "#222", "let in: peer 02, which floods; peer 03, a quiet neighbour")
    line(493, 358, 507, 372, "#2471a3", ""); line(493, 372, 507, 358, "#2471a3", "")
    line(515, 358, 529, 372, "#1e8449", ""); line(515, 372, 529, 358, "#1e8449", "")
    text(538, 370, 13, "start", "#222", "turned away")
    print "<rect x=\"640\" y=\"358\" width=\"14\" height=\"14\" fill=\"#d6dbdf\"/>"
    text(662, 370, 13, "start", "#222", "messages in flight after each event")
    print "</svg>"
}
