"""The page that requirements_prototype.py prints with --html: one file that stands alone and has no script."""
from formula_values import states_of
from requirements_prototype import ASKED, BAD, MOST, MOST_CELLS, MOST_CLAIMS, counts_of, flat, is_drawn, rows_of, shown_of, slips_of, verdict, wide

REMARKS = ("never triggered", "follows from the others")

STYLE = """
:root{color-scheme:light dark;--ink:#1f2328;--sheet:#ffffff;--line:#8c959f;--soft:#f6f8fa;--good:#1a7f37;--bad:#b3261e;--remark:#8a5a00;--open:#57606a;--link:#0550ae}
@media (prefers-color-scheme:dark){
:root{--ink:#e6edf3;--sheet:#0d1117;--line:#6e7681;--soft:#161b22;--good:#3fb950;--bad:#ff7b72;--remark:#d29922;--open:#9198a1;--link:#79c0ff}
}
body{max-width:60rem;margin:0 auto;padding:1rem;background:var(--sheet);color:var(--ink);font:1rem/1.5 system-ui,sans-serif;overflow-wrap:anywhere}
h1{font-size:1.5rem}
h2{font-size:1.25rem;margin-top:2rem}
h3{font-size:1rem;margin:0}
p,ul{margin:.4rem 0}
a{color:var(--link)}
code{font-family:'DejaVu Sans Mono',Consolas,monospace;font-size:.9rem}
article{margin:1rem 0;padding:.5rem .8rem;border:1px solid var(--line);border-left:.4rem solid var(--tone,var(--line));background:var(--soft)}
.word{display:inline-block;padding:0 .4rem;border:2px solid currentColor;border-radius:.3rem;color:var(--tone);font-weight:bold}
.good{--tone:var(--good)}
.bad{--tone:var(--bad)}
.remark{--tone:var(--remark)}
.open{--tone:var(--open)}
.word.remark{border-style:dashed}
.word.open{border-style:dotted}
.counts{border-collapse:collapse}
.counts td{padding:.1rem 1rem .1rem 0}
.picture{overflow-x:auto}
@media print{
body{max-width:none;padding:0}
article{break-inside:avoid;background:none}
.picture{overflow:visible}
.picture svg{max-width:100%;height:auto}
}
"""

PICTURE_STYLE = """<style type='text/css'>
.paper{fill:#ffffff}
.loop{fill:#0969da;fill-opacity:0.12}
.edge{fill:none;stroke:#8c959f;stroke-opacity:0.4}
.lane{fill:#0969da;fill-opacity:0.2;stroke:#0969da;stroke-width:2}
.back{fill:none;stroke:#bc4c00;stroke-width:2}
.head{fill:#bc4c00}
text{fill:#1f2328;font-family:'DejaVu Sans Mono',Consolas,monospace}
.name{font-size:15px}
.number{font-size:12px;text-anchor:middle}
@media (prefers-color-scheme:dark){
.paper{fill:#0d1117}
.loop{fill:#58a6ff}
.lane{fill:#58a6ff;stroke:#58a6ff}
.back{stroke:#f0883e}
.head{fill:#f0883e}
text{fill:#e6edf3}
}
</style>
"""


def escaped(text):
    return text.replace("&", "&amp;").replace("<", "&lt;").replace(">", "&gt;")


def said(text):
    """What somebody wrote: on one line, escaped, and with a direction of its own."""
    return "<bdi>%s</bdi>" % escaped(flat(text))


def code(text):
    return "<code>%s</code>" % said(text)


def kind_of(word):
    return "bad" if word in BAD else "remark" if word in REMARKS else "open" if word == "undecided" else "good"


def badge(word):
    return "<span class=\"word %s\">%s</span>" % (kind_of(word), word)


def picture_of(answer):
    """The timing diagram of black_view, without the first line."""
    rows, count = rows_of(answer), len(states_of(answer["trace"]))
    names, lanes = max([0] + [wide(name) for name, _ in rows]), len(rows)
    start = len(answer["trace"]["stem"]) if "stem" in answer["trace"] else None
    width, bottom = 24 + 9 * names + 40 * count + 16, 44 + 36 * lanes

    def x(i):
        return 24 + 9 * names + 40 * i

    out = ["<svg xmlns='http://www.w3.org/2000/svg' version='1.1' width='%d' height='%d' viewBox='0 0 %d %d'>\n<title>A trace</title>\n"
           % (width, bottom + 36, width, bottom + 36), PICTURE_STYLE,
           "<rect class='paper' width='%d' height='%d'/>\n" % (width, bottom + 36)]
    if start is not None:
        out.append("<rect class='loop' x='%d' y='36' width='%d' height='%d'/>\n" % (x(start), 40 * (count - start), 8 + 36 * lanes))
    out.append("<path class='edge' d='%s'/>\n" % "".join("M%d 36V%d" % (x(i), bottom) for i in range(count + 1)))
    out += ["<text class='number' x='%d' y='30'>%d</text>\n" % (x(i) + 20, i) for i in range(count)]
    for lane, (name, cells) in enumerate(rows):
        out.append("<text class='name' x='12' y='%d'>%s</text>\n" % (63 + 36 * lane, escaped(name)))
        low, high = 68 + 36 * lane, 48 + 36 * lane
        steps = "".join("V%dH%d" % (high if cell else low, x(i + 1)) for i, cell in enumerate(cells))
        out.append("<path class='lane' d='M%d %d%sV%d'/>\n" % (x(0), low, steps, low))
    if start is not None:
        out.append("<path class='back' d='M%d %dV%dH%dV%d'/>\n" % (x(count - 1) + 28, bottom, bottom + 20, x(start) + 12, bottom + 4))
        out.append("<path class='head' d='M%d %dl5 9h-10Z'/>\n" % (x(start) + 12, bottom))
    return "<div class=\"picture\">\n" + "".join(out) + "</svg>\n</div>\n"


def page_of(document, answers, aside, only):
    items = document.items + document.behaviours
    number = {item.name: place for place, item in enumerate(items, 1)}
    given = len(document.of("assume", "require"))
    shown = shown_of(answers, only)

    def link(name):
        return "<a href=\"#item-%d\">%s</a>" % (number[name], said(name))

    def names(because):
        return ", ".join(link(member["name"]) + ("" if member["needed"] else " (perhaps)") for member in because)

    def described(item):
        return ("<p>%s</p>\n" % said(item.text) if flat(item.text or "") else "") + ("<p>%s</p>\n" % code(item.formula) if item.formula else "")

    def article(place, answer):
        word = answer["answer"]
        subject = link(answer["name"]) if "name" in answer else names(answer["because"]) if word == "conflict" else \
            "%d of %d" % (given - len(aside), given)
        out = ["<article class=\"%s\" id=\"answer-%d\">\n<h3>%s %s</h3>\n" % (kind_of(word), place, badge(word), subject)]
        if word == "conflict":
            for member in answer["because"]:
                out.append("<p><strong>%s</strong></p>\n" % link(member["name"]) + described(items[number[member["name"]] - 1]))
            out += ["<p>never %s</p>\n" % code(claim) for claim in answer["claims"][:MOST_CLAIMS]]
            out += ["<p>and %d more</p>\n" % (len(answer["claims"]) - MOST_CLAIMS)] if len(answer["claims"]) > MOST_CLAIMS else []
            out += [] if answer["claims"] else ["<p>no first state meets them</p>\n"]
        elif "name" in answer:
            out.append(described(items[number[answer["name"]] - 1]))
        elif aside:
            out.append("<p>without: %s</p>\n" % ", ".join(link(name) for name in aside))
        if word == "undecided":
            tried = "tried: %d steps" % answer["steps"] if "steps" in answer else "limit nodes %d have %d" % (MOST, answer["nodes"])
            out.append("<p>%s</p>\n<p>%s</p>\n" % (ASKED[answer["question"]], tried))
        if "because" in answer and word != "conflict":
            out.append("<p>%s</p>\n" % ("because of: " + names(answer["because"]) if answer["because"] else "by itself"))
        for found in answer.get("breaks", []):
            out.append("<p>%s at %d</p>\n" % (link(found["name"]), found["position"]))
            out += ["<p>asked: %s</p>\n<p>not answered: %s</p>\n" % (code(found["asked"]), code(found["unanswered"]))] if "asked" in found else []
        out += [picture_of(answer) if is_drawn(answer, rows_of(answer)) else "<p>limit cells %d</p>\n" % MOST_CELLS] if "trace" in answer else []
        return "".join(out) + "</article>\n"

    def notes(item):
        about = [(answer["answer"], shown.index(answer) + 1 if answer in shown else None) for answer in answers
                 if answer.get("name") == item.name or answer["answer"] == "conflict" and item.name in [m["name"] for m in answer["because"]]]
        return ", ".join("<a href=\"#answer-%d\">%s</a>" % (place, word) if place else word for word, place in about)

    word = verdict(answers)[0]
    out = ["<!DOCTYPE html>\n<html lang=\"en\">\n<head>\n<meta charset=\"utf-8\">\n"
           "<meta name=\"viewport\" content=\"width=device-width, initial-scale=1\">\n"
           "<meta http-equiv=\"Content-Security-Policy\" content=\"default-src 'none'; style-src 'unsafe-inline'\">\n"
           "<title>Requirements: %s</title>\n<style>%s</style>\n</head>\n<body>\n" % (word, STYLE),
           "<h1>Requirements: <span class=\"word %s\">%s</span></h1>\n"
           % ({"as wished": "good", "undecided": "open"}.get(word, "bad"), word),
           "<table class=\"counts\">\n"]
    out += ["<tr><td>%s</td><td>%d of %d</td></tr>\n" % count for count in counts_of(document, answers, aside)]
    out.append("</table>\n<h2>Answers</h2>\n")
    out += [article(place, answer) for place, answer in enumerate(shown, 1)]
    slips = slips_of(document) if only is None else []
    if slips:
        out.append("<h2>Perhaps a slip</h2>\n<ul>\n")
        for slip in slips:
            alone = ["in %s alone" % link(slip["items"][0])] if len(slip["items"]) == 1 else []
            out.append("<li>%s: %s</li>\n" % (code(slip["letter"]), "; ".join(alone + ["nearly " + code(near) for near in slip["nearly"]])))
        out.append("</ul>\n")
    out.append("<h2>Items</h2>\n")
    for place, item in enumerate(items, 1):
        out.append("<article id=\"item-%d\">\n<h3>%s %s</h3>\n%s" % (place, item.role, said(item.name), described(item)))
        out += ["<p>%s</p>\n" % notes(item)] if notes(item) else []
        out.append("</article>\n")
    return "".join(out) + "</body>\n</html>\n"
