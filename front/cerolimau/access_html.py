"""The page of who may do what: one HTML file, which needs no network."""
import html

from .access_questions import CHANGES

STYLE = """\
body { font: 15px/1.4 system-ui, sans-serif; margin: 1.5em; color: #1b1b1b; background: #fff; }
h1 { font-size: 1.4em; } h2 { font-size: 1.15em; margin: 1.6em 0 .4em; }
table { border-collapse: collapse; } th, td { border: 1px solid #b5b5b5; padding: 2px 7px; text-align: left; vertical-align: top; }
thead th { background: #f0f0f0; } td.c { padding: 0; }
button.a { font: inherit; font-family: ui-monospace, monospace; border: 0; background: none; padding: 3px 7px; width: 100%; cursor: pointer; min-width: 2.2em; }
button.allowed { background: #d3efd6; font-weight: 600; } button.denied { background: #f6d5d3; }
button.fallthru { background: #f3f3f3; color: #555; } button.a:focus { outline: 3px solid #1d5fbf; outline-offset: -3px; }
#rule { position: sticky; bottom: 0; background: #fffbe6; border: 1px solid #b59b2b; padding: .6em 1em; margin-top: 1.5em; white-space: pre-wrap; }
pre { border: 1px solid #ccc; padding: .4em 0; overflow-x: auto; } pre span { display: block; padding: 0 .6em; }
pre .idle { background: #fff1c9; } pre .idle::after { content: "   \\2190  idle: decides none of these questions"; color: #7a5b00; font-style: italic; }
pre .shown { outline: 2px solid #1d5fbf; } pre i { color: #777; font-style: normal; display: inline-block; width: 3.2em; text-align: right; margin-right: 1em; }
.more { background: #d3efd6; } .less { background: #f6d5d3; }
@media print { #rule { display: none; } button.a { background: none !important; } body { margin: 0; } pre { white-space: pre-wrap; } }
"""
SCRIPT = """\
const rule = document.getElementById("rule");
function show(cell) {
  rule.textContent = cell.title;
  document.querySelectorAll(".shown").forEach(line => line.classList.remove("shown"));
  (cell.dataset.lines || "").split(" ").forEach(id => { const line = id && document.getElementById(id); if (line) line.classList.add("shown"); });
}
document.addEventListener("click", event => { const cell = event.target.closest("button.a"); if (cell) show(cell); });
document.addEventListener("focusin", event => { const cell = event.target.closest("button.a"); if (cell) show(cell); });
document.addEventListener("keydown", event => {
  const cell = event.target.closest("td.c"); if (!cell) return;
  const row = cell.parentElement, place = [...row.cells].indexOf(cell);
  const next = { ArrowLeft: row.cells[place - 1], ArrowRight: row.cells[place + 1],
    ArrowUp: row.previousElementSibling && row.previousElementSibling.cells[place], ArrowDown: row.nextElementSibling && row.nextElementSibling.cells[place] }[event.key];
  const button = next && next.querySelector("button.a");
  if (button) { button.focus(); event.preventDefault(); }
});
"""
LEGEND = """\
<p>A letter says that it is allowed, and which permission it takes: <b>R</b> read, <b>W</b> write, <b>+</b> rewind or delete, <b>C</b> create, <b>D</b> delete. <b>&#10007;</b>
is denied by a rule, and <b>&middot;</b> is denied since no rule says anything. Choose a cell, by a click or with the arrow keys,
to see the rule that decides.</p>
"""


def page(confs, asked, found):
    """The page of one conf, or of what changes from the first to the second."""
    title = "Who may do what: %s" % " → ".join(conf.name for conf in confs)
    if len(confs) == 1:
        body = [LEGEND, *tables(confs[0], asked, found[0][0]), *texts(confs[0], 0, found[0][1])]
    else:
        body = [*changes(confs, asked, found[0][0], found[1][0]), *(part for at, conf in enumerate(confs) for part in texts(conf, at, found[at][1]))]
    head = '<!DOCTYPE html>\n<html lang="en">\n<meta charset="utf-8">\n<title>%s</title>\n<style>\n%s</style>\n<h1>%s</h1>\n' % (
        html.escape(title), STYLE, html.escape(title))
    return "%s%s<div id=\"rule\" role=\"status\" aria-live=\"polite\">Choose a cell.</div>\n<script>\n%s</script>\n</html>\n" % (head, "".join(body), SCRIPT)


def tables(conf, asked, found):
    """A table for each repository: a row for each user, and columns for reading, writing, and the changes of each ref."""
    heads = "".join('<th colspan="%d">%s</th>' % (len(CHANGES), html.escape(ref)) for ref in asked.refs)
    under = "".join("<th>%s</th>" % change for _ in asked.refs for change in CHANGES)
    for place, (name, creator, _) in enumerate(asked.repositories):
        yield "<h2>%s%s</h2>\n<table>\n" % (html.escape(name), html.escape(", made by " + creator) if creator else "")
        yield '<thead><tr><th rowspan="2">user</th><th rowspan="2">read</th><th rowspan="2">write</th>%s</tr><tr>%s</tr></thead>\n<tbody>\n' % (heads, under)
        for user in asked.users:
            keys = [(place, user, "read", ""), (place, user, "write", ""), *((place, user, ref, change) for ref in asked.refs for change in CHANGES)]
            yield "<tr><th>%s</th>%s</tr>\n" % (html.escape(user), "".join(cell(conf, 0, asked, key, found[key]) for key in keys))
        yield "</tbody></table>\n"


def cell(conf, at, asked, key, answer):
    rule = rule_of(conf, answer)
    lines = ' data-lines="%s"' % line_id(at, rule.file, rule.line) if rule else ""
    shown = {"fallthru": "&middot;", "denied": "&#10007;"}.get(answer.word, answer.letter)
    return '<td class="c"><button class="a %s" title="%s"%s aria-label="%s">%s</button></td>' % (
        answer.word, html.escape(explained(conf, asked, key, answer)), lines, html.escape("%s %s" % (answer.letter, answer.word)), shown)


def rule_of(conf, answer):
    return conf.rules[int(answer.number) - 1] if answer.number else None


def explained(conf, asked, key, answer):
    place, user, what, change = key
    about = "%s %s" % (what, asked.repositories[place][0]) if what in ("read", "write") else "%s %s in %s" % (change, what, asked.repositories[place][0])
    rule = rule_of(conf, answer)
    if not rule:
        return "%s: %s: denied, since no rule decides" % (user, about)
    text = conf.lines.get(rule.file, [])[int(rule.line) - 1:int(rule.line)]
    return "%s: %s: %s by rule %s, %s line %s:\n%s" % (user, about, answer.word, rule.number, rule.file, rule.line, "".join(text).strip())


def line_id(at, file, line):
    return html.escape("l%d-%s-%s" % (at, file.replace(" ", "_"), line))


def texts(conf, at, idle):
    """The files, with the lines marked whose rules decide none of the questions."""
    rules = {}
    for rule in conf.rules:
        rules.setdefault((rule.file, int(rule.line)), []).append(rule.number)
    for warning in conf.warnings:
        yield "<p><b>Warning:</b> %s</p>\n" % html.escape(warning)
    for file, lines in conf.lines.items():
        yield "<h2>%s: %s</h2>\n<pre>" % (html.escape(conf.name), html.escape(file))
        for number, line in enumerate(lines, 1):
            own = rules.get((file, number), ())
            is_idle = own and all(rule in idle for rule in own)
            yield '<span id="%s"%s><i>%d</i>%s</span>' % (line_id(at, file, number), ' class="idle"' if is_idle else "", number, html.escape(line))
        yield "</pre>\n"


def changes(confs, asked, old, new):
    """What is allowed by one conf and not by the other: first what is allowed now and wasn't."""
    rows = [key for key in asked.keys() if (old[key].word == "allowed") != (new[key].word == "allowed")]
    parts = ("Allowed now", "more", [key for key in rows if new[key].word == "allowed"]), ("Not allowed any more", "less", [
        key for key in rows if old[key].word == "allowed"])
    yield "<p>%d of %d answers change.</p>\n" % (len(rows), len(old))
    for title, kind, keys in parts:
        yield "<h2>%s: %d</h2>\n" % (title, len(keys))
        if keys:
            yield '<table>\n<thead><tr><th>repository</th><th>user</th><th>what</th><th>was</th><th>now</th></tr></thead>\n<tbody class="%s">\n' % kind
        for key in keys:
            place, user, what, change = key
            words = asked.repositories[place][0], user, ("%s %s" % (change, what)).strip()
            yield "<tr>%s%s%s</tr>\n" % ("".join("<td>%s</td>" % html.escape(word) for word in words), cell(confs[0], 0, asked, key, old[key]),
                                         cell(confs[1], 1, asked, key, new[key]))
        if keys:
            yield "</tbody></table>\n"
