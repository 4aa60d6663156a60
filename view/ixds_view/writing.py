"""The list of facts, and the view as a file."""
import html

from ixds_view.reading import NAMED_IN_LISTS, VALUE_SHOWN, XHTML
from ixds_view.texts import cut, shown_characters, text_of
from ixds_view.report import facts_told


class List:
    """The list of a view: what is on its page, with links to it, and what is told of each."""

    def __init__(self, report, page):
        self.report, self.page, self.mark = report, page, report.mark
        self.out = []
        shown = [fact for fact in page.facts if self.places(fact)]
        shown.sort(key=lambda fact: min(part.element.index for part in fact.parts if part.element.page is page and part.place))
        hidden = [fact for fact in page.facts if not self.places(fact)]
        self.head(shown, hidden)
        self.section('Facts', [self.fact(fact) for fact in shown])
        self.section('Hidden facts', [self.fact(fact) for fact in hidden])
        self.section('Texts left out', [self.exclude(exclude) for exclude in page.excludes])

    def places(self, fact):
        """The parts of a fact that can be seen on this page."""
        return [part for part in fact.parts if part.place and part.element.page is self.page]

    def head(self, shown, hidden):
        page, report = self.page, self.report
        many = [(len(shown), 'displayed'), (len(hidden), 'hidden'), (sum(fact.nil for fact in page.facts), 'nil'),
                (sum(fact.element.page is not page for fact in page.facts), 'going on here from other pages')]
        self.out.append('<h1>%s</h1><p>%s: %s.</p>' % (text_of(page.name), facts_told(page), ', '.join(
            '%d %s' % pair for pair in many if pair[0] or pair[1] == 'displayed')))
        self.out.append('<p class="{0}-k"><span class="{0}-n">number</span> <span class="{0}-t">text</span> <span class="{0}-z">nil</span> '
                        '<span class="{0}-s">several facts</span> <span class="{0}-x">left out</span></p>'.format(self.mark))
        if len(report.pages) > 1:
            links = [('<b>{1}</b>' if other is page else '<a href="{0}">{1}</a>').format(report.file(page, other), text_of(other.name))
                     for other in sorted(report.pages, key=lambda other: other.name.encode())]
            self.out.append('<p>Pages: %s</p>' % ', '.join(links))

    def section(self, title, items):
        if items:
            self.out.append('<details open="open"><summary>%s (%d)</summary><ol>%s</ol></details>' % (title, len(items), ''.join(items)))

    def item(self, ident, place, name, value, rows):
        rows = ''.join('<dt>%s</dt><dd>%s</dd>' % row for row in rows)
        return '<li id="%s"><a href="#%s">%s</a> <span class="%s-v">%s</span><dl>%s</dl></li>' % (
            ident, place or ident, text_of(name), self.mark, text_of(value), rows)

    def fact(self, fact):
        report, page = self.report, self.page
        words, entity = report.context(fact)
        unit = report.unit(fact) if fact.unit is not None else None
        value = report.value(fact, VALUE_SHOWN)
        rows = [('Value', text_of(value) or '(empty)'),
                ('Name', '%s<br/>%s' % (text_of(fact.name[1]), text_of(fact.name[0] or 'no namespace'))),
                ('Context', text_of('%s: %s' % (fact.context, ', '.join(words)))), ('Entity', text_of(entity))]
        if unit is not None:
            rows.append(('Unit', text_of('%s: %s' % (fact.unit, unit))))
        if fact.accuracy:
            rows.append(('Accuracy', '%s %s' % (fact.accuracy[0], text_of(fact.accuracy[1] or ''))))
        rows += [(label, text_of(fact.element.token(local))) for label, local in (
            ('Format', 'format'), ('Scale', 'scale'), ('Sign', 'sign'), ('Target', 'target'), ('Id', 'id')) if fact.element.token(local)]
        if fact.said and not fact.nil and fact.said != fact.value:
            rows.append(('Text', text_of(cut(fact.said, VALUE_SHOWN))))
        rows += self.where(fact)
        beside = list(report.beside.get(fact, ()))
        if beside:
            links = [self.to(other) for other in beside[:NAMED_IN_LISTS]] + ['and %d more' % (len(beside) - NAMED_IN_LISTS)] * (
                len(beside) > NAMED_IN_LISTS)
            rows.append(('Shares its text with', ', '.join(links)))
        places = self.places(fact)
        short = value if fact.nil or unit is None or fact.value is None else '%s %s' % (value, unit)
        short = short if len(short) <= 80 else short[:80] + '\u2026'
        return self.item(report.id('d', fact.number), places[0].place if places else None, fact.shown, short, rows)

    def where(self, fact):
        """Where the text of a fact begins, and where it goes on."""
        report, page = self.report, self.page
        rows = []
        if fact.element.page is not page:
            rows.append(('Begins on', self.link(fact.element.page, report.id('d', fact.number), fact.element.page.name)))
        elif not self.places(fact):
            rows.append(('Where', 'in ix:hidden, and not displayed' if fact.hidden else 'where the page displays nothing'))
        parts = [(part, part.element.page) for part in fact.parts if part.number]
        if len(parts) > 1 or any(other is not page for _, other in parts):
            links = [self.link(other, part.place, '%d: %s' % (part.number, other.name)) if part.place else
                     text_of('%d: %s (not displayed)' % (part.number, other.name)) for part, other in parts]
            rows.append(('Its parts', ', '.join(links)))
        return rows

    def link(self, page, ident, text):
        file = '' if page is self.page else self.report.file(self.page, page)
        return '<a href="%s#%s">%s</a>' % (file, ident, text_of(text))

    def to(self, fact):
        return self.link(self.page if fact in self.page.facts else fact.element.page, self.report.id('d', fact.number), fact.shown)

    def exclude(self, exclude):
        report = self.report
        rows = [('Left out of', ', '.join(self.to(fact) for fact in exclude.facts) or 'a footnote')]
        text = cut(exclude.text(), VALUE_SHOWN)
        rows.append(('Text', text_of(text) or '(empty)'))
        short = ' '.join(text.split())
        return self.item(report.id('l', exclude.number), report.id('x', exclude.number) if exclude.is_shown else None,
                         short if len(short) <= 60 else short[:60] + '\u2026' if short else '(empty)', '', rows)


POLICY = "default-src 'none'; style-src 'unsafe-inline'; img-src data:; font-src data:; base-uri 'none'; form-action 'none'"
STYLE = """
@namespace h url(http://www.w3.org/1999/xhtml);
@namespace ix url(http://www.xbrl.org/2013/inlineXBRL);
ix|header, .@-gone { display: none !important; }
:is(h|table, h|thead, h|tbody, h|tfoot, h|tr) > ix|*, :is(h|table, h|thead, h|tbody, h|tfoot, h|tr) > ix|* > ix|*,
:is(h|table, h|thead, h|tbody, h|tfoot, h|tr) > ix|* > ix|* > ix|* { display: contents; }
.@-m.@-m { all: unset !important; }
.@-m.@-m.@-w { display: contents !important; }
.@-m.@-t { box-shadow: inset 0 -2px #3b7dd8 !important; }
.@-m.@-n { background: rgba(255, 190, 0, .3) !important; box-shadow: inset 0 -2px #b86e00 !important; }
.@-m.@-z { background: rgba(150, 150, 150, .3) !important; box-shadow: inset 0 -2px #666 !important; }
.@-m.@-s { text-decoration: underline double #b00 !important; text-underline-offset: 4px !important; }
.@-m.@-x { background: repeating-linear-gradient(135deg, rgba(190, 0, 60, .25) 0 2px, transparent 2px 6px) !important; }
.@-m.@-e { position: absolute !important; width: 8px !important; height: 8px !important; border-radius: 4px !important;
  background: #666 !important; box-shadow: none !important; }
a.@-m.@-m { cursor: pointer !important; }
.@-m.@-m:target, .@-m.@-m:focus { outline: 3px solid #c00 !important; outline-offset: 2px !important; }
h|a.@-m:focus::after, h|a.@-m:target::after, h|a.@-m:has(:target)::after { all: initial !important; content: attr(title) !important;
  position: fixed !important; z-index: 2147483646 !important; left: 8px !important; bottom: 8px !important; max-width: 60% !important;
  max-height: 50% !important; overflow: hidden !important; padding: 8px 12px !important; background: #fffbe6 !important;
  color: #111 !important; border: 1px solid #888 !important; font: 14px/1.4 sans-serif !important; white-space: pre-line !important; }
h|a.@-m:focus::after { z-index: 2147483647 !important; }
#@-list, #@-list *|* { all: revert !important; }
#@-list { position: fixed !important; z-index: 2147483645 !important; top: 0 !important; right: 0 !important; bottom: 0 !important;
  width: 380px !important; box-sizing: border-box !important; overflow: auto !important; padding: 8px 12px !important;
  background: #fff !important; color: #111 !important; border-left: 1px solid #888 !important; font: 14px/1.4 sans-serif !important;
  text-align: left !important; }
#@-list:not(:has(> details[open])) { width: auto !important; bottom: auto !important; }
:root:has(> #@-list > details[open]) { margin-right: 380px !important; }
#@-list h1 { font-size: 16px !important; margin: 8px 0 !important; overflow-wrap: anywhere !important; }
#@-list p { margin: 6px 0 !important; }
#@-list ol { margin: 4px 0 12px !important; padding-left: 34px !important; }
#@-list li { overflow-wrap: anywhere !important; }
#@-list summary { font-weight: bold !important; cursor: pointer !important; }
#@-list dl { display: none !important; margin: 4px 0 10px !important; padding: 6px 8px !important; background: #f2f2f2 !important; }
#@-list li:focus-within dl, #@-list li:target dl { display: block !important; }
#@-list dt { font-size: 12px !important; color: #555 !important; }
#@-list dd { margin: 0 0 4px !important; white-space: pre-line !important; }
#@-list a:focus, #@-list summary:focus { outline: 2px solid #c00 !important; }
#@-list li:target { background: #fff3cd !important; }
#@-list .@-v { color: #444 !important; }
#@-list .@-k span { padding: 0 4px !important; margin-right: 6px !important; }
#@-list .@-t { box-shadow: inset 0 -2px #3b7dd8 !important; }
#@-list .@-n { background: rgba(255, 190, 0, .3) !important; box-shadow: inset 0 -2px #b86e00 !important; }
#@-list .@-z { background: rgba(150, 150, 150, .3) !important; box-shadow: inset 0 -2px #666 !important; }
#@-list .@-s { text-decoration: underline double #b00 !important; text-underline-offset: 4px !important; }
#@-list .@-x { background: repeating-linear-gradient(135deg, rgba(190, 0, 60, .25) 0 2px, transparent 2px 6px) !important; }
@media print {
  #@-list { display: none !important; }
  :root:has(> #@-list > details[open]) { margin-right: 0 !important; }
  h|a.@-m.@-m:is(:focus, :target, :has(:target))::after { content: none !important; }
}
"""


def view_of(report, page):
    """The bytes of a page's view: its root with a head of the view's own, the list and the page in it, or these in a root of its own."""
    body, mark = report.bodies[page], report.mark
    told = ''.join(List(report, page).out)
    front = ('<{0}:head><{0}:meta http-equiv="Content-Security-Policy" content="{1}"/><{0}:meta http-equiv="x-dns-prefetch-control" '
             'content="off"/><{0}:meta name="referrer" content="no-referrer"/><{0}:title>{2}: {3}</{0}:title><{0}:style>{4}</{0}:style>'
             '</{0}:head><nav xmlns="{5}" id="{0}-list" lang="en" dir="ltr" aria-label="Facts of this page"><details open="open">'
             '<summary>Facts</summary>{6}</details></nav>').format(
                 mark, html.escape(POLICY), text_of(page.name), facts_told(page), text_of(STYLE.replace('@-', mark + '-')), XHTML, told)
    front = shown_characters(front).encode()
    out = list(body.out)
    if body.is_html:
        tag = out[body.root_at]
        if tag.endswith(b'/>'):
            out[body.root_at] = tag[:-2] + b'>' + front + b'</' + body.root.written.encode() + b'>'
        else:
            out.insert(body.root_at + 1, front)
    else:
        out.insert(body.behind, b'</body></html>')
        out.insert(body.root_at, ('<html xmlns="%s" xmlns:%s="%s">' % (XHTML, mark, XHTML)).encode() + front + b'<body>')
    return b'<?xml version="1.0" encoding="UTF-8"?>\n' + b''.join(out).strip() + b'\n'
