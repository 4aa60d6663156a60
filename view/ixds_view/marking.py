"""The body of a page, with the text of each fact marked in place."""
from ixds_view.reading import ATTRIBUTE, IX, SAYS, SVG, TAG_NAME, WHITE, XHTML, named, value_of
from ixds_view.safety import GONE, INERT, UNSHOWN, is_in, kept
from ixds_view.texts import value_text


class Exclude:
    """A text that is left out, of the facts whose texts it stands in."""

    __slots__ = ('number', 'element', 'facts', 'is_shown')

    def __init__(self, number, element, facts):
        self.number, self.element, self.facts, self.is_shown = number, element, facts, False

    def text(self):
        page = self.element.page
        return ''.join(page.said(index) for index in range(self.element.index + 1, self.element.last) if page.kinds[index] in SAYS)


class Body:
    """The bytes of a page with marks in them, and without what runs and what loads."""

    def __init__(self, report, page):
        self.report, self.page, self.mark = report, page, report.mark
        self.root = next(iter(page.elements.values()))
        self.is_html = self.root.name in ((XHTML, 'html'), ('', 'html'))
        # Of the elements that are open: each, in whose place another stands, and whether it isn't displayed; how many of them aren't.
        self.out, self.ids, self.open, self.hidden = [], set(), [], 0
        # Where in `out` the root's start tag is, and what is behind its end.
        self.root_at = self.behind = None
        self.write()

    def data(self, index):
        return self.page.data[self.page.starts[index]:self.page.ends[index]]

    def write(self):
        page, run, sign = self.page, [], None
        for index, kind in enumerate(page.kinds):
            if kind in SAYS:
                now = [cover[3] for cover in page.covers.get(index, ())], page.left_out.get(index, [])
                if run and now != sign:
                    self.write_run(run)
                    run = []
                run.append(index)
                sign = now
            elif kind == 'comment' and run:
                run.append(index)
            elif kind == 'comment':
                self.out.append(self.data(index))
            elif kind in ('start', 'end'):
                self.write_run(run)
                run = []
                (self.write_start if kind == 'start' else self.write_end)(index)
        self.write_run(run)

    def write_start(self, index):
        element = self.page.elements[index]
        is_empty = element.last == index
        if is_empty:
            self.write_anchors(index)
        inert = 'gone' if is_in(element, GONE) else 'inert' if is_in(element, INERT) else None
        if element is self.root:
            self.root_at = len(self.out)
        self.out.append(self.tag(element, inert))
        if element is self.root and is_empty:
            self.behind = len(self.out)
        if not is_empty:
            # In a picture browsers display nothing of an element that they don't know.
            hides = inert == 'gone' or is_in(element, UNSHOWN) or element.is_ix('header') or element.name[0] == IX and self.is_svg()
            self.hidden += hides
            self.open.append((element, inert, hides))

    def write_end(self, index):
        self.write_anchors(index)
        _, inert, hides = self.open.pop()
        self.hidden -= hides
        self.out.append(b'</%s:span>' % self.mark.encode() if inert else self.data(index))
        if not self.open:
            self.behind = len(self.out)

    def tag(self, element, inert):
        """The tag of an element as it goes into the view: as it stands, where nothing of it has to change."""
        tag = self.data(element.index)
        name = TAG_NAME.match(tag)[1]
        out, changed = [b'<%s:span' % self.mark.encode() if inert else b'<' + name], bool(inert)
        for found in ATTRIBUTE.finditer(tag, 1 + len(name)):
            written = found[1].decode()
            if written == 'xmlns' or written.startswith('xmlns:'):
                if not (written == 'xmlns' and element is self.root and self.is_html):
                    out.append(found[0])
                continue
            value = value_of(found[2])
            new = kept(element, named(written, element.scope, False)[1], value, self.report.link)
            if written == 'id' and new is not None:
                new = None if value.strip(WHITE) in self.ids else new
                self.ids.add(value.strip(WHITE))
            if inert and written in ('class', 'style'):
                new = None
            changed = changed or new != value
            if new is not None:
                out.append(found[0] if new == value else (' %s="%s"' % (written, value_text(new))).encode())
        if element is self.root:
            changed = True
            out.append(b' xmlns:%s="%s"' % (self.mark.encode(), XHTML.encode()))
            if self.is_html and ':' not in element.written:
                out.append(b' xmlns="%s"' % XHTML.encode())
        if inert:
            out.append((' class="%s-%s" data-%s="%s"' % (self.mark, inert, self.mark, value_text(element.name[1]))).encode())
        return b''.join(out) + (b'/>' if tag.endswith(b'/>') else b'>') if changed else tag

    def is_svg(self):
        """Whether what stands here is part of a picture: by the innermost open element that isn't inline markup."""
        element = next((element for element, _, _ in reversed(self.open) if element.name[0] != IX), None)
        return element is not None and element.name[0] == SVG and element.name[1] != 'foreignObject'

    def wrapped(self, data, name, attributes):
        """An element of the view's own around some bytes. Attributes without a value are left out."""
        if self.is_svg():
            start, end = '%s xmlns="%s"' % (name if name == 'a' else 'tspan', SVG), name if name == 'a' else 'tspan'
        else:
            start = end = '%s:%s' % (self.mark, name)
        written = ''.join(' %s="%s"' % (key, value_text(value)) for key, value in attributes if value)
        return ('<%s%s>' % (start, written)).encode() + data + ('</%s>' % end).encode()

    def classes(self, *kinds):
        return ' '.join('%s-%s' % (self.mark, kind) for kind in ('m', *kinds) if kind)

    def kind(self, fact):
        return 'z' if fact.nil else 't' if fact.element.is_ix('nonNumeric') else 'n'

    def write_anchors(self, index):
        """At an element's end, an empty mark for each fact that shows no text in it."""
        if self.hidden:
            return
        for fact, part in self.page.closing.get(index, ()):
            if part.place is None:
                part.place = self.report.id('f', fact.number, part)
                self.out.append(self.wrapped(b'', 'a', [
                    ('class', self.classes('e', self.kind(fact))), ('id', part.place), ('href', '#' + self.report.id('d', fact.number)),
                    ('title', self.report.tip(fact)), ('data-' + self.mark, str(fact.number))]))

    def write_run(self, run):
        """Constructs in a row with the same facts and texts left out over them; only comments part them."""
        if not run:
            return
        page, report = self.page, self.report
        data = b''.join(map(self.data, run))
        covers = [cover[2:] for cover in page.covers.get(run[0], ())]
        excludes = page.left_out.get(run[0], ())
        if not covers and not excludes:
            self.out.append(data)
            return
        facts = [fact for fact, _ in covers]
        numbers = 'data-' + self.mark, ' '.join(str(fact.number) for fact in facts)
        if not ''.join(page.said(index) for index in run if page.kinds[index] in SAYS).strip(WHITE):
            self.out.append(self.wrapped(data, 'span', [('class', self.classes('w')), numbers]))
            return
        kinds = [self.kind(fact) for fact in facts[:1]] + ['s'] * (len(facts) > 1) + ['x'] * bool(excludes)
        ids, first, tips = [], None, []
        if not self.hidden:
            for fact, part in covers:
                if part.place is None:
                    part.place = report.id('f', fact.number, part)
                    ids.append(part.place)
                    first = first or report.id('d', fact.number)
            for exclude in excludes:
                if not exclude.is_shown:
                    exclude.is_shown = True
                    ids.append(report.id('x', exclude.number))
                    first = first or report.id('l', exclude.number)
        if first:
            tips = [report.tip(fact) for fact in facts[:3]]
            tips += ['and %d more facts around it' % (len(facts) - 3)] * (len(facts) > 3)
        else:
            tips = [fact.shown for fact in facts[:3]] + ['\u2026'] * (len(facts) > 3)
        tips += ['left out of ' + ', '.join(fact.shown for fact in exclude.facts[:3]) for exclude in excludes[:1] if exclude.facts]
        for more in reversed(ids[1:]):
            data = self.wrapped(data, 'span', [('class', self.classes('i')), ('id', more)])
        self.out.append(self.wrapped(data, 'a' if first else 'span', [
            ('class', self.classes(*kinds)), ('id', ids[0] if ids else None), ('href', '#' + first if first else None),
            ('title', '\n\n'.join(tips) if first else ', '.join(tips)), numbers]))
