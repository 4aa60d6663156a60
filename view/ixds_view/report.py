"""What is told of a set beside its pages: where links lead, how files are called."""
import os
import re
import urllib.parse
from collections import defaultdict

from ixds_view.reading import SAYS, TIP_SHOWN, WHITE, XHTML, XML
from ixds_view.facts import Part, within
from ixds_view.safety import LEADS_OUT
from ixds_view.texts import cut
from ixds_view.marking import Body, Exclude


class Report:
    """A set of pages, with what is told of it."""

    def __init__(self, base, pages, facts, instances, chains, mark):
        self.base, self.pages, self.facts, self.instances, self.mark = base, pages, facts, instances, mark
        self.files = file_names([page.name for page in pages])
        self.addresses = {urllib.parse.urljoin(base, urllib.parse.quote(page.name)): page for page in pages}
        self.owners = {}
        for fact in facts:
            if fact.element.is_ix('nonNumeric'):
                for element in chains.of(fact.element):
                    self.owners.setdefault(element, fact)
        self.beside = defaultdict(dict)
        for page in pages:
            page.facts, page.closing, page.excludes, page.left_out = {}, defaultdict(list), [], defaultdict(list)
            page.base = base_of(page, base)
            self.lay_excludes(page)
        for fact in facts:
            self.lay(fact)
        for page in pages:
            self.order(page)
        self.bodies = {page: Body(self, page) for page in pages}

    def lay_excludes(self, page):
        """Lays the texts that are left out over what they hold, the innermost first."""
        for element in page.elements.values():
            if element.is_ix('exclude'):
                of = [self.owners[above] for above in element.ancestors() if above in self.owners and not self.owners[above].nil]
                exclude = Exclude(len(page.excludes) + 1, element, of)
                page.excludes.append(exclude)
                for index in range(element.index + 1, element.last):
                    if page.kinds[index] in SAYS:
                        page.left_out[index].insert(0, exclude)

    def lay(self, fact):
        """Lays a fact over its pages: over what it holds, where it is nil, and over its own element, where none of its text is there."""
        own = fact.element
        page = own.page
        if not any(within(part.element, own) for part in fact.parts):
            fact.parts.insert(0, Part(0, own))
        for index in range(own.index + 1, own.last) if fact.nil else ():
            if page.kinds[index] in SAYS:
                page.covers.setdefault(index, []).append((own.index, own.index, fact, fact.parts[0]))
        for part in fact.parts:
            part.element.page.closing[part.element.last].append((fact, part))
            part.element.page.facts[fact] = True

    def order(self, page):
        """Orders the facts over each construct, the innermost first, and notes which stand one in the other."""
        for covers in page.covers.values():
            covers.sort(key=lambda cover: cover[:2], reverse=True)
            for inner, outer in zip(covers, covers[1:]):
                self.beside[inner[2]][outer[2]] = self.beside[outer[2]][inner[2]] = True

    def context(self, fact):
        """A fact's context and its entity in words."""
        instance = self.instances.get(fact.target)
        return instance.contexts.get(fact.context, (['?'], '?')) if instance else (['?'], '?')

    def unit(self, fact):
        instance = self.instances.get(fact.target)
        return instance.units.get(fact.unit, '?') if instance else '?'

    def value(self, fact, size):
        if fact.nil:
            return 'nil'
        if fact.value is not None:
            return cut(fact.value, size)
        choices = ' or '.join(cut(choice, size // 4) for choice in fact.choices[:4])
        return 'not told apart from facts of the same name and context' + (': %s' % choices if choices else '')

    def tip(self, fact):
        """What is told at the mark of a fact."""
        unit = ' ' + self.unit(fact) if fact.unit is not None and not fact.nil else ''
        value = self.value(fact, TIP_SHOWN)
        return '%s = %s%s\n%s: %s' % (fact.shown, value or '(empty)', unit, fact.context, ', '.join(self.context(fact)[0]))

    def link(self, element, text):
        """Where a link of a page leads in its view: to another view, out of it, or nowhere."""
        base = element.page.base
        for above in [*reversed(list(element.ancestors())), element]:
            if (XML, 'base') in above.attributes:
                base = joined(base, above.attributes[XML, 'base'])
        address, _, fragment = joined(base, text.strip(WHITE)).partition('#')
        page = self.addresses.get(address)
        if page is not None:
            return ('' if page is element.page else self.file(element.page, page)) + '#' + fragment
        return text if LEADS_OUT.match(text.strip(WHITE)) else None

    def file(self, page, other):
        """The name of another page's view, as a link of a page's."""
        return urllib.parse.quote(self.files[other.name])

    def id(self, kind, number, part=None):
        return '%s-%s%d' % (self.mark, kind, number) + ('-%d' % part.number if part else '')


def base_of(page, base):
    """The base of a page's links: that of its first xhtml `base`, or its own address."""
    own = urllib.parse.urljoin(base, urllib.parse.quote(page.name))
    hrefs = (element.token('href') for element in page.elements.values() if element.name == (XHTML, 'base'))
    href = next((href for href in hrefs if href is not None), None)
    return own if href is None else joined(own, href)


def joined(base, text):
    try:
        return urllib.parse.urljoin(base, text)
    except ValueError:
        return text


def file_names(names):
    """Of each page the name of its view: its own without what a folder, a link or another system reads otherwise; no two alike."""
    files, taken = {}, set()
    for name in names:
        plain = re.sub(r'\.(?:x?html?|xml)$', '', os.path.normpath(name), flags=re.I)
        plain = re.sub(r'[^\w.-]+', '_', plain).strip('._') or 'page'
        plain = plain.encode()[:180].decode(errors='ignore')
        found, number = plain, 1
        while found.lower() in taken:
            number += 1
            found = '%s-%d' % (plain, number)
        taken.add(found.lower())
        files[name] = found + '.xhtml'
    return files


def facts_told(page):
    return '%d fact%s' % (len(page.facts), 's' * (len(page.facts) != 1))
