"""The facts of a set, as the trace tells them, and the texts that they go on with."""
import re
from collections import defaultdict

from ixds_view.reading import Failed, ITEMS, IX, SAYS, XSI, named


class Fact:
    """An item of the pages, with what its tag says, and what was traced of it."""

    __slots__ = ('number', 'element', 'name', 'target', 'context', 'unit', 'accuracy', 'id', 'nil', 'hidden', 'parts', 'said', 'value',
                 'choices')

    def __init__(self, number, element):
        token = element.token
        self.number, self.element = number, element
        self.name = named(token('name') or '', element.scope)
        self.target, self.context, self.unit, self.id = token('target') or '', token('contextRef'), token('unitRef'), token('id')
        self.nil = token('nil', XSI) in ('true', '1')
        self.accuracy = None
        if element.name[1] == 'nonFraction' and not self.nil:
            self.accuracy = accuracy_of(token('decimals'), token('precision'))
        self.hidden = any(above.is_ix('hidden') for above in element.ancestors())
        self.parts, self.said, self.value, self.choices = [], '', None, ()

    @property
    def shown(self):
        """Its name as it is written on its page."""
        return self.element.token('name')

    def key(self):
        """What an instance has of its tag."""
        return self.name, self.context, self.unit, self.accuracy, self.nil


def accuracy_of(decimals, precision):
    """What the instance says of an accuracy: the attribute, and the number in normal form."""
    kind, number = ('decimals', decimals) if decimals is not None else ('precision', precision)
    return kind, str(int(number)) if re.fullmatch('[+-]?[0-9]+', number or '') else number


class Chains:
    """The text elements of items: those whose text an item's is."""

    def __init__(self, pages):
        self.continuations, self.parts, self.inner = {}, defaultdict(dict), {}
        for page in pages:
            for element in page.elements.values():
                if element.is_ix('continuation'):
                    self.continuations[element.token('id')] = element
                elif element.is_ix('numerator', 'denominator'):
                    owner = next((above for above in element.ancestors() if above.name[0] == IX), None)
                    self.parts[owner][element.name[1]] = element
                elif element.is_ix('nonFraction') and element.above is not None and element.above.is_ix('nonFraction'):
                    self.inner.setdefault(element.above, element)

    def of(self, element):
        if element.is_ix('fraction'):
            parts = self.parts[element]
            return [parts[local] for local in ('numerator', 'denominator') if local in parts]
        if element.is_ix('nonFraction'):
            while element in self.inner:
                element = self.inner[element]
            return [element]
        chain, seen = [], set()
        while element is not None and element not in seen:
            chain.append(element)
            seen.add(element)
            element = self.continuations.get(element.token('continuedAt'))
        return chain


class Part:
    """One text element of a fact in which it has spans: its number among them, from 1, and where it is marked in its view. Number 0 is
    the fact's own element, where it has no text in it."""

    __slots__ = ('number', 'element', 'place')

    def __init__(self, number, element):
        self.number, self.element, self.place = number, element, None


def within(element, other):
    return element.page is other.page and other.index <= element.index <= other.last


def traced(text, pages, chains):
    """The facts, each with its spans, from what `ixds trace` says of the pages. Page names may hold anything, and so may
    namespaces, so each line is read by what its page says at its place: the items in their order are told before."""
    by_name = {page.name: page for page in pages}
    names = '|'.join(re.escape(name) for name in sorted(by_name, key=len, reverse=True))
    span = re.compile('(?:, | )(%s):([0-9]+)-([0-9]+)' % names)
    facts, at = [], 0
    for page in pages:
        page.index_at = {start: index for index, start in enumerate(page.starts)}
    for page in sorted(pages, key=lambda page: page.name.encode()):
        for element in page.elements.values():
            if not (element.name[0] == IX and element.name[1] in ITEMS):
                continue
            fact = Fact(len(facts) + 1, element)
            head = '%s:%d {%s}%s:' % (page.name, element.at, *fact.name)
            if not text.startswith(head, at):
                raise Failed(3, 'the page %s changed meanwhile' % page.name)
            at += len(head)
            if fact.nil:
                at += len(' nil') if text.startswith(' nil\n', at) else 0
            else:
                at = read_spans(fact, text, at, span, by_name, chains.of(element))
            if not text.startswith('\n', at):
                raise Failed(3, 'the page %s changed meanwhile' % page.name)
            at += 1
            facts.append(fact)
    if at != len(text):
        raise Failed(3, 'the pages changed meanwhile')
    return facts


def read_spans(fact, text, at, span, by_name, elements):
    """Reads the spans of one line, and lays them over their pages. Gives where they end."""
    said, near = [], 0
    found = span.match(text, at)
    while found:
        at = found.end()
        page, start, end = by_name[found[1]], int(found[2]), int(found[3])
        index = page.index_at.get(start)
        if index is None or page.ends[index] != end or page.kinds[index] not in SAYS:
            raise Failed(3, 'the page %s changed meanwhile' % page.name)
        while near < len(elements) and not (elements[near].page is page and elements[near].index < index < elements[near].last):
            near += 1
        if near == len(elements):
            raise Failed(3, 'the page %s changed meanwhile' % page.name)
        if not fact.parts or fact.parts[-1].element is not elements[near]:
            fact.parts.append(Part(len(fact.parts) + 1, elements[near]))
        part = fact.parts[-1]
        page.covers.setdefault(index, []).append((part.element.index, fact.element.index if fact.element.page is page else -1, fact, part))
        said.append(page.said(index))
        found = span.match(text, at)
    fact.said = ''.join(said)
    return at
