"""Pages, and what is read of them: constructs, elements, names."""
import re

IX = 'http://www.xbrl.org/2013/inlineXBRL'
XHTML = 'http://www.w3.org/1999/xhtml'
SVG = 'http://www.w3.org/2000/svg'
XML = 'http://www.w3.org/XML/1998/namespace'
XSI = 'http://www.w3.org/2001/XMLSchema-instance'
XBRLI = 'http://www.xbrl.org/2003/instance'
XBRLDI = 'http://xbrl.org/2006/xbrldi'
ITEMS = frozenset(('nonNumeric', 'nonFraction', 'fraction'))
WHITE = ' \t\r\n'
BETWEEN = '\1'
BYTE_ORDER_MARK = b'\xef\xbb\xbf'
VALUE_SHOWN = 600
TIP_SHOWN = 160
NAMED_IN_LISTS = 12


class Failed(Exception):
    """Ends the run with a status and a line on standard error."""

    def __init__(self, status, line=None):
        super().__init__(line)
        self.status, self.line = status, line


# Reading pages

QUOTED = rb'(?:[^"\'>]|"[^"]*"|\'[^\']*\')*>'
CONSTRUCT = re.compile(
    rb'(?P<text>[^<&]+)|(?P<end></[^>]*>)|(?P<comment><!--.*?-->)|(?P<instruction><\?.*?\?>)|(?P<section><!\[CDATA\[.*?\]\]>)'
    rb'|(?P<doctype><!DOCTYPE' + QUOTED + rb')|(?P<start><[^!?/]' + QUOTED + rb')|(?P<reference>&[^;<&]*;)', re.S)
TAG_NAME = re.compile(rb'<([^\s/>]+)')
ATTRIBUTE = re.compile(rb'\s+([^\s=/>]+)\s*=\s*("[^"]*"|\'[^\']*\')')
SAYS = frozenset(('text', 'reference', 'section'))
NAMED = {'lt': '<', 'gt': '>', 'amp': '&', 'apos': "'", 'quot': '"'}


def referred(name):
    if name.startswith('#x'):
        return chr(int(name[2:], 16))
    return chr(int(name[1:])) if name.startswith('#') else NAMED[name]


def unified(data):
    return data.decode().replace('\r\n', '\n').replace('\r', '\n')


def value_of(quoted):
    """What an attribute's value says, as it is written with its quotes."""
    text = unified(quoted[1:-1]).replace('\t', ' ').replace('\n', ' ')
    return re.sub('&([^;]*);', lambda found: referred(found[1]), text) if '&' in text else text


def named(written, scope, is_element=True):
    """The namespace and the local name of a written name; without a prefix an attribute is in no namespace."""
    prefix, colon, local = written.rpartition(':')
    return (scope.get(prefix, '') if colon or is_element else ''), local


class Element:
    """An element of a page: its tags are the constructs `index` and `last` (the same, where it has one tag)."""

    __slots__ = ('page', 'index', 'last', 'name', 'written', 'attributes', 'scope', 'above')

    def is_ix(self, *locals_):
        return self.name[0] == IX and self.name[1] in locals_

    def token(self, local, space=''):
        value = self.attributes.get((space, local))
        return None if value is None else value.strip(WHITE)

    def ancestors(self):
        above = self.above
        while above is not None:
            yield above
            above = above.above

    @property
    def at(self):
        return self.page.starts[self.index]


def bytes_if_any(name):
    try:
        with open(name, 'rb') as file:
            return file.read()
    except OSError:
        return None


class Page:
    """The constructs of a page, by number: where each starts and ends, and what it is; and its elements by that of their tags."""

    def __init__(self, name):
        self.name = name
        try:
            with open(name, 'rb') as file:
                self.data = file.read()
        except OSError as error:
            raise Failed(3, 'cannot read %s: %s' % (name, error.strerror))
        self.starts, self.ends, self.kinds, self.elements = [], [], [], {}
        self.covers = {}
        try:
            self.cut()
        except (ValueError, KeyError, IndexError):
            raise Failed(3, 'the page %s changed meanwhile' % name)

    def cut(self):
        at, open_elements, scope = len(BYTE_ORDER_MARK) * self.data.startswith(BYTE_ORDER_MARK), [], {'xml': XML}
        while at < len(self.data):
            found = CONSTRUCT.match(self.data, at)
            if found is None:
                raise ValueError
            kind, index = found.lastgroup, len(self.starts)
            self.starts.append(at)
            at = found.end()
            self.ends.append(at)
            self.kinds.append(kind)
            if kind == 'start':
                element = self.element(found[0], index, open_elements[-1] if open_elements else None, scope)
                if not found[0].endswith(b'/>'):
                    open_elements.append(element)
            elif kind == 'end':
                open_elements.pop().last = index
        if open_elements:
            raise ValueError

    def element(self, tag, index, above, scope):
        element = Element()
        element.page, element.index, element.last, element.above = self, index, index, above
        element.written = TAG_NAME.match(tag)[1].decode()
        written = [(name.decode(), value_of(quoted)) for name, quoted in ATTRIBUTE.findall(tag)]
        scope = above.scope if above else scope
        declared = {name[6:]: value for name, value in written if name == 'xmlns' or name.startswith('xmlns:')}
        element.scope = {**scope, **declared} if declared else scope
        element.name = named(element.written, element.scope)
        element.attributes = {named(name, element.scope, False): value for name, value in written
                              if name != 'xmlns' and not name.startswith('xmlns:')}
        self.elements[index] = element
        return element

    def with_ids(self, ids):
        """The bytes of the page, where these elements have ids."""
        out, at = [], 0
        for index, element in self.elements.items():
            if element in ids:
                behind = self.starts[index] + 1 + len(element.written.encode())
                out += [self.data[at:behind], b' id="%s"' % ids[element].encode()]
                at = behind
        return b''.join(out) + self.data[at:]

    def said(self, index):
        """The characters that a construct gives."""
        data = self.data[self.starts[index]:self.ends[index]]
        if self.kinds[index] == 'reference':
            return referred(data[1:-1].decode())
        return unified(data[9:-3] if self.kinds[index] == 'section' else data)
