"""Pages of a shape, for measuring: usual ones (tables of numbers, escaped texts, hidden facts, placed words, the sample's pages), and
ones that are made to be dear.

usage: shapes.py SHAPE NUMBER.. FOLDER        writes the pages of a shape into a folder, which is made where it isn't there
"""
import os
import random
import sys

OPEN = (
    '<?xml version="1.0" encoding="UTF-8"?>\n<html xmlns="http://www.w3.org/1999/xhtml"'
    ' xmlns:ix="http://www.xbrl.org/2013/inlineXBRL" xmlns:ixt="http://www.xbrl.org/inlineXBRL/transformation/2020-02-12"'
    ' xmlns:link="http://www.xbrl.org/2003/linkbase" xmlns:xlink="http://www.w3.org/1999/xlink"'
    ' xmlns:xbrli="http://www.xbrl.org/2003/instance" xmlns:xbrldi="http://xbrl.org/2006/xbrldi"'
    ' xmlns:iso4217="http://www.xbrl.org/2003/iso4217" xmlns:g="http://taxonomy.example/2023" xmlns:m="http://example.com/m"'
    ' xml:lang="en-US"><head><title>Annual report</title></head><body><div style="display:none"><ix:header>'
)
REFERENCES = '<ix:references><link:schemaRef xlink:type="simple" xlink:href="m.xsd"/></ix:references>'
UNIT = '<xbrli:unit id="usd"><xbrli:measure>iso4217:USD</xbrli:measure></xbrli:unit>'
CLOSE = '</body></html>\n'
WORDS = (
    'the company recognises revenue when control of goods or services is transferred to customers in an amount that reflects the'
    ' consideration to which it expects to be entitled in exchange for those goods and services'
).split()
CHANCE = random.Random(7)


def prose(size):
    """Words, at least so many bytes of them."""
    words, length = [], 0
    while length < size:
        words.append(CHANCE.choice(WORDS))
        length += len(words[-1]) + 1
    return ' '.join(words)


def context(name, dimensions=0):
    members = ''.join(f'<xbrldi:explicitMember dimension="g:Axis{k}">m:{name}</xbrldi:explicitMember>' for k in range(dimensions))
    segment = f'<xbrli:segment>{members}</xbrli:segment>' if members else ''
    return (
        f'<xbrli:context id="{name}"><xbrli:entity><xbrli:identifier scheme="http://example.com/ids">42</xbrli:identifier>{segment}'
        '</xbrli:entity><xbrli:period><xbrli:startDate>2022-10-01</xbrli:startDate><xbrli:endDate>2023-09-30</xbrli:endDate>'
        '</xbrli:period></xbrli:context>'
    )


def frame(contexts=('c',), hidden='', more='', dimensions=0):
    """What stands in front of a page's contents."""
    own = ''.join(context(name, dimensions if k else 0) for k, name in enumerate(contexts))
    return [OPEN, hidden, REFERENCES, f'<ix:resources>{own}{UNIT}{more}</ix:resources></ix:header></div>']


def fact(number, attributes='', text='x'):
    return f'<ix:nonNumeric name="m:T" contextRef="c" id="f{number}"{attributes}>{text}</ix:nonNumeric>'


# Usual pages.


def sample(facts):
    """The pages of `ixds sample`: texts in four pages, each of which goes on in another page."""
    start = (
        '<p xmlns:ix="http://www.xbrl.org/2013/inlineXBRL" xmlns:link="http://www.xbrl.org/2003/linkbase"'
        ' xmlns:xlink="http://www.w3.org/1999/xlink" xmlns:xbrli="http://www.xbrl.org/2003/instance"'
        ' xmlns:s="http://sample.example/s">'
    )
    head = (
        '<ix:header><ix:references><link:schemaRef xlink:type="simple" xlink:href="s.xsd"/></ix:references><ix:resources>'
        '<xbrli:context id="c"><xbrli:entity><xbrli:identifier scheme="http://sample.example/">1</xbrli:identifier></xbrli:entity>'
        '<xbrli:period><xbrli:forever/></xbrli:period></xbrli:context></ix:resources></ix:header>'
    )
    pages = [[start] for _ in range(4)]
    pages[0].append(head)
    for i in range(1, facts + 1):
        pages[i % 4].append(f'<ix:nonNumeric name="s:T" contextRef="c" id="f{i}" continuedAt="k{i}">a{i}</ix:nonNumeric>')
        pages[(i + 1) % 4].append(f'<ix:continuation id="k{i}">b{i}</ix:continuation>')
    return [page + ['</p>\n'] for page in pages]


def tables(facts):
    """Numbers in tables as report tools write them, with styles, in 400 contexts of two dimensions."""
    names = [f'c{k}' for k in range(400)]
    page, number = frame(names, dimensions=2), 0
    style = 'color:#000000;font-family:\'Helvetica\',sans-serif;font-size:9pt;font-weight:400;line-height:100%'
    while number < facts:
        page.append('<div><table style="border-collapse:collapse;display:inline-table;width:100%">')
        for _ in range(20):
            page.append(f'<tr><td colspan="3" style="padding:2px 1pt;text-align:left"><span style="{style}">{prose(30)}</span></td>')
            for _ in range(3):
                value = '%d,%03d' % (CHANCE.randrange(1, 999), CHANCE.randrange(1000))
                page.append(
                    f'<td style="padding:0 1pt"></td><td colspan="3" style="background-color:#cceeff;text-align:right"><span style='
                    f'"{style}"><ix:nonFraction unitRef="usd" contextRef="{names[number % 400]}" decimals="-6" scale="6"'
                    f' format="ixt:num-dot-decimal" name="g:Item{number % 400}" id="f{number}">{value}</ix:nonFraction></span></td>'
                )
                number += 1
            page.append('</tr>')
        page.append('</table></div>')
    return [page + [CLOSE]]


def blocks(count, size):
    """Escaped texts of so many bytes, in four pieces each, with styled spans, links and numbers in them."""
    page, number = frame(), 0
    for block in range(count):
        for piece in range(4):
            on = f' continuedAt="b{block}-{piece + 1}"' if piece < 3 else ''
            page.append(
                f'<ix:continuation id="b{block}-{piece}"{on}>' if piece else
                f'<ix:nonNumeric contextRef="c" name="g:Block{block}" id="t{block}" escape="true"{on}>'
            )
            length = 0
            while length < size // 4:
                number += 1
                part = (
                    f'<div style="text-align:justify"><span style="font-size:9pt;line-height:120%">{prose(400)} <a href="#x{number}">'
                    f'see note</a> &amp; $<ix:nonFraction unitRef="usd" contextRef="c" decimals="-6" scale="6" name="g:N{number % 300}"'
                    f' format="ixt:num-dot-decimal" id="n{number}">{number}</ix:nonFraction> million.</span></div>'
                )
                page.append(part)
                length += len(part)
            page.append('</ix:continuation>' if piece else '</ix:nonNumeric>')
    return [page + [CLOSE]]


def hidden(facts):
    """Hidden facts of a format with a fixed value."""
    own = ''.join(
        f'<ix:nonNumeric contextRef="c{i % 50}" name="g:H{i % 300}" id="h{i}" format="ixt:fixed-true">X</ix:nonNumeric>' for i in range(facts)
    )
    return [frame([f'c{k}' for k in range(50)], f'<ix:hidden>{own}</ix:hidden>') + [CLOSE]]


def words(facts):
    """Each word in a span of its own, as pages that were made from a print are, with a number in every tenth line."""
    page, number = frame(), 0
    while number < facts:
        page.append('<div class="pf w0 h0"><div class="pc w0 h0">')
        for line in range(60):
            page.append(f'<div class="t m0 x{line % 9} h4 y{line} ff2 fs3 fc0 sc0 ls4 ws2">')
            page += [f'<span class="_ _{k}"> </span>{CHANCE.choice(WORDS)}' for k in range(12)]
            if line % 10 == 0:
                page.append(
                    f'<ix:nonFraction unitRef="usd" contextRef="c" decimals="0" format="ixt:num-dot-decimal" name="m:N{number % 500}"'
                    f' id="f{number}">{number}</ix:nonFraction>'
                )
                number += 1
            page.append('</div>')
        page.append('</div></div>')
    return [page + [CLOSE]]


# Pages that are made to be dear.


def bases(depth, size, facts):
    """Escaped facts with a link each, within so many elements that have an `xml:base` of so many bytes each."""
    link = '<a href="x">l</a>'
    inside = [fact(i, ' escape="true"', link) for i in range(facts)]
    return [frame() + ['<div xml:base="%s/">' % ('a' * size)] * depth + inside + ['</div>'] * depth + [CLOSE]]


def base(size, links):
    """So many links in one escaped fact, below one base of so many bytes."""
    own = '<div xml:base="http://example.com/%s/">' % ('a' * size)
    return [frame() + [fact(0, ' escape="true"', own + ''.join(f'<a href="x{i}">l</a>' for i in range(links)) + '</div>'), CLOSE]]


def folded(one, other):
    """Two numbers as the library's hash makes one of them: the halves of their product, joined."""
    product = one * other
    return product & (1 << 64) - 1 ^ product >> 64


def falling_together(count):
    """Ids that the library's hash, whose seed is fixed, takes for one: the third word of each is the state behind the first two. Without
    their last two bytes they are of one class among 4,096."""
    fixed, turned = 0x243F6A8885A308D3, 0x9E3779B97F4A7C15
    fitting = b'abcdefghijklmnopqrstuvwxyzABCDEFGHIJKLMNOPQRSTUVWXYZ0123456789_-.'
    chance = random.Random(1)

    def word(text, at):
        return int.from_bytes(text[at : at + 8], 'little')

    def mixed(text, at, state):
        return folded(word(text, at) ^ state, word(text, at + 8) ^ turned)

    while True:
        front = bytes(chance.choice(b'abcdefghijklmnopqrstuvwxyz') for _ in range(16))
        state = mixed(front, 0, fixed + 32).to_bytes(8, 'little')
        if all(byte in fitting for byte in state):
            break
    ids, number, wanted = [], 0, None
    while len(ids) < count:
        own = front + state + b'%06d' % number
        found = mixed(own, 14, mixed(own, 0, fixed + 30)) % 4096
        if found == (found if wanted is None else wanted):
            wanted = found
            ids += [(own + bytes((one, other))).decode() for one in fitting for other in fitting]
        number += 1
    return ids[:count]


def collide(count):
    """Facts with ids that fall together."""
    return [frame() + [f'<ix:nonNumeric name="m:T" contextRef="c" id="{own}">x</ix:nonNumeric>' for own in falling_together(count)] + [CLOSE]]


def decls(around, elements):
    """So many declarations around so many elements with one each."""
    own = ''.join(f' xmlns:p{i}="u{i}"' for i in range(around))
    return [frame() + [f'<div{own}>'] + ['<b xmlns:q="u"/>'] * elements + ['</div>', CLOSE]]


def namespaces(size, elements):
    """Elements of an escaped text below a default namespace of so many bytes."""
    return [frame() + [fact(0, ' escape="true"', '<x xmlns="u:%s">' % ('n' * size) + '<b/>' * elements + '</x>'), CLOSE]]


def prefixed(size, elements):
    """Elements with an attribute each whose namespace has so many bytes."""
    return [frame() + ['<p xmlns:a="u:%s">' % ('n' * size) + '<b a:x="1"/>' * elements + '</p>', CLOSE]]


def chain(length):
    """One text that goes on so many times."""
    page = frame() + [fact(0, ' continuedAt="k1"')]
    for i in range(1, length + 1):
        page.append('<ix:continuation id="k%d"%s>b</ix:continuation>' % (i, f' continuedAt="k{i + 1}"' if i < length else ''))
    return [page + [CLOSE]]


def circle(length):
    """So many continuations that go on at each other in a circle."""
    return [frame() + [f'<ix:continuation id="k{i}" continuedAt="k{i % length + 1}">b</ix:continuation>' for i in range(1, length + 1)] + [CLOSE]]


def one_chain(count):
    """Texts that each go on at one of as many continuations, which go on at each other, all inside the last one."""
    starts = [fact(i, f' continuedAt="d{i}"') for i in range(1, count + 1)]
    inner = ''.join(f'<ix:continuation id="d{i}" continuedAt="d{i - 1}">y</ix:continuation>' for i in range(2, count + 1))
    return [frame() + starts + [f'<ix:continuation id="d1">{inner}</ix:continuation>', CLOSE]]


def members(count):
    """The members of one tuple, from the last to the first."""
    return [frame() + ['<ix:tuple name="m:Tup" id="t">'] + [fact(i, f' order="{count - i}"') for i in range(count)] + ['</ix:tuple>', CLOSE]]


def tuples(depth, count):
    """Tuples within each other, each with so many members."""
    page = frame()
    for level in range(depth):
        page.append('<ix:tuple name="m:Tup" id="t%d"%s>' % (level, ' order="0"' if level else ''))
        page += [fact(level * count + i, f' order="{i + 1}"') for i in range(count)]
    return [page + ['</ix:tuple>'] * depth + [CLOSE]]


def relations(count, facts):
    """So many relationships over the same facts and one footnote."""
    one = '<ix:relationship fromRefs="%s" toRefs="fn"/>' % ' '.join(f'f{i}' for i in range(facts))
    return [frame(more=one * count) + [fact(i) for i in range(facts)] + ['<ix:footnote id="fn">note</ix:footnote>', CLOSE]]


def attributes(count):
    """One element with so many attributes."""
    return [frame() + ['<p' + ''.join(f' a{i}="v"' for i in range(count)) + '/>', CLOSE]]


def deep(depth, facts):
    """Facts within so many elements."""
    return [frame() + ['<div>'] * depth + [fact(i) for i in range(facts)] + ['</div>'] * depth + [CLOSE]]


def broken(count):
    """So many facts that break rules."""
    return [frame() + ['<ix:nonNumeric/>'] * count + [CLOSE]]


SHAPES = (
    sample, tables, blocks, hidden, words, bases, base, collide, decls, namespaces, prefixed, chain, circle, one_chain, members, tuples,
    relations, attributes, deep, broken,
)


def write(shape, numbers, folder):
    """Writes the pages of a shape, and gives their paths."""
    os.makedirs(folder, exist_ok=True)
    paths = []
    for k, parts in enumerate({s.__name__: s for s in SHAPES}[shape](*numbers)):
        paths.append(os.path.join(folder, f'p{k}.html'))
        with open(paths[-1], 'w', encoding='utf-8') as out:
            out.writelines(parts)
    return paths


if __name__ == '__main__':
    if len(sys.argv) < 3:
        sys.exit(__doc__.strip())
    write(sys.argv[1], [int(number) for number in sys.argv[2:-1]], sys.argv[-1])
