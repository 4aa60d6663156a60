"""Texts as they are shown."""
import html
import re


def unused(pages):
    """A name that stands on none of the pages, nor in a value that references say: the view's own prefix, and the front of its ids and
    classes."""
    mark = 'ixds'
    attributes = (element.attributes for page in pages for element in page.elements.values())
    values = ''.join(value for found in attributes for value in found.values() if mark in value)
    while mark in values or any(mark.encode() in page.data for page in pages):
        mark = 'ixds%d' % (int(mark[4:] or 0) + 1)
    return mark


def text_of(text):
    return html.escape(text, False).replace('\r', '&#13;')


def value_text(text):
    """A text as it stands in an attribute."""
    return html.escape(text).replace('\n', '&#10;').replace('\t', '&#9;').replace('\r', '&#13;')


def cut(text, size):
    return text if len(text) <= size else '%s\u2026 (%d characters)' % (text[:size], len(text))


def shown_characters(text):
    """A text with no character that XML doesn't have."""
    return re.sub('[^\t\n\r -\ud7ff\ue000-\ufffd\U00010000-\U0010ffff]', '\ufffd', text)
