"""What the instances say of each fact: its value, context and unit."""
import os
import re
import tempfile
from collections import Counter, defaultdict
from xml.etree import ElementTree
from xml.parsers import expat

from ixds_view.reading import BETWEEN, Failed, XBRLDI, XBRLI, XSI
from ixds_view.running import run


class Instance:
    """What is read of an instance: contexts and units in words, and what it says of its items, by what their tags say."""

    def __init__(self, path):
        root = tree_of(path)
        self.contexts = {child.get('id'): context_in_words(child) for child in root if child.tag == in_xbrli('context')}
        self.units = {child.get('id'): unit_in_words(child) for child in root if child.tag == in_xbrli('unit')}
        self.by_id, self.alike = {}, defaultdict(list)
        for element in root.iter():
            if element.get('contextRef') is None:
                continue
            accuracy = next(((kind, element.get(kind)) for kind in ('decimals', 'precision') if element.get(kind) is not None), None)
            nil = element.get(XSI + BETWEEN + 'nil') == 'true'
            key = split(element.tag), element.get('contextRef'), element.get('unitRef'), accuracy, nil
            value = ' / '.join(part.text for part in element) if len(element) else element.text or ''
            if element.get('id') is None:
                self.alike[key].append(value)
            else:
                self.by_id[element.get('id')] = key, value


def tree_of(path):
    """The tree of an instance. What parts a namespace from a local name in its tags stands in no namespace, other than what
    ElementTree would put there."""
    parser, tree = expat.ParserCreate(namespace_separator=BETWEEN), ElementTree.TreeBuilder()
    parser.StartElementHandler, parser.EndElementHandler, parser.CharacterDataHandler = tree.start, tree.end, tree.data
    parser.buffer_text = True
    with open(path, 'rb') as file:
        parser.ParseFile(file)
    return tree.close()


def in_xbrli(local):
    return XBRLI + BETWEEN + local


def split(tag):
    space, _, local = tag.rpartition(BETWEEN)
    return space, local


def local_part(text):
    return text.rpartition(':')[2]


def context_in_words(context):
    identifier = next(context.iter(in_xbrli('identifier')))
    dates = [child.text for child in next(context.iter(in_xbrli('period')))]
    words = [' to '.join(dates) if dates != [None] else 'forever']
    dimensions = []
    for element in context.iter():
        space, local = split(element.tag)
        if space == XBRLDI:
            held = element.text if local == 'explicitMember' else element[0].text or ''
            dimensions.append('%s = %s' % (local_part(element.get('dimension')), local_part(held) if local == 'explicitMember' else held))
    return words + dimensions, '%s (%s)' % (identifier.text, identifier.get('scheme'))


def unit_in_words(unit):
    parts = [*unit.iter(in_xbrli('unitNumerator')), *unit.iter(in_xbrli('unitDenominator'))] or [unit]
    parts = [[local_part(measure.text) for measure in part] for part in parts]
    return ' / '.join(' \u00b7 '.join(part) for part in parts)


def instances_of(program, base, names, room=None):
    """What `ixds extract` writes of some pages, by the targets."""
    with tempfile.TemporaryDirectory() as out:
        run(program, ['extract', '--base', base, '--out', out, '--', *names], room)
        found = ((re.fullmatch(r'instance(?:-(.*))?\.xbrl', name, re.S), name) for name in os.listdir(out))
        return {match[1] or '': Instance(os.path.join(out, name)) for match, name in found if match}


def give_values(facts, instances):
    """Gives each fact what its instance says of it: by its id, or where all items like it have one value. Gives those that are left."""
    left = []
    for fact in facts:
        instance = instances.get(fact.target)
        if instance is None:
            continue
        if fact.id is not None:
            key, value = instance.by_id.get(fact.id, (None, None))
            fact.value = value if key == fact.key() else None
            continue
        fact.choices = sorted(set(instance.alike.get(fact.key(), ())))
        if len(fact.choices) == 1:
            fact.value = fact.choices[0]
        elif fact.choices:
            left.append(fact)
    return left


def tell_apart(program, base, facts, pages, instances, mark):
    """Tells apart facts without an id whose instance has several values for what their tags say: copies of the pages, in which they
    have ids, are extracted. What comes of it counts where it is what the instance has of them."""
    ids = {fact.element: '%s-%d' % (mark, fact.number) for fact in facts}
    if any(os.path.isabs(page.name) or '..' in page.name.split('/') for page in pages):
        return
    with tempfile.TemporaryDirectory() as room:
        try:
            for page in pages:
                path = os.path.join(room, page.name)
                os.makedirs(os.path.dirname(path), exist_ok=True)
                with open(path, 'wb') as file:
                    file.write(page.with_ids(ids))
            found = instances_of(program, base, [page.name for page in pages], room)
        except (OSError, Failed):
            return
    seen = defaultdict(list)
    for fact in facts:
        key, value = found[fact.target].by_id.get(ids[fact.element], (None, None)) if fact.target in found else (None, None)
        seen[fact.target, fact.key()].append((fact, value if key == fact.key() else None))
    for (target, key), pairs in seen.items():
        if Counter(value for _, value in pairs) == Counter(instances[target].alike[key]):
            for fact, value in pairs:
                fact.value = value
