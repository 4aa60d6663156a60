"""What of a page runs or loads, which is taken out."""
import re

from ixds_view.reading import IX

# In whatever namespace: elements in whose place stands one that isn't displayed, and those in whose place stands one that does
# nothing.
GONE = frozenset("""animate animatecolor animatemotion animatetransform applet base bgsound discard embed fencedframe feimage frame handler
    iframe link listener meta param portal script set source template track""".split())
INERT = frozenset('audio canvas datalist frameset noembed noframes noscript object optgroup option select textarea video'.split())
DROPPED = frozenset("""action actuate archive attributionsrc autofocus autoplay background base classid codebase data download dynsrc
    formaction http-equiv imagesrcset lowsrc manifest nonce ping popovertarget poster profile shadowrootmode src srcdoc srcset
    target""".split())
UNSHOWN = frozenset(('head', 'style', 'title'))
PICTURE = re.compile(r'data:image/(?:png|jpe?g|gif|webp|bmp|avif|svg\+xml)[;,]', re.I)
LEADS_OUT = re.compile(r'(?:https?|mailto|tel):', re.I)
RUNS = re.compile(r'(?:java|vb|live)script:|data:text/', re.I)


def is_in(element, names):
    return element.name[0] != IX and element.name[1].lower() in names


def kept(element, local, value, link):
    """The value of an attribute as it goes into the view, None where it is left out. `link` tells where a link leads there."""
    name = local.lower()
    said = re.sub('[\0- ]', '', value)
    if name == 'src' and element.name[1].lower() in ('img', 'input') and PICTURE.match(said):
        return value
    if name.startswith('on') or name in DROPPED and element.name[0] != IX or RUNS.search(said):
        return None
    if name != 'href' or said.startswith('#'):
        return value
    if element.name[1].lower() in ('a', 'area'):
        return link(element, value)
    return value if element.name[1].lower() == 'image' and PICTURE.match(said) else None
