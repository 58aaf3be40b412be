"""HTML and SVG as a tree of elements: what is put into it is escaped as it is written."""

from xml.etree import ElementTree
from xml.etree.ElementTree import Element


def element(tag: str, *content: 'str | Element', **attributes: object) -> Element:
    """With texts and elements in their order. An attribute class_ is class, text_anchor is
    text-anchor; a float is written with one decimal."""
    made = Element(tag, {name.rstrip('_').replace('_', '-'): (
        f'{value:.1f}' if isinstance(value, float) else str(value))
        for name, value in attributes.items()})
    last = None
    for each in content:
        if isinstance(each, Element):
            made.append(each)
            last = each
        elif last is None:
            made.text = (made.text or '') + each
        else:
            last.tail = (last.tail or '') + each
    return made


def document(root: Element) -> str:
    """Every element has an end tag, without which an empty one would not end in HTML; meta has none
    there."""
    text = ElementTree.tostring(root, encoding='unicode', short_empty_elements=False)
    return f'<!DOCTYPE html>\n{text.replace("></meta>", "/>")}\n'
