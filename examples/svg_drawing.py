"""A drawing in SVG, with a white ground so that it is legible in light and in dark viewers."""
import xml.etree.ElementTree as tree

INK, FAINT, RED = '#1b1f24', '#d0d7de', '#b42318'
SANS = "'DejaVu Sans', Verdana, Arial, sans-serif"
MONO = "'DejaVu Sans Mono', Menlo, Consolas, monospace"


class Drawing:
    """Shapes that are added one upon another, in pixels from the top left."""

    def __init__(self, width, title):
        self.width, self.height = width, 0
        self.root = tree.Element('svg', {'xmlns': 'http://www.w3.org/2000/svg', 'role': 'img'})
        tree.SubElement(self.root, 'title').text = title
        self.ground = tree.SubElement(self.root, 'rect', {'fill': '#ffffff', 'width': '100%', 'height': '100%'})

    def add(self, kind, above, tip=None, **attributes):
        """A shape of the lower edge `above`. A viewer shows the tip where the pointer rests."""
        self.height = max(self.height, above)
        shape = tree.SubElement(self.root, kind, {name.replace('_', '-'): number_text(value)
                                                  for name, value in attributes.items()})
        if tip:
            tree.SubElement(shape, 'title').text = tip
        return shape

    def box(self, x, y, width, height, fill='none', line=INK, tip=None, **more):
        self.add('rect', y + height, tip, x=x, y=y, width=width, height=height, fill=fill, stroke=line, **more)

    def line(self, x, y, to_x, to_y, line=INK, **more):
        self.add('line', max(y, to_y), x1=x, y1=y, x2=to_x, y2=to_y, stroke=line, **more)

    def arrow(self, x, y, to_x, to_y, line=INK):
        """A line with a head, level or upright."""
        self.line(x, y, to_x, to_y, line, stroke_width=1.5)
        back_x, back_y = (0, 7 if to_y > y else -7) if x == to_x else (7 if to_x > x else -7, 0)
        side_x, side_y = (4, 0) if x == to_x else (0, 4)
        tip = [(to_x, to_y), (to_x - back_x - side_x, to_y - back_y - side_y),
               (to_x - back_x + side_x, to_y - back_y + side_y)]
        points = ' '.join(f'{number_text(at_x)},{number_text(at_y)}' for at_x, at_y in tip)
        self.add('polygon', max(y, to_y), points=points, fill=line)

    def text(self, x, y, text, size=13, anchor='start', font=SANS, fill=INK, **more):
        self.add('text', y + size / 3, x=x, y=y, fill=fill, font_family=font, font_size=size, text_anchor=anchor,
                 **more).text = text

    def save(self, path, below=16):
        height = number_text(self.height + below)
        self.root.attrib |= {'width': number_text(self.width), 'height': height,
                             'viewBox': f'0 0 {number_text(self.width)} {height}'}
        tree.indent(self.root)
        tree.ElementTree(self.root).write(path, encoding='utf-8', xml_declaration=True)
        with open(path, 'a', encoding='utf-8') as file:
            file.write('\n')


def number_text(value):
    """A number with at most two decimals, or a text as it is."""
    return value if isinstance(value, str) else f'{value:.2f}'.rstrip('0').rstrip('.')


def text_width(text, size=13):
    """About how wide a text of the fixed-width font is."""
    return len(text) * size * 0.61
