"""An SVG page and the few shapes that a stack's picture needs."""

from xml.etree import ElementTree

INK = "#1d2733"
PAPER = "#ffffff"


class Drawing:
    """A page that shapes are put on, as high as they need."""

    def __init__(self, width, title):
        self.width = round(width)
        self.root = ElementTree.Element(
            "svg",
            {
                "xmlns": "http://www.w3.org/2000/svg",
                "font-family": "Helvetica, Arial, 'DejaVu Sans', sans-serif",
                "font-size": "12",
                "role": "img",
            },
        )
        ElementTree.SubElement(self.root, "title").text = title
        self.paper = self.shape("rect", {"fill": PAPER})

    def shape(self, tag, attributes, name=None):
        values = {key: f"{v:.1f}" if isinstance(v, float) else str(v) for key, v in attributes.items()}
        if name:
            values["class"] = name
        return ElementTree.SubElement(self.root, tag, values)

    def rect(self, x, y, width, height, fill, name=None, **more):
        self.shape("rect", {"x": x, "y": y, "width": width, "height": height, "fill": fill, **more}, name)

    def line(self, start, end, stroke, width, name=None, **more):
        (x1, y1), (x2, y2) = start, end
        points = {"x1": x1, "y1": y1, "x2": x2, "y2": y2}
        self.shape("line", {**points, "stroke": stroke, "stroke-width": width, **more}, name)

    def circle(self, centre, radius, fill, **more):
        x, y = centre
        self.shape("circle", {"cx": x, "cy": y, "r": radius, "fill": fill, **more})

    def text(self, x, y, words, fill=INK, anchor="start", name=None, **more):
        self.shape("text", {"x": x, "y": y, "fill": fill, "text-anchor": anchor, **more}, name).text = words

    def arrow(self, tip, pointing, fill):
        """A small triangle; pointing is 1 to the right and -1 to the left."""
        x, y = tip
        back = x - 10 * pointing
        points = f"{x:.1f},{y:.1f} {back:.1f},{y - 7:.1f} {back:.1f},{y + 7:.1f}"
        self.shape("polygon", {"points": points, "fill": fill})

    def bytes(self, height):
        """The page, cut at a height."""
        size = {"width": str(self.width), "height": str(round(height))}
        self.paper.attrib.update(size)
        self.root.attrib.update(size, viewBox=f"0 0 {size['width']} {size['height']}")
        ElementTree.indent(self.root, " ")
        return ElementTree.tostring(self.root, "utf-8", xml_declaration=True) + b"\n"
