"""Panels of lines on axes of powers, as a PNG, by Python's own library alone."""
import math
import struct
import zlib

# Per letter five rows of three dots, each row an octal digit.
LETTERS = {
    **dict(zip("0123456789", "75557 26227 61247 61216 55711 74616 34757 71122 75757 75716".split())),
    **dict(zip("abcdefghijklm",
               "25755 65656 34443 65556 74647 74644 34553 55755 72227 11152 55655 44447 57755".split())),
    **dict(zip("nopqrstuvwxyz",
               "65555 25552 65644 25563 65655 34216 72222 55557 55552 55775 55255 55222 71247".split())),
    **dict(zip(" .,-^/:+", "00000 00002 00024 00700 25000 11244 02020 02720".split())),
}
PAPER, INK, GRID, SLOPE = 0, 1, 2, 3
COLOURS = [(255, 255, 255), (40, 40, 40), (228, 228, 228), (170, 170, 170),
           (24, 90, 180), (210, 90, 20), (40, 140, 60)]


class Image:
    """Dots of colours, by their number."""

    def __init__(self, wide, high):
        self.lines = [bytearray(wide) for _ in range(high)]

    def dot(self, x, y, colour):
        if 0 <= y < len(self.lines) and 0 <= x < len(self.lines[0]):
            self.lines[y][x] = colour

    def line(self, start, end, colour, thick=1, dashed=False):
        (x0, y0), (x1, y1) = start, end
        steps = max(1, round(2 * max(abs(x1 - x0), abs(y1 - y0))))
        for k in range(steps + 1):
            if dashed and k // 8 % 2:
                continue
            x, y = round(x0 + (x1 - x0) * k / steps), round(y0 + (y1 - y0) * k / steps)
            for j in range(thick):
                self.dot(x, y + j, colour)
                self.dot(x + j, y, colour)

    def mark(self, x, y, colour):
        for j in range(-2, 4):
            for i in range(-2, 4):
                self.dot(round(x) + i, round(y) + j, colour)

    def text(self, x, y, words, colour=INK, scale=2):
        for letter in words.lower():
            for row, bits in enumerate(LETTERS[letter]):
                for column in range(3):
                    if int(bits, 8) >> (2 - column) & 1:
                        for k in range(scale * scale):
                            self.dot(x + column * scale + k % scale, y + row * scale + k // scale, colour)
            x += 4 * scale

    def png(self):
        head = struct.pack(">IIBBBBB", len(self.lines[0]), len(self.lines), 8, 3, 0, 0, 0)
        table = bytes(part for colour in COLOURS for part in colour)
        dots = zlib.compress(b"".join(b"\0" + bytes(line) for line in self.lines), 9)
        chunks = [(b"IHDR", head), (b"PLTE", table), (b"IDAT", dots), (b"IEND", b"")]
        return b"\x89PNG\r\n\x1a\n" + b"".join(
            struct.pack(">I", len(data)) + kind + data + struct.pack(">I", zlib.crc32(kind + data))
            for kind, data in chunks)


class Panel:
    """One box of axes: x in powers of a base, y in powers of 10."""

    def __init__(self, image, corner, size, base):
        self.image, self.corner, self.size, self.base = image, corner, size, base

    def frame(self, xs, ys):
        self.low_x, self.high_x = math.log(min(xs), self.base), math.log(max(xs), self.base)
        self.low_y, self.high_y = math.floor(math.log10(min(ys))), math.ceil(math.log10(max(ys)))
        (x, y), (wide, high) = self.corner, self.size
        for k in range(self.low_y, self.high_y + 1):
            at = self.place(self.base ** self.low_x, 10.0 ** k)[1]
            self.image.line((x, at), (x + wide, at), GRID)
            name = power(10, k)
            self.image.text(x - 4 - 8 * len(name), round(at) - 5, name)
        ticks = range(math.ceil(self.low_x - 1e-9), math.floor(self.high_x + 1e-9) + 1)
        for k in list(ticks)[::max(1, len(ticks) // 4)]:
            at = self.place(self.base ** k, 10.0 ** self.low_y)[0]
            self.image.line((at, y), (at, y + high), GRID)
            name = power(self.base, k)
            self.image.text(round(at) - 4 * len(name) + 1, y + high + 6, name)

    def place(self, x, y):
        (left, top), (wide, high) = self.corner, self.size
        along = (math.log(x, self.base) - self.low_x) / (self.high_x - self.low_x)
        up = (math.log10(y) - self.low_y) / (self.high_y - self.low_y)
        return left + along * wide, top + high - up * high

    def slope(self, points):
        """The line that is proportional to x, through the last point."""
        x, y = points[-1]
        first = max(points[0][0], x * 10.0 ** self.low_y / y)
        self.image.line(self.place(first, y * first / x), self.place(x, y), SLOPE, dashed=True)

    def curve(self, points, colour):
        places = [self.place(x, y) for x, y in points]
        for start, end in zip(places, places[1:]):
            self.image.line(start, end, colour, thick=2)
        for x, y in places:
            self.image.mark(x, y, colour)


def power(base, k):
    if k < 0:
        return f"{float(base) ** k:.{-k}f}".lstrip("0")
    return str(base ** k) if base ** k <= 1000 else f"{base}^{k}"


def panels(groups, columns=3):
    """A picture: each group is a title, the base of x, and curves, each with a name and its points.

    A curve of seconds has a dashed line, which is proportional to x, through its last point.
    """
    wide, high = 250, 180
    rows = -(-len(groups) // columns)
    image = Image(columns * (wide + 70) + 10, rows * (high + 80) + 10)
    for k, (title, base, curves) in enumerate(groups):
        x, y = 55 + k % columns * (wide + 70), 40 + k // columns * (high + 80)
        panel = Panel(image, (x, y), (wide, high), base)
        panel.frame([it for _, points in curves for it, _ in points], [it for _, points in curves for _, it in points])
        image.text(x, y - 34, title)
        at = x
        for colour, (name, points) in enumerate(curves, 4):
            if name.startswith("s"):
                panel.slope(points)
            panel.curve(points, colour)
            image.text(at, y - 17, name, colour)
            at += 8 * len(name) + 16
    return image.png()
