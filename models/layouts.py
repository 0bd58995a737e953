"""Draws random layer maps and layouts, and knows what they mean since it drew them."""
from fractions import Fraction

LAYERS = ["A", "B1", "CMF"]
UNKNOWN_LAYER = "Z9"
HIGH, LOW = ["Vdd", "V+"], ["GND"]
NAMES = HIGH + LOW + ["a", "b", "zz", "Y"]

# ---- the layer map


def draw_expression(chance, depth=0):
    kind = chance.random()
    if depth > 2 or kind < 0.6:
        return ("layer", chance.choice(LAYERS))
    if kind < 0.7:
        return ("not", draw_expression(chance, depth + 1))
    sign = "and" if kind < 0.85 else "or"
    return (sign, draw_expression(chance, depth + 1), draw_expression(chance, depth + 1))


def holds(expression, is_present):
    kind, *parts = expression
    if kind == "layer":
        return is_present(parts[0])
    values = [holds(part, is_present) for part in parts]
    return {"not": lambda: not values[0], "and": lambda: all(values), "or": lambda: any(values)}[kind]()


def draw_bounded(chance):
    """An expression that is false where no layer is."""
    while True:
        expression = draw_expression(chance)
        if not holds(expression, lambda layer: False):
            return expression


def spell(expression, chance, tightness=0):
    kind, *parts = expression
    blank = chance.choice(["", "", " ", "\t"])
    if kind == "layer":
        return parts[0]
    if kind == "not":
        return "!" + blank + spell(parts[0], chance, 2)
    sign, own = ("*", 1) if kind == "and" else ("+", 0)
    text = spell(parts[0], chance, own) + blank + sign + blank + spell(parts[1], chance, own + 1)
    return text if tightness <= own else f"({text})"


class Map:
    """Wires with their expressions, cuts, and the wires that labels of a layer may name."""

    def __init__(self, chance):
        names = ["m1", "metal_2", "p"][: chance.randint(1, 3)]
        self.wires = [(name, draw_bounded(chance)) for name in names]
        self.cuts = [(draw_bounded(chance), self.draw_list(chance)) for _ in range(chance.randint(0, 2))]
        self.labels = {layer: self.draw_list(chance) for layer in LAYERS if chance.random() < 0.4}
        lines = [f"wire {name} {spell(expression, chance)}" for name, expression in self.wires]
        lines += [f"cut {spell(expression, chance)} : {self.spell_list(wires)}" for expression, wires in self.cuts]
        lines += [f"label {layer} {self.spell_list(wires)}\r" for layer, wires in self.labels.items()]
        lines += ["# supplies", "high " + " ".join(HIGH), "low " + " ".join(LOW)]
        self.text = "\n".join(lines) + chance.choice(["\n", ""])

    def draw_list(self, chance):
        return [chance.randrange(len(self.wires)) for _ in range(chance.randint(1, 3))]

    def spell_list(self, wires):
        return " ".join(self.wires[wire][0] for wire in wires)


# ---- the layout

# A shape is ("box", layer, corners), ("wire", layer, points, half) or ("polygon", layer, points), a label is
# ("label", name, point, layer), and a call ("call", symbol, steps); coordinates are in mask units. An item is the
# position of its command and one of these.


def moved(point, steps):
    """The point, moved by the steps of calls, the innermost call first."""
    x, y = point
    for kind, *by in steps:
        if kind == "T":
            x, y = x + by[0], y + by[1]
        elif kind == "X":
            x = -x
        elif kind == "Y":
            y = -y
        elif by[1] == 0:
            x, y = (x, y) if by[0] > 0 else (-x, -y)
        else:
            x, y = (-y, x) if by[1] > 0 else (y, -x)
    return x, y


class Layout:
    """The items of the top and of each symbol, and the text that spells them."""

    def __init__(self, chance):
        self.chance, self.text, self.top, self.symbols = chance, "", [], {}
        numbers = list(range(1, chance.randint(0, 3) + 1))
        order = chance.sample(numbers, len(numbers))
        layer = None
        for number in order:
            if chance.random() < 0.3:
                layer = self.draw_items(self.top, 1, (1, 1), numbers, layer)
            self.draw_symbol(number)
        self.draw_items(self.top, chance.randint(3, 12), (1, 1), numbers, layer)
        self.text += chance.choice(["E", "End", "E; and more"])

    def draw_symbol(self, number):
        scale = self.chance.choice([(1, 1), (2, 1), (1, 2), (3, 1)])
        self.put(f"DS {number}" + ("" if scale == (1, 1) else self.spell_numbers(scale)))
        self.symbols[number] = []
        self.draw_items(self.symbols[number], self.chance.randint(0, 4), scale, list(range(1, number)), None)
        self.put("DF")

    def spell_numbers(self, numbers):
        return "".join(self.chance.choice([" ", ",", " x ", "Q", " \n"]) + str(number) for number in numbers)

    def put(self, command):
        if self.chance.random() < 0.1:
            self.text += self.chance.choice(["(a note (in a note););", "9 text;", ";", "\n"])
        position = len(self.text)
        self.text += command + ";" + self.chance.choice(["", " "])
        return position

    def draw_items(self, items, count, scale, callees, layer):
        """Adds items to the list, on this layer at first. The answer is the layer that is current after them."""
        for _ in range(count):
            if layer is None or self.chance.random() < 0.15:
                layer = self.chance.choice(LAYERS + [UNKNOWN_LAYER])
                self.put("L" + self.chance.choice(["", " "]) + layer)
            draw = self.chance.choices(
                [self.draw_box, self.draw_wire, self.draw_polygon, self.draw_label, self.draw_call],
                [45, 15, 12, 18, 10 if callees else 0],
            )[0]
            # A factor of 1/2 asks for even numbers.
            step = scale[1]
            items.append(draw(Fraction(2 * scale[0], scale[1]), step, layer, callees))
        return layer

    def number(self, step, least=-9, most=9):
        return self.chance.randint(least, most) * step

    def draw_box(self, factor, step, layer, _):
        length, width = self.number(step, 0, 8), self.number(step, 0, 8)
        x, y = self.number(step), self.number(step)
        direction = self.chance.choice([(), (), (1, 0), (0, 1), (0, -3), (-2, 0)])
        position = self.put("B" + self.spell_numbers((length, width, x, y) + direction))
        if direction and direction[0] == 0:
            length, width = width, length
        half = factor / 2
        low = ((2 * x - length) * half, (2 * y - width) * half)
        high = ((2 * x + length) * half, (2 * y + width) * half)
        return position, ("box", layer, [low, high])

    def draw_path(self, step, turns):
        points = [[self.number(step), self.number(step)]]
        for turn in range(turns):
            point = list(points[-1])
            point[turn % 2] = self.number(step)
            points.append(point)
        return points

    def spell_path(self, points):
        return self.spell_numbers([coordinate for point in points for coordinate in point])

    def draw_wire(self, factor, step, layer, _):
        width = self.number(step, 0, 4)
        points = self.draw_path(step, self.chance.randint(0, 3))
        position = self.put("W" + self.spell_numbers([width]) + self.spell_path(points))
        return position, ("wire", layer, [(x * factor, y * factor) for x, y in points], width * factor / 2)

    def draw_polygon(self, factor, step, layer, _):
        points = self.draw_path(step, 2 * self.chance.randint(1, 4))
        if points[-1][0] != points[0][0] and points[-1][1] != points[0][1]:
            points.append([points[0][0], points[-1][1]])
        position = self.put("P" + self.spell_path(points))
        return position, ("polygon", layer, [(x * factor, y * factor) for x, y in points])

    def draw_label(self, factor, step, _, __):
        name, x, y = self.chance.choice(NAMES), self.number(step), self.number(step)
        layer = self.chance.choice([None, None] + LAYERS)
        position = self.put(f"94 {name} {x} {y}" + (f" {layer}" if layer else ""))
        return position, ("label", name, (x * factor, y * factor), layer)

    def draw_call(self, factor, step, _, callees):
        symbol, steps, text = self.chance.choice(callees), [], ""
        for _ in range(self.chance.randint(0, 3)):
            kind = self.chance.choice("TTXYR")
            if kind == "T":
                x, y = self.number(step), self.number(step)
                steps.append(("T", x * factor, y * factor))
                text += " T" + self.spell_numbers((x, y))
            elif kind == "R":
                direction = self.chance.choice([(1, 0), (0, 1), (-1, 0), (0, -1), (5, 0), (0, -7)])
                steps.append(("R",) + direction)
                text += " R" + self.spell_numbers(direction)
            else:
                steps.append((kind,))
                text += " M" + self.chance.choice(["", " "]) + kind
        return self.put(f"C {symbol}{text}"), ("call", symbol, steps)

    def unfolded(self):
        """All shapes and labels, each with its position, the steps that move it, and its depth."""

        def unfold(items, steps, depth):
            for position, item in items:
                if item[0] == "call":
                    yield from unfold(self.symbols[item[1]], item[2] + steps, depth + 1)
                else:
                    yield position, item, steps, depth

        return list(unfold(self.top, [], 0))
