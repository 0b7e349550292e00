# `match`, with sequences, guards and f-strings.
def area(shape):
    match shape:
        case ["square", side] if side > 0:
            return side * side
        case ["rectangle", width, height]:
            return width * height
        case "point" | "line":
            return 0
        case _:
            return None

for shape in (["square", 3], ["rectangle", 2, 5], "line", ["square", -1]):
    print(f"{shape}: {area(shape)}")
