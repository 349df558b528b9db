"""Messages that a scene repeats: `{ repeat = 64, submit = "1.1", answers = "i", .. }`, with the number i
of the repeat in numbers (`"8 * i % 900"`) and in texts (`"1.{i}"`)."""

import ast
import operator
import re

from .wrong import Wrong

MOST = 4096
ARITHMETIC = re.compile(r"[0-9i+*/%() -]*")
SYMBOLS = {ast.Add: operator.add, ast.Sub: operator.sub, ast.Mult: operator.mul, ast.Div: operator.floordiv,
           ast.FloorDiv: operator.floordiv, ast.Mod: operator.mod}


def number(text, i):
    """The value of whole numbers and i with + - * / % and brackets."""
    def value(node):
        if isinstance(node, ast.BinOp) and type(node.op) in SYMBOLS:
            return SYMBOLS[type(node.op)](value(node.left), value(node.right))
        if isinstance(node, ast.UnaryOp) and isinstance(node.op, ast.USub):
            return -value(node.operand)
        if isinstance(node, ast.Name) and node.id == "i":
            return i
        if isinstance(node, ast.Constant) and type(node.value) is int:
            return node.value
        raise SyntaxError
    try:
        return value(ast.parse(text.strip(), mode="eval").body)
    except (SyntaxError, ValueError, RecursionError, MemoryError):
        raise Wrong("%r is no number: whole numbers and i with + - * / %% and brackets" % text) from None
    except ZeroDivisionError:
        raise Wrong("%r divides by 0" % text) from None


def put(value, i):
    """A value with the number i put into its texts."""
    if isinstance(value, dict):
        return {key: put(part, i) for key, part in value.items()}
    if isinstance(value, list):
        return [put(part, i) for part in value]
    if isinstance(value, str):
        if re.search(r"\bi\b", value) and ARITHMETIC.fullmatch(value):
            return number(value, i)
        return re.sub(r"\{([^{}]*)\}", lambda found: str(number(found[1], i)), value)
    return value
