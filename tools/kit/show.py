"""Writes message files and a schedule as a scene's text, without the keys whose defaults would build the same."""

import textwrap

from . import colours, names, wire
from .frame import embedded, tiled
from .words import fold

WIDTH = 96


def quote(text):
    return '"%s"' % text.replace("\\", "\\\\").replace('"', '\\"')


def value(item):
    """A value on one line."""
    if isinstance(item, str):
        return quote(item)
    if isinstance(item, dict):
        return "{ %s }" % ", ".join("%s = %s" % (k, value(v)) for k, v in item.items())
    if isinstance(item, (list, tuple)):
        return "[%s]" % ", ".join(map(value, item))
    return str(item)


def spread(item, depth):
    """A value over several lines where it is long: lists break, braces stay closed."""
    line = value(item)
    if len(line) + depth <= WIDTH:
        return line
    if isinstance(item, dict):
        parts = ["%s = %s" % (key, broken(part, depth) if breaks(part) else value(part))
                 for key, part in item.items()]
        return "{ %s }" % ", ".join(parts)
    return broken(item, depth) if breaks(item) else line


def breaks(item):
    """A list of tables, or a long list of texts."""
    return isinstance(item, list) and item != [] and (
        isinstance(item[0], dict) or isinstance(item[0], str) and len(value(item)) > WIDTH // 2)


def broken(items, depth):
    """A list with one item a line."""
    pad = " " * depth
    return "[\n%s%s]" % ("".join("%s  %s,\n" % (pad, spread(one, depth + 2)) for one in items), pad)


# ---------------------------------------------------------------- messages


def quad(q, output):
    m = q["material"]
    out = {}
    if m["kind"] == "solid":
        out["solid"] = colours.text(m["solid"])
    elif m["kind"] == "tile":
        out["tile"] = m["tile"]
        if (m["tx"], m["ty"]) != (0, 0):
            out["from"] = [m["tx"], m["ty"]]
    elif m["kind"] == "surface":
        out["surface"] = names.span_text(m["surface"])
        if colours.text(m["background"]) != "white":
            out["background"] = colours.text(m["background"])
    else:
        out["pass"] = m["pass"]
    if q["offset"] != (0, 0):
        out["offset"] = q["offset"]
    if m["kind"] != "solid" or q["area"] != (0, 0, *output[2:]):
        out["area"] = short(q["area"])
    if q["visible"] != q["area"]:
        out["visible"] = short(q["visible"])
    if q["clip"] is not None:
        out["clip"] = short(q["clip"])
    if q["opacity"] != 255:
        out["opacity"] = q["opacity"]
    if q["blend"]:
        out["blend"] = wire.BLENDS[q["blend"]]
    return out


def short(rect):
    return rect[2:] if rect[:2] == (0, 0) else rect


def one_pass(p, place):
    out = {} if p["id"] == place else {"id": p["id"]}
    return {**out, "output": short(p["output"]), **damage(p), **quads(p)}


def damage(p):
    return {} if p["damage"] == p["output"] else {"damage": short(p["damage"])}


def quads(p):
    return {"quads": [quad(q, p["output"]) for q in p["quads"]]}


def submit(m, blocks):
    passes = m["passes"]
    root = passes[-1] if passes and passes[-1]["output"][:2] == (0, 0) else None
    out = {"submit": names.local_text(m["local"])}
    for key in ("token", "answers"):
        if m[key]:
            out[key] = m[key]
    if m["deadline"] is not None:
        out["deadline"] = m["deadline"]
    if root:
        out["size"] = root["output"][2:]
        if root["id"] != len(passes):
            out["id"] = root["id"]
        out.update(damage(root))
    if m["dependencies"]:
        out["dependencies"] = [names.surface_text(s) for s in m["dependencies"]]
    if m["references"] != embedded(passes):
        out["references"] = [names.span_text(r) for r in m["references"]]
    usual = [(i, *blocks.get(i, (0, 0))) for i in tiled(passes)]
    if [(r["id"], r["w"], r["h"]) for r in m["resources"]] != usual:
        out["resources"] = ["%(id)d %(w)dx%(h)d" % r for r in m["resources"]]
    if not root or len(passes) > 1:
        earlier = passes[:-1] if root else passes
        out["passes"] = [one_pass(p, k) for k, p in enumerate(earlier, 1)]
    return {**out, **(quads(root) if root else {})}


def upload(m):
    (w, h), data = m["size"], m["pixels"]
    if data == data[:4] * (w * h):
        return "upload %d %dx%d %s" % (m["id"], w, h, colours.text(data[:4]))
    words = [colours.text(data[at:at + 4]) for at in range(0, len(data), 4)]
    rows = [" ".join(fold(words[y * w:(y + 1) * w])) for y in range(h)]
    return {"upload": m["id"], "rows": rows}


def message(m, blocks):
    kind = m["kind"]
    if kind == "upload":
        blocks[m["id"]] = m["size"]
        return upload(m)
    if kind == "submit":
        return submit(m, blocks)
    words = {"did-not-produce": lambda: [str(m["number"])],
             "set-root": lambda: [names.local_text(m["local"])],
             "hierarchy": lambda: [names.sink_text(m["parent"]), names.sink_text(m["child"])]}
    return " ".join([kind] + words.get(kind, list)())


# ---------------------------------------------------------------- files


def client(place, got):
    lines = ["[[client]]"]
    if got["sink"] != (place, 1):
        lines.append("sink = %s" % quote(names.sink_text(got["sink"])))
    blends = any(q["blend"] for m in got["messages"] if m["kind"] == "submit"
                 for p in m["passes"] for q in p["quads"])
    if got["format"] != (2 if blends else 1):
        lines.append("format = %d" % got["format"])
    blocks = {}
    messages = [message(m, blocks) for m in got["messages"]]
    lines.append("messages = " + (broken(messages, 0) if messages else "[]"))
    return "\n".join(lines) + "\n"


def scene(files, schedule=None, display=None):
    """The text of files, with a schedule's words and a display where they are given."""
    parts = []
    head = ""
    if display is not None:
        head += "display = [%d, %d]\n" % display
    if schedule is not None:
        text = " ".join(schedule)
        if len(text) > 80:
            text = "\n" + textwrap.fill(text, 96) + "\n"
            head += 'schedule = """%s"""\n' % text
        else:
            head += "schedule = %s\n" % quote(text)
    if head:
        parts.append(head)
    parts += [client(place, got) for place, got in enumerate(files, 1)]
    return "\n".join(parts)
