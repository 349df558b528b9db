"""The tables of `test`: wrong texts with what is said of them, a text with its bytes, and values at their limits."""

HEAD = 'display = [4, 2]\n[[client]]\nname = "one"\n'

WRONG = [  # a text, and what its error says
    ('display = [4, 2\n', "line 1"),
    ('display = [4, 2]\nclients = 3\n', "'client' is missing"),
    (HEAD + 'mesages = []\n', "client 1: key 'mesages' is not known here"),
    (HEAD + 'messages = ["await", "sit 3"]\n', "client 1, message 2: 'sit' is no message"),
    (HEAD + 'messages = ["set-root 0.1"]\n',
     "client 1, message 1, local: 0.1#1: parent and child are 1"),
    (HEAD + 'messages = [{ submit = "1.1", quads = [{ area = [1, 1] }] }]\n',
     "client 1, message 1, quad 1: a quad has one of 'solid'"),
    (HEAD + 'messages = [{ submit = "1.1", quads = [{ solid = "rde" }] }]\n',
     "client 1, message 1, quad 1, solid: 'rde' is no colour"),
    (HEAD + 'messages = [{ submit = "1.1", quads = [{ solid = "#ff000080" }] }]\n',
     "quad 1, solid: '#ff000080': red, green and blue are at most alpha"),
    (HEAD + 'messages = [{ submit = "1.1", quads = [{ solid = "red", area = [0, 0, 4, 0] }] }]\n',
     "quad 1, area: 0, 0, 4, 0: x and y are within"),
    (HEAD + 'messages = [{ submit = "1.1", deadline = 65 }]\n', "deadline: 65: a deadline is 0 to 64"),
    (HEAD + 'messages = [{ submit = "1.1", quads = [{ tile = 3 }] }]\n',
     "quad 1: key 'area' is missing"),
    (HEAD + 'messages = [{ submit = "1.1", quads = [{ tile = 3, area = [1, 1] }] }]\n',
     "resource 3 has no upload before"),
    (HEAD + 'messages = ["upload 1 300x1 red"]\n', "message 1, upload: 300 by 1: sides are 1 to 256"),
    (HEAD + 'messages = [{ upload = 1, rows = ["257*red"] }]\n', "message 1, size: 257: not 1 to 256"),
    (HEAD + 'messages = [{ upload = 1, rows = ["red", "2*red"] }]\n', "row 2: 2 pixels, the first row"),
    (HEAD + 'messages = [{ upload = 1, png = "nowhere.png" }]\n', "nowhere.png: No such file"),
    (HEAD + 'messages = [{ submit = "1.1", dependencies = ["two/1.1"] }]\n',
     "dependency 1: 'two' is no sink"),
    (HEAD + 'format = 1\nmessages = [{ submit = "1.1", quads = [{ solid = "red", blend = "src" }] }]\n',
     "quad 1, blend: format 1 has no blend modes"),
    (HEAD + 'messages = [{ submit = "1.1", quads = ["door"] }]\n',
     "quad 1: part 'door': the scene has no such part"),
    ('schedule = "c1 drow"\n' + HEAD, "schedule: word 2, 'drow', is no event"),
    ('schedule = "2*(c1 draw"\n' + HEAD, "schedule: a '(' that nothing closes"),
    ('schedule = "one two"\n' + HEAD, "schedule: word 2, 'two'"),
    ('schedule = "c2"\n' + HEAD, "schedule: word 1, 'c2': there are 1 clients"),
    ('schedule = "65537*begin"\n' + HEAD, "schedule: 65537 events, more than 65536"),
    ('schedule = "256*draw"\n' + HEAD.replace("4, 2", "2048, 2048"),
     "schedule: all draws together are more than"),
    (HEAD + '[[client]]\nsink = "1.1"\n', "client 2, sink: 1.1 is taken"),
    (HEAD + 'messages = [{ submit = "1.1", token = "x" }]\n', "token: 'x' is not a whole number"),
    (HEAD + 'messages = [{ submit = "1.1", token = true }]\n', "token: true is not a whole number"),
    (HEAD + 'format = 3\n', "line 4: client 1, format: 3 is no format"),
    (HEAD + 'messages = [\n  "await",\n  { submit = "1.1", quads = [\n    { solid = "red" },\n    { solid = "rde" },\n  ] },\n]\n',
     "line 8: client 1, message 2, quad 2, solid: 'rde' is no colour"),
    (HEAD + 'messages = [\n  { submit = "1.1", dependencies = [\n    "2.1/1.1",\n    "2.1/0.1",\n  ] },\n]\n',
     "line 7: client 1, message 1, dependency 2: 0.1#1: parent"),
    (HEAD + 'messages = [\n  { submit = "1.1", passes = [\n    { output = [1, 1] },\n    { output = [1, 0] },\n  ] },\n]\n',
     "line 7: client 1, message 1, pass 2, output: 0, 0, 1, 0: x"),
    ('[parts]\none = [\n  { solid = "red" },\n  { solid = "red", offset = [0, 99999] },\n]\n' + HEAD.replace("display = [4, 2]", "")
     + 'messages = [{ submit = "1.1", size = [1, 1], quads = ["one"] }]\n', "line 4: client 1, message 1, quad 1, part 'one', quad 2, offset"),
    ("[colours]\n# a [ and a \" in a remark\nsky = '#12345'\n" + HEAD.replace("display = [4, 2]", ""), "line 3: colours, sky: '#12345' is no colour"),
    (HEAD + '[[client]]\nmessages = [\n  { upload = 1, rows = [\n    "red",\n    "2*red",\n  ] },\n]\n',
     "line 8: client 2, message 1, rows, row 2: 2 pixels"),
]

KNOWN = """
[[client]]
name = "one"
messages = [
  { upload = 5, rows = ["red #00400080"] },
  { submit = "4.5#6", token = 7, answers = 8, deadline = 9, size = [9, 8], damage = [
    1, 2, 3, 4,
  ], dependencies = [
    "3.1/2.1#0x0102030405060708090a0b0c0d0e0f10",
  ], references = ["two/1.1 .. two/3.1", "two/1.1"], passes = [
    { id = 6, output = [-1, -2, 3, 4], damage = [1, 1], quads = [
      { solid = "#01020304", clip = [1, 2, 3, 4], opacity = 5, blend = "src" },
    ] },
  ], quads = [
    { tile = 5, from = [1, 0], offset = [-7, 6], blend = "dstin" },
    { surface = "two/1.1 .. two/3.1", background = "#090807", visible = [1, 1, 2, 2] },
    { pass = 6 },
  ] },
  "did-not-produce 300",
  "reclaim",
  "set-root 4.5#6",
  "hierarchy one two",
  "await",
  "close",
]

[[client]]
name = "two"
"""
KNOWN_BYTES = bytes.fromhex(
    "56495a430200010000000100000008000000010500000002000100ff0000ff00400080020400000005000000"
    "060000000000000000000000000000000700000008000000090103000000010000000200000001000000100f"
    "0e0d0c0b0a090807060504030201020102000000010000000100000001000000010000000000000000000000"
    "0000000002000000010000000300000001000000010000000000000000000000000000000002000000010000"
    "000100000001000000010000000000000000000000000000000105000000020001000206000000fffffffffe"
    "ffffff0300000004000000000000000000000001000000010000000100000000000000000000000000000000"
    "0003000000040000000000000000000000030000000400000001010000000200000003000000040000000501"
    "01010203040200000000000000000000000900000008000000010000000200000003000000040000000300f9"
    "ffffff06000000000000000000000001000000010000000000000000000000010000000100000000ff020205"
    "0000000100000000000000000000000000000000000000090000000800000001000000010000000200000002"
    "00000000ff000301020000000100000001000000010000000100000000000000000000000000000002000000"
    "01000000030000000100000001000000000000000000000000000000090807ff000000000000000000000000"
    "0000000003000000040000000000000000000000030000000400000000ff000406000000032c010000040504"
    "000000050000000600000000000000000000000000000006010000000100000002000000010000000708")


def many(key, item, count):
    """A frame with a list of so many items."""
    return HEAD + 'messages = [{ submit = "1.1", %s = [%s] }]\n' % (
        key, ", ".join(item % k for k in range(1, count + 1)))


EDGES = [  # what may just be, and what may not
    (HEAD + 'messages = [{ submit = "1.1", quads = [{ solid = "red", offset = [%d, %d] }] }]\n',
     (-16384, 16384), (-16385, 0)),
    (HEAD + 'messages = [{ submit = "1.1", quads = [{ solid = "red", area = [%d, 0, %d, 1] }] }]\n',
     (-16384, 16384), (0, 16385)),
    (HEAD + 'messages = [{ submit = "1.1", token = %d, deadline = %d }]\n',
     (4294967295, 64), (4294967296, 0)),
    (HEAD + 'messages = [{ submit = "%d.1#%d" }]\n', (4294967295, 2 ** 128 - 1), (1, 2 ** 128)),
    (HEAD + 'messages = ["upload %d 256x256 red", "did-not-produce %d"]\n',
     (4294967295, 4294967295), (0, 0)),
]
