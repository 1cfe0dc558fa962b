"""The shapes that are measured: bundles of many files, and programs of one file with one kind of work each."""

BODY = '''def make(name, deps = [], size = "small"):
    """Makes one target."""
    return {"name": name, "deps": deps, "size": size, "n": len(deps)}

NAMES = ["target_%%d" %% i for i in range(8)]
targets = [make(n, deps = NAMES[:i]) for i, n in enumerate(NAMES)]
total = 0
for t in targets:
    if t["n"] %% 2 == 0:
        total += t["n"]
k%d = (%d, total)
'''


def body(n):
    return BODY % (n, n)


def wide(count=1000):
    """One root that loads all others."""
    files = {f"//p:f{i}.star": body(i) for i in range(count)}
    loads = "".join(f'load("//p:f{i}.star", "k{i}")\n' for i in range(count))
    files["//:root.star"] = loads + "all = [" + ", ".join(f"k{i}" for i in range(count)) + "]\n"
    return files, "//:root.star"


def chain(count=1000):
    """Each file loads the next."""
    files = {f"//c:f{i}.star": f'load(":f{i + 1}.star", d = "depth")\n' + body(i) + "depth = d + 1\n" for i in range(count - 1)}
    files[f"//c:f{count - 1}.star"] = body(count - 1) + "depth = 1\n"
    return files, "//c:f0.star"


def layers(deep=20, width=100, fan=8):
    """Layers of files, each of which loads eight of the layer below; one root."""
    files = {}
    for layer in range(deep):
        for j in range(width):
            below = [(j * 3 + f * 13 + layer) % width for f in range(fan)] if layer + 1 < deep else []
            loads = "".join(f'load("//l{layer + 1}:f{m}.star", v{f} = "v")\n' for f, m in enumerate(below))
            summed = " + ".join(f"v{f}" for f in range(len(below))) or "1"
            files[f"//l{layer}:f{j}.star"] = loads + body(j) + f"v = ({j} + {summed}) % 1000003\n"
    return files, "//l0:f0.star"


def leaves(count=200):
    """One root over files that each compute for a while."""
    work = "def f(n):\n    t = 0\n    for i in range(n):\n        t = (t + i * 3) % 65537\n    return t\n\nv = f(20000)\n"
    files = {f"//w:f{i}.star": work for i in range(count)}
    loads = "".join(f'load("//w:f{i}.star", v{i} = "v")\n' for i in range(count))
    files["//:root.star"] = loads + "all = [" + ", ".join(f"v{i}" for i in range(count)) + "]\n"
    return files, "//:root.star"


def texts(count=200):
    """One root over files of 50 KB that are mostly read."""
    rows = "".join(f'    "key_{i}": ["value %d of key {i}" % {i}, {i} + 1, ("a", "b", {i})],\n' for i in range(700))
    files = {f"//t:f{i}.star": f"def table():\n    return {{\n{rows}    }}\n\nn{i} = {i}\n" for i in range(count)}
    loads = "".join(f'load("//t:f{i}.star", "n{i}")\n' for i in range(count))
    files["//:root.star"] = loads
    return files, "//:root.star"


def big():
    """One file of a megabyte."""
    text = "".join(f'v{i} = {{"name": "target_{i}", "deps": [{i}, {i + 1}], "on": {i} % 2 == 0}}\n' for i in range(13000))
    return {"//:root.star": text}, "//:root.star"


COMPUTE = '''def numbers(n):
    a, b, c = 17, 3, 0
    for i in range(n):
        a = (a * 16807 + 12345) % 65537
        if a & 1 == 0:
            b = (b + (a >> 3)) % 1000003
        else:
            b ^= i & 255
        c = (c + b // 3 - a % 11) & 1048575
    return c

def lists(n):
    out = []
    for i in range(n):
        if len(out) >= 512:
            out.clear()
        out.append(i * 2 + 1)
    return len(out)

def dictionaries(n):
    d = {}
    hits = 0
    for i in range(n):
        k = i * 31 % 1021
        if k in d:
            d[k] = (d[k] + i) % 1000003
            hits += 1
        else:
            d[k] = i
    return (len(d), hits)

def strings(n):
    total = 0
    for i in range(n):
        s = "%s-%d/{}" % ("node", i)
        t = s.format(i % 7)
        if t.startswith("node-1") and t.endswith("3"):
            total += len(t.split("/"))
        total += len(t)
    return total

def added(a, b, c = 1):
    return a + b + c

def calls(n):
    x = 0
    for i in range(n):
        x = added(x, i)
        x = added(i, b = x, c = 2) % 1000003
    return x

def comprehensions(n):
    total = 0
    for i in range(n):
        row = [x * x + i for x in range(20) if x % 3 != 1]
        m = {"k%d" % x: x for x in row[:4]}
        total += max(row) + len(m)
    return total

v = (numbers(19000), lists(10000), dictionaries(7500), strings(2500), calls(3000), comprehensions(200))
'''


def compute(count=64):
    """One root over files that do several kinds of work."""
    files = {f"//w:f{i}.star": COMPUTE for i in range(count)}
    loads = "".join(f'load("//w:f{i}.star", v{i} = "v")\n' for i in range(count))
    files["//:root.star"] = loads + "all = [" + ", ".join(f"v{i}" for i in range(count)) + "]\n"
    return files, "//:root.star"


def tree(count):
    """So many files of 10 KB, in twenty layers, each of which loads four of the layer below; one root loads the upmost layer."""
    body = "".join(
        f'def f{j}(a, b = {j}, *c, **d):\n    """Doc of f{j}."""\n    if a in d:\n        return [x + b for x in c]\n'
        f'    return {{"k{j}": a, "list": [1, 2, 3, "four"]}}\nx{j} = f{j}("q", q = [{j}])\n'
        for j in range(62)
    )
    files, width = {}, count // 20
    for layer in range(20):
        for i in range(width):
            loads = "".join(f'load("//l{layer - 1}:f{(i * 7 + k * 13) % width}.star", v{k} = "value")\n' for k in range(4)) if layer else ""
            up = "[" + ", ".join(f'v{k}["n"]' for k in range(4)) + "]" if layer else "[]"
            files[f"//l{layer}:f{i}.star"] = f'{loads}value = {{"n": {i}, "up": {up}}}\n{body}'
    files["//:root.star"] = "".join(f'load("//l19:f{i}.star", v{i} = "value")\n' for i in range(width))
    return files, "//:root.star"


# measured only if they are named
TREES = {f"tree of {count:,}": lambda count=count: tree(count) for count in (1000, 4000, 9980)}

FILES = {
    "wide": wide,
    "chain": chain,
    "chain of 10,000": lambda: chain(10000),
    "layers": layers,
    "leaves": leaves,
    "compute": compute,
    "texts": texts,
    "big": big,
}


def looped(line, before="", count=300000):
    """A function that does this line many times."""
    return f"def f(n):\n{before}  for i in range(n):\n    {line}\nf({count})\n"


STEPS = {
    "empty loop": looped("pass", count=1000000),
    "assignment": looped("x = i", count=1000000),
    "names": looped("x; x; x; x; x; x", "  x = 1\n"),
    "globals": "x = 1\n" + looped("x; x; x; x; x; x"),
    "constants": looped("1; 2; 3; 4; 5; 6"),
    "strings": looped('"abcdefgh"; "ijklmnop"'),
    "addition": looped("i + 1; i + 2; i + 3"),
    "tuple": looped("(i, i, i)"),
    "built-in": looped("len(l); len(l); len(l)", "  l = []\n"),
    "append": looped("l.append(i)", "  l = []\n"),
    "index": looped("l[1]; l[2]; l[0]", "  l = [1, 2, 3]\n"),
    "call": "def g(x):\n  return x\n" + looped("g(i)"),
    "closure": "def f(n):\n  y = 1\n  def g(x):\n    return x + y\n  for i in range(n):\n    g(i)\nf(300000)\n",
    "small dictionary": looped('d["a9"]', '  d = {"a%d" % i: i for i in range(10)}\n'),
    "large dictionary": looped("d[i % 1000]", "  d = {i: i for i in range(1000)}\n", 50000),
    "comprehension": looped("[x for x in range(10)]", count=50000),
    "condition": looped("x = 1 if i == 3 else 2"),
    "join": looped('",".join(["a", "b", "c"])', count=100000),
    "sort": "def f(n):\n  l = [(i * 7919) % 100003 for i in range(n)]\n  for i in range(10):\n    sorted(l)\nf(20000)\n",
    "equality": looped("a == b", "  a = list(range(1000))\n  b = list(range(1000))\n", 1000),
}
