"""Functions of a host, by rounds of questions and answers. With embed/python on the PYTHONPATH it prints `[1, 2]`.

A function of the prelude looks for its question among the answers. If it is not there, it stops the file, whose last line is then the question.
An answer may be None, a bool, an int, a string of ASCII, or a list, tuple or dictionary of these: `repr` of Python and of Starlark agree on them,
except on the least int. The file has made the question's text: check its name and arguments, as you would those of a request.
"""
import ast, starload

HOST = '''
def host(name, *args):
    question = repr((name,) + args)
    if question in _ANSWERS:
        return _ANSWERS[question]
    fail("host?" + question)
'''

def run(files, roots, functions, rounds=100):
    answers = {}
    for _ in range(rounds):
        prelude = f"_ANSWERS = {answers!r}\n" + HOST
        report = starload.load({**files, "//host:prelude.star": prelude}, roots, prelude="//host:prelude.star")
        asked = {m.lines[-1][5:] for m in report if m.fault == "fail" and m.lines and m.lines[-1].startswith("host?")}
        if not asked:
            return report
        for question in sorted(asked):
            name, *args = ast.literal_eval(question)
            answers[question] = functions[name](*args)
    raise RuntimeError("the files ask on and on")

files = {"//:a.star": 'both = [host("size", n) for n in ["x", "yy"]]\n'}
print(run(files, ["//:a.star"], {"size": len})["//:a.star"].globals["both"])
