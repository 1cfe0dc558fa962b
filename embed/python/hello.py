"""python3 embed/python/hello.py"""
import starload

report = starload.load({"//:hello.star": "print('Hello')\nx = 1 + 2\n"}, ["//:hello.star"], values=True)
hello = report["//:hello.star"]
print(report.ok, hello.lines, hello.values)
