"""Macros of this repository."""

def service(name, deps):
    """A program and its test."""
    cc_binary(name = name, srcs = [name + ".cc"], deps = deps)
    cc_test(name = name + "_test", srcs = [name + "_test.cc"], deps = deps)
