"""Calls the program in one of three ways: by the library in this process, by the module in a process of node, or by
starting the program.

Each way is a function of the arguments and of the standard input. It returns the exit status and the standard output,
and raises OSError if the call fails. Several threads may call it.
"""
import base64
import contextlib
import functools
import importlib.machinery
import json
import os
import shutil
import subprocess
import threading

TOP = os.path.dirname(os.path.dirname(os.path.realpath(__file__)))
LAUNCHER = os.path.join(TOP, "mencius")
MODULE = os.path.join(TOP, "module")


def by_starting(program):
    def call(words, data):
        done = subprocess.run([program, *words], input=data, stdout=subprocess.PIPE, check=False)
        return done.returncode, done.stdout
    return call


def by_library():
    """Calls the library that MENCIUS_LIBRARY names."""
    library = load(os.path.join(TOP, "embedding", "python", "mencius", "library.py"))

    def call(words, data):
        answer = library.call(words, data)
        return answer.status, answer.printed
    return one_at_a_time(call)


def by_module():
    """Calls the module in a process of node. The process starts now, and is ready soon after."""
    node = subprocess.Popen(["node", os.path.join(TOP, "embedding", "answers.mjs")], stdin=subprocess.PIPE,
                            stdout=subprocess.PIPE, start_new_session=True)

    def call(words, data):
        question = [[coded(os.fsencode(word)) for word in words], coded(data)]
        with contextlib.suppress(BrokenPipeError):
            node.stdin.write(json.dumps(question).encode() + b"\n")
            node.stdin.flush()
        answer = node.stdout.readline()
        if not answer:
            raise OSError("the process of node that calls the module has ended. The module needs node 18 or later.")
        status, printed, _ = json.loads(answer)
        return status, base64.b64decode(printed)
    return one_at_a_time(call)


def one_at_a_time(call):
    """The same way, for several threads."""
    lock = threading.Lock()

    def locked(words, data):
        with lock:
            return call(words, data)
    return locked


def coded(data):
    return base64.b64encode(data).decode()


@functools.cache
def at_once():
    """A way that does not start the program for each call, or None. This is the library if MENCIUS_LIBRARY names one.
    Otherwise it is the module, if node is installed and the module was built from the current sources."""
    if "MENCIUS_LIBRARY" in os.environ:
        return by_library()
    return by_module() if shutil.which("node") and is_module_fresh() else None


def is_module_fresh():
    try:
        with open(os.path.join(MODULE, "sum"), encoding="ascii") as file:
            wanted = file.read().strip()
        return load(os.path.join(MODULE, "build")).sum_of_parts(os.path.join(MODULE, "mencius.wasm")) == wanted
    except OSError:
        return False


def load(path):
    """A Python file as a module. Its name need not end in .py."""
    name = os.path.basename(path).removesuffix(".py")
    return importlib.machinery.SourceFileLoader(name, path).load_module()


def choose(program):
    """The fastest way to call a program. The program of this repository need not be started."""
    is_launcher = os.path.realpath(program) == LAUNCHER
    return is_launcher and at_once() or by_starting(program)
