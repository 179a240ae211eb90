"""Every place where text leaves for another language stands in docs/DECISIONS.md, "Doors", and no place that is not there."""
import ast
import os
import re
import unittest

from bench import REPOSITORY

# Calls by which a program, a shell, code or another library is reached, by the last part of their names.
PYTHON = {"run", "Popen", "check_output", "check_call", "call", "system", "popen", "spawnv", "spawnl", "execv", "execve", "execvp", "execl",
          "eval", "exec", "compile", "import_module", "__import__", "loads", "load", "CDLL", "LoadLibrary", "ParserCreate", "Pool", "fork",
          "execle", "execlp", "execlpe", "execvpe", "spawnle", "spawnlp", "spawnlpe", "spawnve", "spawnvp", "spawnvpe", "posix_spawn",
          "posix_spawnp", "forkpty", "startfile", "getoutput", "getstatusoutput", "create_subprocess_exec", "create_subprocess_shell",
          "run_path", "run_module", "exec_module", "load_module", "ProcessPoolExecutor", "PyDLL", "fromstring", "XML", "iterparse",
          "XMLParser", "XMLPullParser", "literal_eval", "Unpickler", "InteractiveInterpreter"}
# Of these names only those of these modules are doors.
OF = {"run": ("subprocess", ""), "call": ("subprocess",), "loads": ("pickle", "marshal"), "load": ("pickle", "marshal"),
      "compile": ("", "builtins"), "exec": ("",), "eval": ("",), "system": ("os",), "fork": ("os",), "Pool": None, "Popen": None}
SCRIPT = re.compile(r"innerHTML|outerHTML|insertAdjacentHTML|document\.write|\beval\(|new Function|new Worker\(|createObjectURL|importScripts"
                    r"|\.href\s*=|\.src\s*=|WebAssembly\.(?:compile|instantiate|Module)|setTimeout\(\s*[\"'`]")
SHELL = re.compile(r"(?<![\w-])(?:eval|sh -c|xargs|ssh|exec|make)(?= [^=])")
# Texts of gnuplot, HTML, SVG, XML and of a shell that a program writes.
WRITTEN = re.compile(r"set (?:output|title|terminal|label|xlabel|multiplot)\b|<(?:html|svg|script|text|!DOCTYPE)\b|#!/bin/")


def kind_of(path):
    with open(path, encoding="utf-8", errors="replace") as file:
        head = file.readline(60)
    if path.endswith(".py") or head.startswith("#!") and "python" in head:
        return "python"
    if path.endswith((".js", ".html")):
        return "script"
    return "shell" if head.startswith("#!") and re.search(r"/(?:ba)?sh\b", head) else None


def sources():
    """What is handed out: programs, tools and the page; tests and benches read nothing of a stranger."""
    for top in ("python", "tools", "page", "."):
        for place, folders, files in os.walk(os.path.join(REPOSITORY, top)):
            folders[:] = [] if top == "." else [one for one in folders if one not in ("tests", "__pycache__", "edits", "cases", "completion")]
            for name in files:
                path = os.path.join(place, name)
                if not os.path.islink(path) and kind_of(path):
                    yield os.path.normpath(os.path.relpath(path, REPOSITORY)), path


def python_doors(tree, aliases):
    """(function, what is called) of each door."""
    def walk(node, inside):
        for child in ast.iter_child_nodes(node):
            here = child.name if isinstance(child, (ast.FunctionDef, ast.ClassDef)) else inside
            if isinstance(child, ast.Call):
                whose = ast.unparse(child.func)
                module, _, name = whose.rpartition(".")
                modules = OF.get(name, None)
                if name in PYTHON and (modules is None or module in modules) and (
                        name != "run" or module == "subprocess" or aliases.get("run") == "subprocess"):
                    yield here, name
            elif isinstance(child, ast.Constant) and isinstance(child.value, str) and not is_text(child, node) and WRITTEN.search(child.value):
                yield here, "a text of " + ("gnuplot" if "set " in child.value else "a shell" if "#!" in child.value else "markup")
            yield from walk(child, here)
    return walk(tree, "")


def is_text(constant, parent):
    """Whether a constant is what a module, a class or a function says of itself."""
    return isinstance(parent, ast.Expr) and parent.value is constant


def doors():
    found = set()
    for name, path in sources():
        kind = kind_of(path)
        with open(path, encoding="utf-8") as file:
            text = file.read()
        if kind == "python":
            tree = ast.parse(text)
            aliases = {one.asname or one.name: node.module for node in ast.walk(tree) if isinstance(node, ast.ImportFrom)
                       for one in node.names}
            # Of a tool that builds, the file is the place.
            found |= {f"{name}: {where}" if where and name.startswith("python") else name for where, _ in python_doors(tree, aliases)}
        elif kind == "script":
            found |= {name for line in text.splitlines() if SCRIPT.search(line)}
        else:
            found |= {name for line in text.splitlines() if not line.lstrip().startswith("#") and SHELL.search(line.split(" #")[0])}
    return found


class Doors(unittest.TestCase):
    def test_the_table_has_every_door(self):
        with open(os.path.join(REPOSITORY, "docs", "DECISIONS.md"), encoding="utf-8") as file:
            part = file.read().split("\n## Doors\n")[1].split("\n## ")[0]
        listed = {place for row in part.splitlines() if row.startswith("| ") for place in re.findall(r"`([^`]+)`", row.split("|")[1])}
        self.assertEqual(doors() - listed, set(), "doors that are not in the table")
        self.assertEqual(listed - doors(), set(), "places of the table that are no doors")

    def test_a_new_door_is_seen(self):
        for text in ("import subprocess\ndef f(x):\n    subprocess.run(x)\n", "import os\ndef f(x):\n    os.system(x)\n",
                     "def f(x):\n    eval(x)\n", "from subprocess import run\ndef f(x):\n    run(x)\n",
                     "def f(x):\n    return f'set title {x}'\n", "import ctypes\nclass C:\n    def f(self, x):\n        ctypes.CDLL(x)\n"):
            tree = ast.parse(text)
            self.assertEqual([where for where, _ in python_doors(tree, {"run": "subprocess"})], ["f"], text)
        for line in ("a.innerHTML = x", "eval(x)", "new Worker(x)"):
            self.assertTrue(SCRIPT.search(line))
        for line in ('eval "$x"', 'sh -c "$x"', "| xargs rm"):
            self.assertTrue(SHELL.search(line))


if __name__ == "__main__":
    unittest.main()
