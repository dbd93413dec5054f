"""What the scripts of tools/ have in common: how one is called, and how another one, or a test, takes its functions."""
import importlib.machinery, importlib.util, os, sys

HERE = os.path.dirname(os.path.abspath(__file__))


def script(name):
    """The script tools/NAME as a module; what it does when it is run is not done."""
    loader = importlib.machinery.SourceFileLoader(os.path.basename(name), os.path.join(HERE, name))
    module = importlib.util.module_from_spec(importlib.util.spec_from_loader(loader.name, loader))
    loader.exec_module(module)
    return module


def asked(doc, *forms):
    """The words that a script was called with, which must be one of these lists. --help prints what the script is for; so do other words, with status 2."""
    words = sys.argv[1:]
    if words not in forms:
        helped = words in (["-h"], ["--help"])
        print(doc.strip(), file=sys.stdout if helped else sys.stderr)
        sys.exit(0 if helped else 2)
    return words
