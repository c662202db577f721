"""Has `rt` take the libraries below a crate as built where `rt ci` has just built them: tests/built.py CRATE. That leaves no
stamp beside them, so another command would prove them again."""
import importlib.util
import os
import subprocess
import sys

ROOT = os.path.dirname(os.path.dirname(os.path.realpath(__file__)))


def rtlib():
    """The kit's module that knows the crates."""
    page = subprocess.run(["rt", "doc"], stdout=subprocess.PIPE, text=True, check=True).stdout.strip()
    sys.dont_write_bytecode = True
    spec = importlib.util.spec_from_file_location("rtlib", f"{os.path.dirname(page)}/bin/rtlib.py")
    made = sys.modules["rtlib"] = importlib.util.module_from_spec(spec)
    spec.loader.exec_module(made)
    return made


def main(name):
    crate = next(it for it in rtlib().crates_below(ROOT) if it.name == name)
    for library in crate.below():
        if os.path.isdir(library.rlib):
            with open(f"{library.folder}/out/rlib/stamp", "w", encoding="utf-8") as to:
                to.write(library.stamp())


if __name__ == "__main__":
    main(sys.argv[1])
