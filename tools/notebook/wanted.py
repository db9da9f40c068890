"""The packages of Debian that the notebook stands on, and how each is known to be there."""
import importlib.util
import shutil

# What wants it, the package, and the module or the program that it has.
PACKAGES = [
    ("notebook", "python3-ipykernel", "ipykernel", None),
    ("notebook", "jupyter-notebook", "notebook", "jupyter-notebook"),
    ("notebook", "jupyter-core", "jupyter_core", "jupyter"),
    ("notebook", "python3-pygments", "pygments", None),
    ("notebook", "jupyter-nbconvert", "nbconvert", "jupyter-nbconvert"),
    ("notebook", "graphviz", None, "dot"),
    ("check", "python3-nbclient", "nbclient", None),
    ("check", "chromium", None, "chromium"),
    ("check", "chromium-driver", None, "chromedriver"),
    ("check", "python3-selenium", "selenium", None),
]


def is_there(module, program):
    """Whether a module and a program are there."""
    return (module is None or importlib.util.find_spec(module)) and (program is None or shutil.which(program))


def missing(*wants):
    """The packages that are not there, of those that are wanted."""
    return [package for want, package, module, program in PACKAGES if want in wants and not is_there(module, program)]


def sentence(absent):
    """What is missing, and by which line it comes."""
    return f"notebook: no {', '.join(absent)}; apt-get install --no-install-recommends {' '.join(absent)}"


if __name__ == "__main__":
    print(" ".join(missing("notebook", "check")))
