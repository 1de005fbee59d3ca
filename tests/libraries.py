"""Builds the libraries in `preloaded`, each of which changes what a program gets of its system. Wants gcc."""
import os
import subprocess

PRELOADED = os.path.join(os.path.dirname(os.path.abspath(__file__)), "preloaded")


def built_library(name, folder):
    """Builds the library of this name into a folder, and gives its path."""
    library = os.path.join(folder, f"{name}.so")
    subprocess.run(["gcc", "-shared", "-fPIC", "-O1", "-o", library, os.path.join(PRELOADED, f"{name}.c"), "-ldl"], check=True)
    return library
