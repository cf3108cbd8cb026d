"""For the tests that checks make of themselves: a folder with a few small files, in which a check is to find what is wrong."""
import contextlib
import os
import pathlib
import tempfile

import contracts


@contextlib.contextmanager
def small_tree(files):
    """Goes to a folder with these files, by their paths, and back."""
    before = os.getcwd()
    with tempfile.TemporaryDirectory() as folder:
        for name, text in files.items():
            path = pathlib.Path(folder, name)
            path.parent.mkdir(parents=True, exist_ok=True)
            path.write_text(text, encoding="utf-8")
        os.chdir(folder)
        contracts.forget()
        try:
            yield
        finally:
            os.chdir(before)
            contracts.forget()


def unfound(faults_of, right, wrong):
    """What a check doesn't find in trees that are wrong, by a text that it has to say, and what it finds in one that is right."""
    found = []
    with small_tree(right):
        found += [f"the check of a right tree says: {fault}" for fault in faults_of()]
    for said, changes in wrong.items():
        with small_tree(right | changes):
            faults = list(faults_of())
            if not any(said in fault for fault in faults):
                found.append(f"the check doesn't say '{said}' of a tree that is wrong, but {faults}")
    return found
