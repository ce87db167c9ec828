"""Has `rt` of rattle-kit-13b make each sum of sources, and each list of what lies below a crate, once in a run.

That kit sums up a library's sources anew for each way by which another crate reaches it, before and after it proves the
library: 590 million files here (`tools/gate sums`), half a day of one processor. Later kits remember the sums. They say
whether work that an earlier run kept may be used again, and `rt ci` uses none: it proves everything from nothing, and
writes no sum down. So nothing that it judges depends on them.

Python reads this file at its start where PYTHONPATH names its folder, as .ci/run does for that kit alone.
"""
import importlib.machinery


def once(method):
    """The method, with its answer remembered by the object that it was asked of."""
    name = f"_{method.__name__}_once"

    def answer(self):
        if name not in self.__dict__:
            self.__dict__[name] = method(self)
        found = self.__dict__[name]
        return found[:] if isinstance(found, list) else found

    return answer


def load(loader, module, load_it=importlib.machinery.SourceFileLoader.exec_module):
    load_it(loader, module)
    if module.__name__ == "rtlib":
        module.Crate.below = once(module.Crate.below)
        module.Crate.stamp = once(module.Crate.stamp)


importlib.machinery.SourceFileLoader.exec_module = load
