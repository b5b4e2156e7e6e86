"""The test of form, as far as a module of Mini can break it."""
from .decoration import MODULE_MARK
from .faults import Fault


def own_name(name, decoration):
    """A name with the decoration, unless it has a module mark."""
    return name if MODULE_MARK in name else name + decoration


def check(module, decoration):
    """Functions have distinct names, and so have entry points."""
    for items in (module.functions, module.entries):
        names = [own_name(item.name, decoration) for item in items]
        if len(set(names)) < len(names):
            raise Fault("front end gave a module of wrong form")
