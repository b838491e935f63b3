"""The proved tests of numbers of pages, through which tools/plan runs its answers. `rt lib` in crates/plan_library proves and
builds them; gcc links them into a shared object, which ctypes calls.
"""
import ctypes
import os
import subprocess

TOP = os.path.dirname(os.path.dirname(os.path.realpath(__file__)))
CLASSES, ENTRIES = 67, 64
ARCHIVE = os.path.join("crates", "plan_library", "out", "libplan_library.a")
ByClass = ctypes.c_uint32 * CLASSES


class Need(ctypes.Structure):
    _fields_ = [("bytes", ctypes.c_uint32), ("count", ctypes.c_uint32)]


class ModeNeeds(ctypes.Structure):
    _fields_ = [("needs", Need * ENTRIES)]


class PointPages(ctypes.Structure):
    _fields_ = [("mode", ctypes.c_uint32), ("pages", ByClass)]


def listed(kind, items):
    """An array and its length, as C takes them."""
    return (kind * max(1, len(items)))(*items), ctypes.c_size_t(len(items))


def entries(mode):
    return [Need(size, count) for size, count in mode.items()]


class Library:
    """The functions of crates/plan_library, for the slots of a manager."""

    def __init__(self, manager, folder):
        shared = os.path.join(folder, f"plan_library_{manager}.so")
        whole = ["-Wl,--whole-archive", os.path.join(TOP, ARCHIVE), "-Wl,--no-whole-archive"]
        subprocess.run(["gcc", "-shared", "-o", shared, *whole], check=True, stderr=subprocess.PIPE)
        self.manager, self.calls, self.in_blocks = manager, ctypes.CDLL(shared), ctypes.c_bool(manager == "nm")
        for name in "pages_needed", "is_certified", "are_budget_levels", "is_budget_certified":
            getattr(self.calls, "plan_" + name).restype = ctypes.c_bool

    def needed(self, page_bytes, mode):
        """The least pages of a program with one mode, the most objects of each size, with resizes too; None if the call refuses it."""
        needs, found = listed(Need, entries(mode)), ctypes.c_uint32()
        return found.value if self.calls.plan_pages_needed(ctypes.c_uint32(page_bytes), self.in_blocks, *needs, ctypes.byref(found)) else None

    def accepts(self, pages, page_bytes, bounds, modes, points, resizes):
        """Whether the points are a certificate, with resizes or without; each is a mode's number and the pages of each class."""
        modes = [ModeNeeds((Need * ENTRIES)(*entries(mode))) for mode in modes]
        points = [PointPages(mode, ByClass(*by_class)) for mode, by_class in points]
        numbers = ctypes.c_uint32(pages), ctypes.c_uint32(page_bytes), self.in_blocks
        lists = (ctypes.c_uint32, bounds), (ModeNeeds, modes), (PointPages, points)
        return self.calls.plan_is_certified(*numbers, *(part for kind, items in lists for part in listed(kind, items)), ctypes.c_bool(resizes))

    def accepts_levels(self, pages, page_bytes, bounds, prices, budget, levels):
        """Whether the levels show that so many pages are enough for a budget with these bounds, by the least cost of an object of each
        class."""
        numbers = ctypes.c_uint32(pages), ctypes.c_uint32(page_bytes), self.in_blocks
        bounds, prices, levels = (listed(ctypes.c_uint32, items) for items in (bounds, prices, levels))
        return self.calls.plan_are_budget_levels(*numbers, *bounds, *prices, ctypes.c_uint32(budget), *levels)

    def accepts_budget(self, pages, page_bytes, prices, budget, levels, opened):
        """Whether the levels and the opened pages of each class are a certificate that so many pages are the least for a budget, by
        the least cost of an object of each class, if every bound is 1."""
        numbers = ctypes.c_uint32(pages), ctypes.c_uint32(page_bytes), self.in_blocks
        prices, levels, opened = (listed(ctypes.c_uint32, items) for items in (prices, levels, opened))
        return self.calls.plan_is_budget_certified(*numbers, *prices, ctypes.c_uint32(budget), *levels, *opened)
