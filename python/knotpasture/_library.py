"""The shared library: where it is, and its calls as knotpasture.h declares them."""
from __future__ import annotations

import ctypes
import os
import pathlib
import platform
import threading
from typing import Any

NAME = "libknotpasture.so.1"

# A library without code that asks for NAME by its name, so that the machine's loader takes the one for its processor: beside NAME, where there is more than one.
LOADER = "libknotload.so"

_IN, _OUT, _SLOT = ctypes.c_void_p, ctypes.c_void_p, ctypes.c_void_p
_U8, _U16, _U32, _U64, _SIZE, _BOOL = ctypes.c_uint8, ctypes.c_uint16, ctypes.c_uint32, ctypes.c_uint64, ctypes.c_size_t, ctypes.c_bool

# What each call answers, and what it takes.
CALLS: dict[str, tuple[type, list[type]]] = {
    "knot_block_pixels": (_U32, [_IN, _SIZE, _U8, _OUT, _SIZE]),
    "knot_blocks_pixels": (_U32, [_IN, _SIZE, _U8, _OUT, _SIZE, _SLOT, _SLOT]),
    "knot_block_fields": (_U32, [_IN, _SIZE, _U8, _OUT, _SIZE]),
    "knot_write_block": (_U32, [_IN, _SIZE, _OUT, _SIZE]),
    "knot_fields_pixels": (_U32, [_IN, _SIZE, _OUT, _SIZE]),
    "knot_record_at": (_U64, [_IN, _SIZE, _SIZE]),
    "knot_record_block": (_SIZE, [_IN, _SIZE, _SIZE]),
    "knot_tile_at": (_U32, [_IN, _SIZE, _SIZE]),
    "knot_twin_list": (_U64, [_IN, _SIZE, _OUT, _SIZE]),
    "knot_twin_list_in": (_U64, [_IN, _SIZE, _OUT, _SIZE, _OUT, _SIZE]),
    "knot_strict_twin_list": (_U64, [_IN, _SIZE, _OUT, _SIZE]),
    "knot_first_damaged": (_SIZE, [_IN, _SIZE]),
    "knot_clean_store": (_U64, [_IN, _SIZE, _OUT, _SIZE]),
    "knot_clean_with_receipt": (_U64, [_IN, _SIZE, _OUT, _SIZE, _OUT, _SIZE]),
    "knot_restore_store": (_U64, [_IN, _SIZE, _IN, _SIZE, _OUT, _SIZE]),
    "knot_first_of": (_SIZE, [_IN, _SIZE, _SIZE]),
    "knot_placed_record_at": (_U64, [_IN, _SIZE, _SIZE, _SLOT, _SLOT]),
    "knot_placed_record_block": (_SIZE, [_IN, _SIZE, _SIZE]),
    "knot_place_store": (_U64, [_IN, _SIZE, _OUT, _SIZE]),
    "knot_unplace_store": (_U64, [_IN, _SIZE, _OUT, _SIZE]),
    "knot_put_place": (_U64, [_IN, _SIZE, _SIZE, _U8, _U16, _U16, _OUT, _SIZE]),
    "knot_probe_pixel": (_U64, [_IN, _SIZE, _U32, _U32, _U32, _U32, _SLOT]),
    "knot_probe_check": (_U64, [_IN, _SIZE, _U32]),
    "knot_probe_face": (_U32, [_IN, _SIZE, _U32, _U32, _OUT, _SIZE]),
    "knot_probe_open": (_U64, [_IN, _SIZE, _U32, _OUT, _SIZE]),
    "knot_probe_pixel_in": (_U64, [_IN, _SIZE, _IN, _SIZE, _U32, _U32, _U32, _U32]),
    "knot_probe_edge": (_SIZE, [_IN, _SIZE]),
    "knot_probe_build": (_U32, [_IN, _SIZE, _U8, _U32, _U32, _OUT, _SIZE, _SLOT]),
    "knot_is_trusted": (_BOOL, [_IN, _SIZE, _U8]),
    "knot_bc7_pixels": (_U32, [_IN, _SIZE, _OUT, _SIZE]),
    "knot_bc7_blocks_pixels": (_U64, [_IN, _SIZE, _OUT, _SIZE, _SLOT]),
    "knot_dds_head": (_U64, [_IN, _SIZE]),
    "knot_dds_read": (_U64, [_IN, _SIZE]),
    "knot_dds_blocks": (_SIZE, [_IN, _SIZE]),
    "knot_bc7_dds_read": (_U64, [_IN, _SIZE]),
    "knot_bc7_dds_blocks": (_SIZE, [_IN, _SIZE]),
    "knot_dds_first_level": (_U64, [_IN, _SIZE]),
    "knot_dds_first_blocks": (_SIZE, [_IN, _SIZE]),
    "knot_bc7_dds_first_level": (_U64, [_IN, _SIZE]),
    "knot_bc7_dds_first_blocks": (_SIZE, [_IN, _SIZE]),
    "knot_dds_write": (_U64, [_IN, _SIZE, _U8, _U32, _U32, _OUT, _SIZE]),
    "knot_pfm_write": (_U64, [_IN, _SIZE, _U8, _U32, _U32, _OUT, _SIZE]),
    "knot_pfm_length": (_SIZE, [_U32, _U32]),
    "knot_exr_write": (_U64, [_IN, _SIZE, _U8, _U32, _U32, _OUT, _SIZE]),
    "knot_exr_length": (_SIZE, [_U32, _U32]),
    "knot_face_pixels": (_U32, [_IN, _SIZE, _SIZE, _SIZE, _U8, _OUT, _SIZE, _SIZE, _SLOT]),
    "knot_face_rgba": (_U32, [_IN, _SIZE, _SIZE, _SIZE, _U8, _OUT, _SIZE, _SIZE, _SLOT]),
    "knot_first_twin": (_SIZE, [_IN, _SIZE, _SIZE]),
    "knot_is_covered": (_BOOL, [_IN, _SIZE, _SIZE, _SIZE]),
}

_lock = threading.Lock()
_loaded: ctypes.CDLL | None = None
_bound: dict[str, Any] = {}


def places() -> list[str]:
    """Where the library is looked for, in this order; where KNOTPASTURE_LIBRARY is set, there alone."""
    named = os.environ.get("KNOTPASTURE_LIBRARY")
    if named:
        return [named]
    package = pathlib.Path(__file__).resolve().parent
    folders = [package]
    if len(package.parents) > 1:
        folders += [package.parents[1] / "lib", package.parents[1] / "target" / "lib" / platform.machine()]
    beside = [folder / name for folder in folders if (folder / NAME).is_file() for name in (LOADER, NAME)]
    return [str(path) for path in beside if path.is_file()] + [NAME]


def library() -> ctypes.CDLL:
    """The library, loaded at the first call."""
    global _loaded
    with _lock:
        if _loaded is None:
            told = []
            for place in places():
                try:
                    _loaded = ctypes.CDLL(place)
                    break
                except OSError as error:
                    told.append(f"{place}: {error}")
            else:
                raise OSError("libknotpasture is not found: install the wheel that tools/wheel writes, which has it inside, or let KNOTPASTURE_LIBRARY "
                              f"name it: {'; '.join(told)}")
        return _loaded


def call(name: str) -> Any:
    """A call of the library with its types; NotImplementedError where the library that is loaded is older than this package."""
    bound = _bound.get(name)
    if bound is None:
        try:
            bound = getattr(library(), name)
        except AttributeError:
            raise NotImplementedError(f"the library that is loaded has no {name}: it is older than this package") from None
        bound.restype, bound.argtypes = CALLS[name]
        _bound[name] = bound
    return bound
