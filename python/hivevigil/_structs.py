"""The structs of hivevigil.h, as ctypes has them."""
from __future__ import annotations

import ctypes
from ctypes import POINTER, c_char_p, c_int8, c_int64, c_size_t, c_uint8, c_uint64, c_void_p


class Handle(ctypes.Structure):
    _fields_ = [("at", c_void_p)]


class BuilderHandle(ctypes.Structure):
    _fields_ = [("at", c_void_p)]


class TableHandle(ctypes.Structure):
    _fields_ = [("at", c_void_p)]


class Fields(ctypes.Structure):
    _fields_ = [("first", c_uint64), ("second", c_uint64), ("third", c_uint64)]


class Kind(ctypes.Structure):
    _fields_ = [("number", c_uint8), ("nullable", c_uint8), ("precision", c_uint8), ("scale", c_int8)]


class Value(ctypes.Structure):
    _fields_ = [
        ("as_unsigned", c_uint64), ("as_signed", c_int64), ("kind", c_uint8), ("truth", c_uint8), ("scale", c_int8),
    ]


class Total(ctypes.Structure):
    _fields_ = [
        ("as_unsigned", c_uint64), ("as_signed", c_int64), ("kind", c_uint8), ("empty", c_uint8), ("scale", c_int8),
    ]


class Pair(ctypes.Structure):
    _fields_ = [("low", c_uint64), ("high", c_int64)]


class ArrowOptions(ctypes.Structure):
    _fields_ = [
        ("form", c_uint8), ("end_bits", c_uint8), ("offset_bits", c_uint8), ("bits_of_float", c_uint8),
        ("format", c_char_p), ("dictionary", POINTER(Handle)),
    ]


class Session(ctypes.Structure):
    _fields_ = [
        ("prefill_runs", c_size_t), ("min_run_filter_rows", c_size_t), ("filter_factor", c_size_t),
        ("sorted_runs_per_index", c_size_t), ("table_len_per_index", c_size_t), ("unsorted_min_runs", c_size_t),
        ("unsorted_runs_per_index", c_size_t), ("kernels", c_uint8 * 12),
    ]
