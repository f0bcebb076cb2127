"""The module that cffi makes of octseq.h: what cffi has no types for."""
from typing import Any

ffi: Any
lib: Any
