# The module that build.py makes. cffi has no types for it; calls.py alone uses it, and the C compiler checks each declaration.
from typing import Any

ffi: Any
lib: Any
