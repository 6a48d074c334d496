"""The wiring: l has as many names as it may have."""
from pathlib import Path

lines = ["wiring 3", "task l", "task f", "port p receiver f accepts none", "hold l send task f"]
lines += ["hold l once port p"] * 4094 + ["trust l takes send births f"]
Path("wiring").write_text("\n".join(lines) + "\n")
