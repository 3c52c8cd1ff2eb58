"""C to firmware text: passes over clang's typed syntax tree, with plain data between them (docs/C.md)."""
