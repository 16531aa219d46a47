"""The binary format of WebAssembly: reads a module from bytes, and writes it."""
