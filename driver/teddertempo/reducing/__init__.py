"""teddertempo-reduce: finds a small WebAssembly module of which a predicate still holds."""
