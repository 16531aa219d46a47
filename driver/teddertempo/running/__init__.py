"""teddertempo-diff: runs an engine on WebAssembly modules and on their rewrites, and names the rewrite that it falls over."""
