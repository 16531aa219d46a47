"""Tests engines of WebAssembly by rewrites of modules that keep what the modules do, and makes what is found smaller."""
