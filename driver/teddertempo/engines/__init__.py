"""The engines: what each is asked with a module, and what its answers mean."""
