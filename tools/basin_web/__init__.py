"""Makes the program for browsers: the module of a library over the top call, for 32-bit WebAssembly, and a page with it."""
