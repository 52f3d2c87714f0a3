"""What `tools/demo` shows: a stream through two relays over a path that loses, and the same stream past them."""
