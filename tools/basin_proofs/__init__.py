"""What a contributor's scripts share that look at crates: their layout, and copies of them without bodies."""
