"""What tools/release packs, and how: the gate's note, the pages that are made, the parts, archive and package."""
