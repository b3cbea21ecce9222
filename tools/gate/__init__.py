"""What the gate checks besides the programs: contracts, pages, must-fail edits, and the gate itself."""
