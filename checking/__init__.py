"""The parts of ./check, some of which ./build and the sweeps use, too: crates.txt, what crates cost, the gate's progress, tools, and rows."""
