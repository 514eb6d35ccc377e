"""The compiler, and demand 3 on a bus, go by what is promised of the chip: none of their crates may list one of its inside."""
import project

OUTSIDE = ["drawing", "compiler", "bus_drawing"]
INSIDE = ["engine", "phases", "commands", "display_bytes", "display", "pixel_counts"]
# what the chip stands on, and the compiler may see
SHARED = ["refusals", "registers", "instruction_table", "row_search", "text", "glass"]


def reached(crates, name):
    """The crates that this one stands on, at any depth."""
    found = set()
    for dep in crates.get(name, []):
        found |= {dep} | reached(crates, dep)
    return found


crates = project.crates()
faults = [f"crates.txt: {crate} lists {name}, the chip's inside"
          for crate in OUTSIDE for name in crates[crate] if name in INSIDE]
faults += [f"crates.txt: chip stands on {name}, and .ci/wall.py does not say on which side of the wall that is"
           for name in sorted(reached(crates, "chip") - {*INSIDE, *SHARED})]
project.finish("wall", faults)
print(f"wall: none of {', '.join(OUTSIDE)} lists any of {', '.join(INSIDE)}")
