# A count in 100,000 pairs of parentheses, in the type of an argument.
PAIRS = 100_000
with open("s.defs", "w") as file:
    file.write("subsystem s 1;\n#include <mach/std_types.defs>\n")
    file.write("type t = array[" + "(" * PAIRS + "3" + ")" * PAIRS + "] of int;\n")
    file.write("routine r(p : mach_port_t; in a : t);\n")
