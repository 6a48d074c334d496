"""Options that a command does not have. No text advises to pass one as the name of a file.

All was written by hand, from docs/FORMATS.md.
"""

ROWS = []


def row(name, words, err):
    ROWS.append({"name": name, "args": words.split(" "), "files": {}, "status": 2, "stderr": err})


OPTIONS = {command: options.split(" ") for command, options in {
    "verify": "wiring policy tree brief line waive format verbose",
    "mend": "wiring policy line waive most format verbose",
    "attack": "wiring policy line waive most format verbose",
    "check": "wiring policy cert waive format verbose",
    "make": "wiring out workers verbose",
    "explain": "wiring fact by format verbose",
    "facts": "wiring cert task class right format verbose",
    "graph": "wiring cert policy fact task holds format verbose",
    "slots": "wiring format verbose",
    "promises": "wiring format verbose",
    "expand": "wiring verbose",
    "replay": "wiring script format verbose",
    "live": "wiring policy cert script format verbose",
    "mig": "out strict strict-rights as-received format verbose",
    "encode": "message verbose",
    "decode": "hex verbose",
}.items()}
HELP = "\n\nFor more information, try '--help'.\n"


def lacking(command, option):
    """What is printed of an option that a command does not have, or the program before its command."""
    owners = [name for name, options in OPTIONS.items() if option in options]
    listed = " and ".join(filter(None, [", ".join(owners[:-1]), owners[-1]]))
    return f"error: {command} has no --{option}: {listed} {'has' if len(owners) == 1 else 'have'} it{HELP}"


for option_of in sorted({option for options in OPTIONS.values() for option in options}):
    for command, options in OPTIONS.items():
        if option_of not in options:
            row(f"{command} with --{option_of}", f"{command} --{option_of} x", lacking(command, option_of))
    row(f"--{option_of} before the command", f"--{option_of} x verify", lacking("machcheck", option_of))
row("an option with its value", "slots --policy=p --wiring w d", lacking("slots", "policy"))
row("an option behind others", "slots --wiring w --verbose d --policy p", lacking("slots", "policy"))
row("rights that slots can't keep", "slots --strict=rights", lacking("slots", "strict-rights"))
row("an option of no command", "slots --nothing", f"error: slots has no --nothing{HELP}")
row("an option of one letter", "slots -p", f"error: slots has no -p{HELP}")
row("an option that colours the line", "slots --\x1b\\", f"error: slots has no --\\x1b\\\\{HELP}")
