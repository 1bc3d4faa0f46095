"""Programs and histories of a given size, as the benches run them."""


def locking(threads):
    """Each thread has a lock and a function of its own: 1,023 times LOCK and UNLOCK, and then the function again, until no unit is left."""
    lines = ["dim program 1"] + [f"lock l{t}" for t in range(threads)]
    for t in range(threads):
        lines += [f"func f{t} 0"] + [f"LOCK l{t}", f"UNLOCK l{t}"] * 1023 + [f"CALL f{t}", "RET", "end"]
    return "\n".join(lines + [f"thread f{t} 0" for t in range(threads)] + ["end program\n"])


def counting():
    """Thirty-two threads that count in a loop, and end with no unit left."""
    lines = ["dim program 1", "func count 1", "GETL 0", "PUSH 1", "ADD", "PUTL 0", "JMP 0", "end"]
    return "\n".join(lines + ["thread count 0"] * 32 + ["end program\n"])


def meeting(times):
    """Two threads that take two locks in opposite orders, so often; with the signature loaded one of them yields again and again."""
    lines = ["dim program 1", "lock a", "lock b"]
    for name, first, second in (("left", "a", "b"), ("right", "b", "a")):
        lines += [f"func {name} 1", "PUTL 0", "GETL 0", "JZ 12", f"LOCK {first}", f"LOCK {second}", f"UNLOCK {second}", f"UNLOCK {first}"]
        lines += ["GETL 0", "PUSH 1", "SUB", "PUTL 0", "JMP 1", "RET", "end"]
    return "\n".join(lines + [f"thread left {times}", f"thread right {times}", "end program\n"])


def history(signatures):
    """These signatures, each a list of stacks."""
    lines = ["dim history 1"]
    for stacks in signatures:
        lines += [f"signature 4 {len(stacks)}"] + stacks
    return "\n".join(lines + [f"end {len(signatures)}\n"])


def deep(count):
    """So many signatures, each of two stacks with 32 frames."""
    tail = lambda i: " ".join([f"some_function_of_a_stack:{i}"] * 31)
    return history([[f"first:{i} {tail(i)}", f"second:{i} {tail(i)}"] for i in range(count)])


def others(count):
    """The signature of `meeting`, and before it so many of functions that no program has."""
    return history([[f"other:{i} g:0", f"other:{i} h:0"] for i in range(count)] + [["left:3", "right:3"]])
